//! What the archive of nodes exports, as in include/nrvs_nodes.h.

/// Two words: an update, of which the second is below 2^57, or the reply to one.
#[derive(Clone, Copy, Debug, Default, PartialEq, Eq, Hash)]
#[repr(C)]
pub struct Entry {
    /// The first word.
    pub first: u64,
    /// The second word.
    pub second: u64,
}

/// What is asked for, in numbers.
#[derive(Clone, Debug, PartialEq, Eq, Hash)]
#[repr(C)]
pub(super) struct Asked {
    pub(super) code: u32,
    pub(super) word: u32,
    pub(super) node: u64,
    pub(super) index: u64,
    pub(super) value: u64,
    pub(super) new_value: u64,
    pub(super) entry: Entry,
}

/// The machine of a node, on cache lines of its own. The first word of those that are the library's is how many nodes there are.
#[derive(Clone, Debug, PartialEq, Eq, Hash)]
#[repr(C, align(128))]
pub(super) struct Node {
    pub(super) asked: Asked,
    pub(super) applied: u64,
    pub(super) reply_count: u64,
    pub(super) replies: [Entry; 16],
    pub(super) nodes: u64,
    own: [u64; 86],
}

impl Node {
    pub(super) const ZERO: Node = Node {
        asked: Asked {
            code: 0,
            word: 0,
            node: 0,
            index: 0,
            value: 0,
            new_value: 0,
            entry: Entry {
                first: 0,
                second: 0,
            },
        },
        applied: 0,
        reply_count: 0,
        replies: [Entry {
            first: 0,
            second: 0,
        }; 16],
        nodes: 0,
        own: [0; 86],
    };
}

extern "C" {
    pub(super) fn nrvs_node_new(node: *mut Node, nodes: u64, number: u64) -> u32;

    pub(super) fn nrvs_node_update(node: *mut Node, updates: *const Entry, count: usize) -> u32;

    pub(super) fn nrvs_node_sync(node: *mut Node, at_least: u64) -> u32;

    pub(super) fn nrvs_node_told(node: *mut Node, value: u64) -> u32;

    pub(super) fn nrvs_node_applied(node: *mut Node, reply: *const Entry) -> u32;

    pub(super) fn nrvs_nodes_everywhere(done: *const u64, nodes: usize, place: u64) -> bool;
}

#[cfg(test)]
mod tests {
    extern crate std;

    use super::{Asked, Node};
    use core::mem::{offset_of, size_of};
    use std::process::Command;
    use std::{env, format, fs, string::String};

    /// The fields of a node are where C has them: a program in C says where.
    #[test]
    fn a_node_is_laid_out_as_in_c() {
        let fields = [
            ("nrvs_node_asked", "code", offset_of!(Asked, code)),
            ("nrvs_node_asked", "word", offset_of!(Asked, word)),
            ("nrvs_node_asked", "node", offset_of!(Asked, node)),
            ("nrvs_node_asked", "index", offset_of!(Asked, index)),
            ("nrvs_node_asked", "value", offset_of!(Asked, value)),
            ("nrvs_node_asked", "new_value", offset_of!(Asked, new_value)),
            ("nrvs_node_asked", "entry", offset_of!(Asked, entry)),
            ("nrvs_node", "asked", offset_of!(Node, asked)),
            ("nrvs_node", "applied", offset_of!(Node, applied)),
            ("nrvs_node", "reply_count", offset_of!(Node, reply_count)),
            ("nrvs_node", "replies", offset_of!(Node, replies)),
            ("nrvs_node", "nodes", offset_of!(Node, nodes)),
            ("nrvs_node", "own", offset_of!(Node, own)),
        ];
        let mut text = String::from("#include \"nrvs_nodes.h\"\n");
        for (name, field, at) in fields {
            text += &format!("_Static_assert(__builtin_offsetof(struct {name}, {field}) == {at}, \"{field}\");\n");
        }
        let size = size_of::<Node>();
        text += &format!("_Static_assert(sizeof(struct nrvs_node) == {size}, \"size\");\n");
        let file = env::temp_dir().join(format!("nrvs_nodes_{}.c", std::process::id()));
        fs::write(&file, text).unwrap();
        let include = concat!(env!("CARGO_MANIFEST_DIR"), "/../include");
        let words = ["-std=c11", "-fsyntax-only", "-I", include];
        let status = Command::new("cc").args(words).arg(&file).status().unwrap();
        fs::remove_file(&file).unwrap();
        assert!(status.success());
    }
}
