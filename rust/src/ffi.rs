//! What the archives export, as in include/nrvs.h, include/nrvs_plan.h and include/nrvs_audit.h.
use crate::page::{Frame, Mark};

/// A page table's handle.
#[derive(Debug, Default)]
#[repr(C)]
pub(crate) struct Table {
    magic: u64,
    levels: u64,
    pub(crate) root: u64,
    base: u64,
    frames: usize,
    taken: usize,
    given: usize,
    last: u64,
}

/// An answer in numbers.
#[derive(Debug, Default)]
#[repr(C)]
pub(crate) struct Reply {
    pub(crate) code: u8,
    pub(crate) size: u8,
    pub(crate) rights: u8,
    pub(crate) number: u64,
}

/// The handle of a chain that is judged as it comes.
#[cfg(feature = "audit")]
#[derive(Debug)]
#[repr(C)]
pub(crate) struct AuditChain {
    pub(crate) magic: u64,
    pub(crate) at: *mut core::ffi::c_void,
}

/// A verdict in numbers.
#[cfg(feature = "audit")]
#[derive(Debug, Default)]
#[repr(C)]
pub(crate) struct Finding {
    pub(crate) fault: u32,
    pub(crate) format: u32,
    pub(crate) index: u32,
    pub(crate) replica: u32,
    pub(crate) number: u64,
    pub(crate) calls: usize,
}

/// The page table that a plan is for.
#[cfg(feature = "plans")]
#[derive(Debug)]
#[repr(C)]
pub(crate) struct Target {
    pub(crate) root: u64,
    pub(crate) levels: u32,
    pub(crate) phys_bits: u32,
    pub(crate) pinned: u32,
}

/// A word that is to be stored.
#[cfg(feature = "plans")]
#[derive(Clone, Copy, Debug, Default)]
#[repr(C)]
pub(crate) struct Store {
    pub(crate) frame: u64,
    pub(crate) index: u64,
    pub(crate) old_word: u64,
    pub(crate) new_word: u64,
}

/// A table that is written before the stores.
#[cfg(feature = "plans")]
#[derive(Clone, Copy, Debug, Default)]
#[repr(C)]
pub(crate) struct Fill {
    pub(crate) frame: u64,
    pub(crate) first_word: u64,
    pub(crate) step: u64,
    pub(crate) gap: u64,
    pub(crate) gap_count: u64,
}

/// A plan, and how far it is.
#[cfg(feature = "plans")]
#[derive(Debug, Default)]
#[repr(C)]
pub(crate) struct Plan {
    pub(crate) frame: u64,
    pub(crate) reply: Reply,
    pub(crate) bits: u64,
    pub(crate) flush: u32,
    pub(crate) flush_size: u32,
    pub(crate) flush_base: u64,
    pub(crate) unlinked_count: u64,
    pub(crate) fills: u64,
    pub(crate) store_count: u64,
    way: [u64; 2],
    pub(crate) stores: [Store; 5],
    pub(crate) unlinked: [u64; 4],
    pub(crate) fill: Fill,
    own: [u64; 19],
}

/// A range, how far it is, and a run of words of one table.
#[cfg(feature = "plans")]
#[derive(Debug, Default)]
#[repr(C)]
pub(crate) struct Run {
    pub(crate) frame: u64,
    pub(crate) index: u64,
    pub(crate) count: u64,
    pub(crate) keep: u64,
    pub(crate) first_word: u64,
    pub(crate) step: u64,
    pub(crate) size: u32,
    pub(crate) flush: u32,
    pub(crate) covered: u64,
    pub(crate) base: u64,
    bytes: u64,
    own: u64,
    pub(crate) plan: Plan,
}

extern "C" {
    pub(crate) fn nrvs_table_new(
        table: *mut Table,
        words: *mut Frame,
        frames: usize,
        marks: *mut Mark,
        marked: usize,
        levels: u64,
        base: u64,
    ) -> u32;

    pub(crate) fn nrvs_table_map(
        table: *mut Table,
        words: *mut Frame,
        frames: usize,
        marks: *mut Mark,
        marked: usize,
        base: u64,
        size: u32,
        physical: u64,
        rights: u32,
        reply: *mut Reply,
    ) -> u32;

    pub(crate) fn nrvs_table_unmap(
        table: *mut Table,
        words: *mut Frame,
        frames: usize,
        marks: *mut Mark,
        marked: usize,
        base: u64,
        reply: *mut Reply,
    ) -> u32;

    pub(crate) fn nrvs_table_protect(
        table: *mut Table,
        words: *mut Frame,
        frames: usize,
        marks: *mut Mark,
        marked: usize,
        base: u64,
        rights: u32,
        reply: *mut Reply,
    ) -> u32;

    pub(crate) fn nrvs_table_resolve(
        table: *const Table,
        words: *const Frame,
        frames: usize,
        marks: *const Mark,
        marked: usize,
        address: u64,
        reply: *mut Reply,
    ) -> u32;

    pub(crate) fn nrvs_table_access(
        table: *const Table,
        words: *const Frame,
        frames: usize,
        marks: *const Mark,
        marked: usize,
        address: u64,
        mode: u32,
        access: u32,
        reply: *mut Reply,
    ) -> u32;

    pub(crate) fn nrvs_table_tables(
        table: *const Table,
        words: *const Frame,
        frames: usize,
        marks: *const Mark,
        marked: usize,
        count: *mut usize,
    ) -> u32;

    #[cfg(feature = "plans")]
    pub(crate) fn nrvs_plan_map(
        plan: *mut Plan,
        target: *const Target,
        base: u64,
        size: u32,
        physical: u64,
        rights: u32,
        bits: u64,
    ) -> u32;

    #[cfg(feature = "plans")]
    pub(crate) fn nrvs_plan_unmap(plan: *mut Plan, target: *const Target, base: u64) -> u32;

    #[cfg(feature = "plans")]
    pub(crate) fn nrvs_plan_protect(
        plan: *mut Plan,
        target: *const Target,
        base: u64,
        rights: u32,
    ) -> u32;

    #[cfg(feature = "plans")]
    pub(crate) fn nrvs_plan_remap(
        plan: *mut Plan,
        target: *const Target,
        base: u64,
        physical: u64,
        rights: u32,
    ) -> u32;

    #[cfg(feature = "plans")]
    pub(crate) fn nrvs_plan_split(plan: *mut Plan, target: *const Target, base: u64) -> u32;

    #[cfg(feature = "plans")]
    pub(crate) fn nrvs_plan_join(plan: *mut Plan, target: *const Target, base: u64) -> u32;

    #[cfg(feature = "plans")]
    pub(crate) fn nrvs_plan_prune(plan: *mut Plan, target: *const Target, address: u64) -> u32;

    #[cfg(feature = "plans")]
    pub(crate) fn nrvs_plan_unmap_part(
        plan: *mut Plan,
        target: *const Target,
        base: u64,
        first: u64,
        count: u64,
    ) -> u32;

    #[cfg(feature = "plans")]
    pub(crate) fn nrvs_plan_collapse(
        plan: *mut Plan,
        target: *const Target,
        base: u64,
        physical: u64,
        rights: u32,
    ) -> u32;

    #[cfg(feature = "plans")]
    pub(crate) fn nrvs_plan_ask(plan: *mut Plan, target: *const Target, address: u64) -> u32;

    #[cfg(feature = "plans")]
    pub(crate) fn nrvs_plan_see(plan: *mut Plan, words: *const u64) -> u32;

    #[cfg(feature = "plans")]
    pub(crate) fn nrvs_plan_give(plan: *mut Plan, frame: u64) -> u32;

    #[cfg(feature = "plans")]
    pub(crate) fn nrvs_plan_give_none(plan: *mut Plan) -> u32;

    #[cfg(feature = "plans")]
    pub(crate) fn nrvs_plan_map_range(
        run: *mut Run,
        target: *const Target,
        base: u64,
        size: u32,
        physical: u64,
        rights: u32,
        bits: u64,
        bytes: u64,
    ) -> u32;

    #[cfg(feature = "plans")]
    pub(crate) fn nrvs_plan_unmap_range(
        run: *mut Run,
        target: *const Target,
        base: u64,
        bytes: u64,
    ) -> u32;

    #[cfg(feature = "plans")]
    pub(crate) fn nrvs_plan_protect_range(
        run: *mut Run,
        target: *const Target,
        base: u64,
        bytes: u64,
        rights: u32,
    ) -> u32;

    #[cfg(feature = "plans")]
    pub(crate) fn nrvs_plan_harvest_range(
        run: *mut Run,
        target: *const Target,
        base: u64,
        bytes: u64,
    ) -> u32;

    #[cfg(feature = "plans")]
    pub(crate) fn nrvs_run_see(run: *mut Run, words: *const u64) -> u32;

    #[cfg(feature = "plans")]
    pub(crate) fn nrvs_run_give(run: *mut Run, frame: u64) -> u32;

    #[cfg(feature = "plans")]
    pub(crate) fn nrvs_run_give_none(run: *mut Run) -> u32;

    #[cfg(feature = "plans")]
    pub(crate) fn nrvs_plan_again(plan: *mut Plan, index: u64, found: u64) -> u32;

    #[cfg(feature = "audit")]
    pub(crate) fn nrvs_audit(
        bytes: *const u8,
        length: usize,
        order: *mut u32,
        room: usize,
        finding: *mut Finding,
    ) -> u32;

    #[cfg(feature = "audit")]
    pub(crate) fn nrvs_audit_chain_new(chain: *mut AuditChain, explain: bool) -> u32;

    #[cfg(feature = "audit")]
    pub(crate) fn nrvs_audit_chain_feed(
        chain: *mut AuditChain,
        bytes: *const u8,
        length: usize,
        order: *mut u32,
        room: usize,
        finding: *mut Finding,
        taken: *mut usize,
    ) -> u32;

    #[cfg(feature = "audit")]
    pub(crate) fn nrvs_audit_chain_end(chain: *mut AuditChain, finding: *mut Finding) -> u32;

    #[cfg(feature = "audit")]
    pub(crate) fn nrvs_audit_chain_explain(
        chain: *mut AuditChain,
        as_json: bool,
        text: *mut u8,
        room: usize,
        length: *mut usize,
    ) -> u32;

    #[cfg(feature = "audit")]
    pub(crate) fn nrvs_audit_chain_free(chain: *mut AuditChain);
}

#[cfg(all(test, feature = "plans"))]
mod tests {
    extern crate std;

    use super::Plan;
    use core::mem::{offset_of, size_of};
    use std::process::Command;
    use std::{env, format, fs, string::String};

    /// The fields of a plan are where C has them: a program in C says where.
    #[test]
    fn a_plan_is_laid_out_as_in_c() {
        let fields = [
            ("frame", offset_of!(Plan, frame)),
            ("reply", offset_of!(Plan, reply)),
            ("bits", offset_of!(Plan, bits)),
            ("fills", offset_of!(Plan, fills)),
            ("fill", offset_of!(Plan, fill)),
            ("store_count", offset_of!(Plan, store_count)),
            ("stores", offset_of!(Plan, stores)),
            ("flush", offset_of!(Plan, flush)),
            ("flush_size", offset_of!(Plan, flush_size)),
            ("flush_base", offset_of!(Plan, flush_base)),
            ("unlinked_count", offset_of!(Plan, unlinked_count)),
            ("unlinked", offset_of!(Plan, unlinked)),
        ];
        let mut text = String::from("#include \"nrvs_plan.h\"\n");
        for (name, at) in fields {
            text += &format!("_Static_assert(__builtin_offsetof(struct nrvs_plan, {name}) == {at}, \"{name}\");\n");
        }
        let size = size_of::<Plan>();
        text += &format!("_Static_assert(sizeof(struct nrvs_plan) == {size}, \"size\");\n");
        let file = env::temp_dir().join(format!("nrvs_layout_{}.c", std::process::id()));
        fs::write(&file, text).unwrap();
        let include = concat!(env!("CARGO_MANIFEST_DIR"), "/../include");
        let words = ["-std=c11", "-fsyntax-only", "-I", include];
        let status = Command::new("cc").args(words).arg(&file).status().unwrap();
        fs::remove_file(&file).unwrap();
        assert!(status.success());
    }
}
