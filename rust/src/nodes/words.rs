//! The words that nodes share, and the operations on one of them.
use core::sync::atomic::{AtomicU64, Ordering::SeqCst};

/// The length of a node's ring, and so the most updates of a call.
pub const RING: usize = 16;

/// The most nodes.
pub const MOST_NODES: usize = 64;

/// A word that nodes share. A node is named by its number.
#[derive(Clone, Copy, Debug, PartialEq, Eq, Hash)]
pub enum Word {
    /// The tail of the log, and who appended the last entry.
    Head,
    /// So many entries are completed: each later read sees them.
    Completed,
    /// How many entries a node has taken.
    Local(usize),
    /// How many entries a node has applied and flushed.
    Done(usize),
    /// The first word of the entry at an index, below `RING`, of a node's ring.
    First(usize, usize),
    /// The second word of that entry.
    Second(usize, usize),
}

/// One atomic operation on one word, sequentially consistent.
#[derive(Clone, Copy, Debug, PartialEq, Eq, Hash)]
pub enum Operation {
    /// Loads the word.
    Load(Word),
    /// Stores a value.
    Store(Word, u64),
    /// Compares the word with the first value and, where it is equal, stores the second.
    Exchange(Word, u64, u64),
    /// Stores the greater of the word and a value.
    Max(Word, u64),
}

/// A word with cache lines of its own.
#[derive(Debug, Default)]
#[repr(C, align(128))]
struct Lines(AtomicU64);

/// The words of all nodes, all 0 at first: laid out as C's `struct nrvs_log_words`.
#[derive(Debug, Default)]
#[repr(C)]
pub struct LogWords {
    head: Lines,
    completed: Lines,
}

/// The ring of a node.
#[derive(Debug, Default)]
#[repr(C, align(128))]
struct Ring([[AtomicU64; 2]; RING]);

/// The words of one node, all 0 at first: laid out as C's `struct nrvs_node_words`.
#[derive(Debug, Default)]
#[repr(C)]
pub struct NodeWords {
    local: Lines,
    done: Lines,
    ring: Ring,
}

/// The words of a log: those of all nodes, and those of each.
#[derive(Clone, Copy, Debug)]
pub struct Words<'w> {
    /// Those of all nodes.
    pub log: &'w LogWords,
    /// Those of each node, by its number.
    pub nodes: &'w [NodeWords],
}

/// Compares a word with a value and, where it is equal, stores another: what the word was.
#[inline]
pub(super) fn exchange(word: &AtomicU64, old: u64, new: u64) -> u64 {
    word.compare_exchange(old, new, SeqCst, SeqCst)
        .unwrap_or_else(|found| found)
}

impl Words<'_> {
    /// The word of a number, as C has them.
    #[inline]
    pub(super) fn numbered(&self, word: u32, node: usize, index: usize) -> &AtomicU64 {
        match word {
            0 => &self.log.head.0,
            1 => &self.log.completed.0,
            2 => &self.nodes[node].local.0,
            3 => &self.nodes[node].done.0,
            4 => &self.nodes[node].ring.0[index][0],
            _ => &self.nodes[node].ring.0[index][1],
        }
    }

    #[inline]
    fn word(&self, word: Word) -> &AtomicU64 {
        match word {
            Word::Head => self.numbered(0, 0, 0),
            Word::Completed => self.numbered(1, 0, 0),
            Word::Local(node) => self.numbered(2, node, 0),
            Word::Done(node) => self.numbered(3, node, 0),
            Word::First(node, index) => self.numbered(4, node, index),
            Word::Second(node, index) => self.numbered(5, node, index),
        }
    }

    /// Carries an operation out: what the word was before it.
    ///
    /// # Panics
    ///
    /// Where there is no such node or index; a machine of these nodes asks for none.
    #[inline]
    pub fn carry_out(&self, operation: Operation) -> u64 {
        match operation {
            Operation::Load(word) => self.word(word).load(SeqCst),
            Operation::Store(word, value) => {
                self.word(word).store(value, SeqCst);
                0
            }
            Operation::Exchange(word, old, new) => exchange(self.word(word), old, new),
            Operation::Max(word, value) => self.word(word).fetch_max(value, SeqCst),
        }
    }

    /// How many entries are completed. Whoever reads loads this first, and then looks at a node's state once that has applied as many.
    #[must_use]
    #[inline]
    pub fn completed(&self) -> u64 {
        self.carry_out(Operation::Load(Word::Completed))
    }
}
