//! Node replication: each node of a machine keeps a copy of something, and all copies change through one log.
//!
//! A `Node` asks for one atomic operation at a time, on words that are the caller's, and for entries to be applied: it has no memory but
//! its own, no lock and no handle. What is promised of it, and what the caller keeps, is in include/nrvs_nodes.h: each operation is carried
//! out as asked, nobody else writes the words, and one caller at a time has a node. No call here is `unsafe`: where the caller keeps none of
//! that the copies may differ, and nothing undefined happens.
//!
//! ```
//! use nrvs::nodes::{Entry, LogWords, Node, NodeWords, Words};
//!
//! let (log, nodes) = (LogWords::default(), [NodeWords::default(), NodeWords::default()]);
//! let words = Words { log: &log, nodes: &nodes };
//! let mut sums = [0, 0];
//! let mut node = [Node::new(2, 0)?, Node::new(2, 1)?];
//! node[0].update(&[Entry { first: 5, second: 0 }])?;
//! let add = |sum: &mut u64, entry: Entry| {
//!     *sum += entry.first;
//!     Entry { first: *sum, second: 0 }
//! };
//! node[0].run(&words, |_, entry| add(&mut sums[0], entry), |_| ());
//! node[1].sync(words.completed())?;
//! node[1].run(&words, |_, entry| add(&mut sums[1], entry), |_| ());
//! assert_eq!((sums, node[0].replies()[0].first), ([5, 5], 5));
//! # Ok::<(), Box<dyn std::error::Error>>(())
//! ```
mod ffi;
#[cfg(feature = "std")]
mod shared;
mod words;

pub use ffi::Entry;
#[cfg(feature = "std")]
pub use shared::{Answered, CallError, Nodes, State};
pub use words::{LogWords, NodeWords, Operation, Word, Words, MOST_NODES, RING};

use core::error::Error;
use core::fmt::{self, Display, Formatter};
use core::sync::atomic::Ordering::SeqCst;
use words::exchange;

/// There are more than 64 nodes, none, or none of this number.
#[derive(Clone, Copy, Debug, PartialEq, Eq)]
pub struct NoNode;

/// Why a call is refused. Nothing changed.
#[derive(Clone, Copy, Debug, PartialEq, Eq)]
pub enum BadUpdate {
    /// The call before isn't over.
    Busy,
    /// There is no update.
    Empty,
    /// There are more than 16.
    TooMany,
    /// A second word isn't below 2^57.
    TooLarge,
}

/// The machine of a node: a kilobyte of plain numbers.
#[derive(Clone, Debug, PartialEq, Eq, Hash)]
pub struct Node(ffi::Node);

/// What a node asks for.
#[derive(Debug, PartialEq, Eq)]
pub enum Step<'n> {
    /// One operation on one word.
    Carry(Carry<'n>),
    /// That the next entry is applied to its state, and flushed on its processors.
    Apply(Apply<'n>),
    /// That another node takes entries, since it is so far behind that the ring has no room for the updates.
    Lags(Lags<'n>),
    /// Nothing: the call is over.
    Done,
    /// Nothing ever again: it was given a value that no word has, or the log would pass 2^57 entries.
    Broken,
}

/// A node that waits for what a word was.
#[must_use = "the call goes on once the operation is carried out"]
#[derive(Debug, PartialEq, Eq)]
pub struct Carry<'n>(&'n mut ffi::Node);

/// A node that waits for a reply.
#[must_use = "the call goes on once the entry is applied"]
#[derive(Debug, PartialEq, Eq)]
pub struct Apply<'n>(&'n mut ffi::Node);

/// A node that waits for another.
#[must_use = "the call goes on once it is asked to look again"]
#[derive(Debug, PartialEq, Eq)]
pub struct Lags<'n>(&'n mut ffi::Node);

/// The step that a code means.
#[inline]
fn step(node: &mut ffi::Node, code: u32) -> Step<'_> {
    match code {
        0 => Step::Done,
        1..=4 => Step::Carry(Carry(node)),
        5 => Step::Apply(Apply(node)),
        6 => Step::Lags(Lags(node)),
        _ => Step::Broken,
    }
}

impl Node {
    /// The machine of node `number` of so many nodes, 1 to 64, all of whose words are 0.
    ///
    /// # Errors
    ///
    /// `NoNode`.
    pub fn new(nodes: usize, number: usize) -> Result<Node, NoNode> {
        let mut node = ffi::Node::ZERO;
        // SAFETY: the pointer is that of a reference.
        match unsafe { ffi::nrvs_node_new(&mut node, nodes as u64, number as u64) } {
            0 => Ok(Node(node)),
            _ => Err(NoNode),
        }
    }

    /// How many nodes there are.
    #[must_use]
    #[inline]
    pub fn nodes(&self) -> usize {
        self.0.nodes as usize
    }

    /// Whether every node is done with the entry at a place: it has applied it, and flushed. Once it is so it stays so.
    ///
    /// # Panics
    ///
    /// Where the words are of fewer nodes than the machine's.
    #[must_use]
    pub fn everywhere(&self, words: &Words<'_>, place: u64) -> bool {
        words.are_done(self.nodes(), place)
    }

    /// How many entries the node has applied; while no call is open they are completed too.
    #[must_use]
    #[inline]
    pub fn at(&self) -> u64 {
        self.0.applied
    }

    /// The replies to the updates of the call, in their order. After a refusal they are those of the call before.
    #[must_use]
    #[inline]
    pub fn replies(&self) -> &[Entry] {
        &self.0.replies[..(self.0.reply_count as usize).min(RING)]
    }

    /// Begins a call that appends 1 to 16 updates, one after another in the log.
    ///
    /// # Errors
    ///
    /// The first refusal that holds.
    pub fn update(&mut self, updates: &[Entry]) -> Result<Step<'_>, BadUpdate> {
        // SAFETY: the node is as the call before left it, and the other pointer is to as many updates as is said.
        let code = unsafe { ffi::nrvs_node_update(&mut self.0, updates.as_ptr(), updates.len()) };
        self.begun(code)
    }

    /// Begins a call that ends at once where the node has applied so many entries; else it has applied in the end all that were there when
    /// the head was loaded, which may be fewer.
    ///
    /// # Errors
    ///
    /// `Busy`.
    pub fn sync(&mut self, at_least: u64) -> Result<Step<'_>, BadUpdate> {
        // SAFETY: the node is as the call before left it.
        let code = unsafe { ffi::nrvs_node_sync(&mut self.0, at_least) };
        self.begun(code)
    }

    fn begun(&mut self, code: u32) -> Result<Step<'_>, BadUpdate> {
        match code {
            16 => Err(BadUpdate::Busy),
            17 => Err(BadUpdate::Empty),
            18 => Err(BadUpdate::TooMany),
            19 => Err(BadUpdate::TooLarge),
            code => Ok(step(&mut self.0, code)),
        }
    }

    /// What it asks for.
    #[inline]
    pub fn step(&mut self) -> Step<'_> {
        let code = self.0.asked.code;
        step(&mut self.0, code)
    }

    /// Goes on with the call that was begun, to its end. Each entry is applied by `apply`, which is given its place, flushes the node's
    /// processors, and answers its reply. Where a node is so far behind that the ring has no room for the updates, `lags` is given its
    /// number: it has that node sync, or waits. Nobody else is waited for.
    ///
    /// # Panics
    ///
    /// Where the node is broken: a word was written by somebody else, or the log has 2^57 entries.
    pub fn run(
        &mut self,
        words: &Words<'_>,
        mut apply: impl FnMut(u64, Entry) -> Entry,
        mut lags: impl FnMut(usize),
    ) {
        let mut now = self.step();
        loop {
            now = match now {
                Step::Carry(carry) => carry.out(words),
                Step::Apply(entry) => {
                    let reply = apply(entry.place(), entry.entry());
                    entry.applied(reply)
                }
                Step::Lags(other) => {
                    lags(other.node());
                    other.again()
                }
                Step::Done => return,
                Step::Broken => panic!("a node was given a value that no word has"),
            };
        }
    }
}

impl<'n> Carry<'n> {
    /// The operation that is asked for.
    #[must_use]
    #[inline]
    pub fn operation(&self) -> Operation {
        let asked = &self.0.asked;
        let (node, index) = (asked.node as usize, asked.index as usize);
        let word = match asked.word {
            0 => Word::Head,
            1 => Word::Completed,
            2 => Word::Local(node),
            3 => Word::Done(node),
            4 => Word::First(node, index),
            _ => Word::Second(node, index),
        };
        match asked.code {
            1 => Operation::Load(word),
            2 => Operation::Store(word, asked.value),
            3 => Operation::Exchange(word, asked.value, asked.new_value),
            _ => Operation::Max(word, asked.value),
        }
    }

    /// Carries the operation out on these words, and takes what the word was: as `Words::carry_out` of `operation`, and then `told`.
    ///
    /// # Panics
    ///
    /// Where the words are of fewer nodes than the machine's.
    #[inline]
    pub fn out(self, words: &Words<'_>) -> Step<'n> {
        let asked = &self.0.asked;
        let word = words.numbered(asked.word, asked.node as usize, asked.index as usize);
        let value = match asked.code {
            1 => word.load(SeqCst),
            2 => {
                word.store(asked.value, SeqCst);
                0
            }
            3 => exchange(word, asked.value, asked.new_value),
            _ => word.fetch_max(asked.value, SeqCst),
        };
        self.told(value)
    }

    /// Takes what the word was before the operation; of a store any value.
    #[inline]
    pub fn told(self, value: u64) -> Step<'n> {
        // SAFETY: the node is as the call before left it.
        let code = unsafe { ffi::nrvs_node_told(self.0, value) };
        step(self.0, code)
    }
}

impl<'n> Apply<'n> {
    /// The entry.
    #[must_use]
    #[inline]
    pub fn entry(&self) -> Entry {
        self.0.asked.entry
    }

    /// Its place in the log.
    #[must_use]
    #[inline]
    pub fn place(&self) -> u64 {
        self.0.applied
    }

    /// Takes the reply; it is kept where the entry is one of the call's own updates.
    #[inline]
    pub fn applied(self, reply: Entry) -> Step<'n> {
        // SAFETY: the node is as the call before left it, and the other pointer is that of a reference.
        let code = unsafe { ffi::nrvs_node_applied(self.0, &reply) };
        step(self.0, code)
    }
}

impl<'n> Lags<'n> {
    /// The node that is behind.
    #[must_use]
    #[inline]
    pub fn node(&self) -> usize {
        self.0.asked.node as usize
    }

    /// Goes on: where it still lags, this node asks for it again.
    #[inline]
    pub fn again(self) -> Step<'n> {
        // SAFETY: the node is as the call before left it.
        let code = unsafe { ffi::nrvs_node_told(self.0, 0) };
        step(self.0, code)
    }
}

impl Words<'_> {
    /// Whether each of so many nodes is done with the entry at a place.
    fn are_done(&self, count: usize, place: u64) -> bool {
        let mut done = [0; MOST_NODES];
        for (node, done) in done[..count].iter_mut().enumerate() {
            *done = self.carry_out(Operation::Load(Word::Done(node)));
        }
        // SAFETY: the pointer is to as many words as is said.
        unsafe { ffi::nrvs_nodes_everywhere(done.as_ptr(), count, place) }
    }
}

impl Display for NoNode {
    fn fmt(&self, f: &mut Formatter<'_>) -> fmt::Result {
        f.write_str("more than 64 nodes, or none of this number")
    }
}

impl Display for BadUpdate {
    fn fmt(&self, f: &mut Formatter<'_>) -> fmt::Result {
        f.write_str(match self {
            BadUpdate::Busy => "the call before isn't over",
            BadUpdate::Empty => "no update",
            BadUpdate::TooMany => "more than 16 updates",
            BadUpdate::TooLarge => "a second word of 2^57 or more",
        })
    }
}

impl Error for NoNode {}

impl Error for BadUpdate {}
