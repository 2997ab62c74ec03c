//! Nodes over `std`'s locks: each has a state of its own, and all states change through one log.
extern crate std;

use super::{BadUpdate, Entry, LogWords, NoNode, Node, NodeWords, Step, Words};
use core::error::Error;
use core::fmt::{self, Display, Formatter};
use std::boxed::Box;
use std::cell::RefCell;
use std::mem;
use std::ptr;
use std::sync::atomic::{AtomicUsize, Ordering::SeqCst};
use std::sync::{Mutex, MutexGuard, PoisonError, TryLockError};
use std::thread;
use std::vec::Vec;

/// What a log's entries mean: how they change a state.
///
/// States that are equal at first, and are given equal updates in the same order, have to answer the same and stay equal.
pub trait State {
    /// What changes a state.
    type Update;
    /// What a change is answered.
    type Reply;

    /// An update in two words, of which the second is below 2^57.
    fn pack(update: &Self::Update) -> Entry;

    /// The update that was packed so.
    fn unpack(entry: Entry) -> Self::Update;

    /// Changes the state, and flushes what the node's processors keep of it.
    fn apply(&mut self, update: Self::Update) -> Self::Reply;
}

/// Why a call on `Nodes` isn't carried out. Its updates are not in the log, and never will be.
#[derive(Clone, Copy, Debug, PartialEq, Eq)]
pub enum CallError {
    /// The updates are refused.
    Bad(BadUpdate),
    /// The call is made inside another one on these nodes, by a closure of `read` or by `State::apply`: it would wait for itself.
    Inside,
    /// `State::apply` panicked at the node of this number. Its state is of no use any more, and no update is taken.
    Lost(usize),
}

/// The answers to the updates of a call.
#[must_use]
#[derive(Clone, Debug, PartialEq, Eq)]
pub struct Answered<Reply> {
    /// The place of the first update in the log; each other one's is the next.
    pub place: u64,
    /// What they were answered, in their order.
    pub replies: Vec<Reply>,
}

/// A node: its machine and its state, and whether `State::apply` has begun to change that and not ended.
#[derive(Debug)]
struct Home<S> {
    node: Node,
    state: S,
    changing: bool,
}

std::thread_local! {
    /// The nodes on which this thread has a call open, by their addresses.
    static INSIDE: RefCell<Vec<usize>> = const { RefCell::new(Vec::new()) };
}

/// A call of this thread, until it ends or panics.
struct Inside;

impl Drop for Inside {
    fn drop(&mut self) {
        INSIDE.with(|inside| _ = inside.borrow_mut().pop());
    }
}

/// Says that a node is lost, unless it is forgotten: `State::apply` has panicked.
struct Alarm<'a> {
    lost: &'a AtomicUsize,
    node: usize,
}

impl Drop for Alarm<'_> {
    fn drop(&mut self) {
        self.lost.store(self.node + 1, SeqCst);
    }
}

/// Up to 64 nodes, each with a state under a lock of its own.
///
/// Whoever calls names the node on which he runs. A call waits for that node's lock. An update of u entries waits for other nodes too,
/// where one of them is 17 - u entries or more behind, so that the ring has no room. Then it has that one take entries, or waits for
/// whoever has its lock. So a thread that was stopped at one node holds up no other until an update needs its node's room.
///
/// A closure of `read` may panic: the state is as it was, and all calls go on. Where `State::apply` panics, its node is lost: each later
/// call there is answered `Lost`, and so is each update at any node. Reads at the other nodes go on.
#[derive(Debug)]
pub struct Nodes<S> {
    log: LogWords,
    words: Box<[NodeWords]>,
    homes: Box<[Mutex<Home<S>>]>,
    /// The number of a node that is lost, plus 1.
    lost: AtomicUsize,
}

impl<S: State> Nodes<S> {
    /// Nodes with these states, one for each, which are equal. It allocates; no other call does, but for the replies of an update.
    ///
    /// # Errors
    ///
    /// `NoNode`, where there are none, or more than 64.
    pub fn new(states: impl IntoIterator<Item = S>) -> Result<Nodes<S>, NoNode> {
        let states: Vec<S> = states.into_iter().collect();
        let count = states.len();
        let homes: Result<Box<[_]>, NoNode> = states
            .into_iter()
            .enumerate()
            .map(|(number, state)| {
                let node = Node::new(count, number)?;
                Ok(Mutex::new(Home {
                    node,
                    state,
                    changing: false,
                }))
            })
            .collect();
        if count == 0 {
            return Err(NoNode);
        }
        Ok(Nodes {
            log: LogWords::default(),
            words: (0..count).map(|_| NodeWords::default()).collect(),
            homes: homes?,
            lost: AtomicUsize::new(0),
        })
    }

    /// How many nodes there are.
    #[must_use]
    pub fn count(&self) -> usize {
        self.homes.len()
    }

    /// Appends 1 to 16 updates at a node, one after another in the log, and applies there all that are before them. An update comes after all
    /// calls that ended before it began.
    ///
    /// # Errors
    ///
    /// `Bad` with `Empty`, `TooMany`, or `TooLarge` where `State::pack` gives a second word of 2^57 or more; `Inside`; `Lost`.
    ///
    /// # Panics
    ///
    /// Where there is no such node.
    pub fn update(
        &self,
        node: usize,
        updates: &[S::Update],
    ) -> Result<Answered<S::Reply>, CallError> {
        let _inside = self.enter()?;
        if let lost @ 1.. = self.lost.load(SeqCst) {
            return Err(CallError::Lost(lost - 1));
        }
        let updates: Vec<Entry> = updates.iter().map(S::pack).collect();
        let mut home = self.lock(node)?;
        home.node
            .update(&updates)
            .map_err(|bad| self.error(node, bad))?;
        self.run(node, &mut home)
    }

    /// Reads a node's state, in which are all updates that ended before the read began; and how many entries are in it.
    ///
    /// # Errors
    ///
    /// `Inside`; `Lost`.
    ///
    /// # Panics
    ///
    /// Where there is no such node, and where `read` panics.
    pub fn read<T>(&self, node: usize, read: impl FnOnce(&S, u64) -> T) -> Result<T, CallError> {
        let _inside = self.enter()?;
        let home = self.up_to(node, self.words().completed())?;
        Ok(read(&home.state, home.node.at()))
    }

    /// Has a node apply all that is in the log, as one that was idle, or a page fault's handler, has to: how many entries it has applied.
    ///
    /// # Errors
    ///
    /// `Inside`; `Lost`.
    ///
    /// # Panics
    ///
    /// Where there is no such node.
    pub fn sync(&self, node: usize) -> Result<u64, CallError> {
        let _inside = self.enter()?;
        Ok(self.up_to(node, u64::MAX)?.node.at())
    }

    /// Whether every node has applied the entry at a place, and flushed. Once it is so it stays so: what it took away may be used again.
    #[must_use]
    pub fn everywhere(&self, place: u64) -> bool {
        self.words().are_done(self.homes.len(), place)
    }

    fn words(&self) -> Words<'_> {
        Words {
            log: &self.log,
            nodes: &self.words,
        }
    }

    /// Begins a call of this thread, which has no other one on these nodes.
    fn enter(&self) -> Result<Inside, CallError> {
        let here = ptr::from_ref(self) as usize;
        INSIDE.with(|inside| {
            let mut inside = inside.borrow_mut();
            if inside.contains(&here) {
                return Err(CallError::Inside);
            }
            inside.push(here);
            Ok(Inside)
        })
    }

    /// Why a machine refuses a call. It is busy where an earlier call couldn't end, since a node is lost.
    fn error(&self, node: usize, bad: BadUpdate) -> CallError {
        match (bad, self.lost.load(SeqCst)) {
            (BadUpdate::Busy, 0) => CallError::Lost(node),
            (BadUpdate::Busy, lost) => CallError::Lost(lost - 1),
            (bad, _) => CallError::Bad(bad),
        }
    }

    /// A node that isn't lost. What panicked while it had the lock was a closure of `read`, or another node's change.
    fn lock(&self, node: usize) -> Result<MutexGuard<'_, Home<S>>, CallError> {
        let home = self.homes[node]
            .lock()
            .unwrap_or_else(PoisonError::into_inner);
        if home.changing {
            return Err(CallError::Lost(node));
        }
        Ok(home)
    }

    /// A node that has applied so many entries at least, or all that there are.
    fn up_to(&self, node: usize, at_least: u64) -> Result<MutexGuard<'_, Home<S>>, CallError> {
        let mut home = self.lock(node)?;
        if home.node.at() < at_least {
            self.catch_up(node, &mut home)?;
        }
        Ok(home)
    }

    /// A node whose lock is held applies all that there are.
    fn catch_up(&self, node: usize, home: &mut Home<S>) -> Result<(), CallError> {
        home.node
            .sync(u64::MAX)
            .map_err(|bad| self.error(node, bad))?;
        self.run(node, home).map(|_| ())
    }

    /// Goes on to the end of a call: the answers to its own updates.
    fn run(&self, node: usize, home: &mut Home<S>) -> Result<Answered<S::Reply>, CallError> {
        let (words, mut answered) = (
            self.words(),
            Answered {
                place: 0,
                replies: Vec::new(),
            },
        );
        loop {
            let kept = home.node.replies().len();
            match home.node.step() {
                Step::Carry(carry) => _ = carry.out(&words),
                Step::Apply(apply) => {
                    let (lost, place) = (&self.lost, apply.place());
                    let alarm = Alarm { lost, node };
                    home.changing = true;
                    let reply = home.state.apply(S::unpack(apply.entry()));
                    home.changing = false;
                    mem::forget(alarm);
                    apply.applied(Entry::default());
                    if home.node.replies().len() > kept {
                        if kept == 0 {
                            answered.place = place;
                        }
                        answered.replies.push(reply);
                    }
                }
                Step::Lags(lags) => {
                    self.wake(lags.node())?;
                    lags.again();
                }
                Step::Done => return Ok(answered),
                Step::Broken => panic!("a node was given a value that no word has"),
            }
        }
    }

    /// Has another node take entries, or waits a moment for whoever has its lock.
    fn wake(&self, other: usize) -> Result<(), CallError> {
        let mut home = match self.homes[other].try_lock() {
            Ok(home) => home,
            Err(TryLockError::Poisoned(home)) => home.into_inner(),
            Err(TryLockError::WouldBlock) => {
                thread::yield_now();
                return Ok(());
            }
        };
        if home.changing {
            return Err(CallError::Lost(other));
        }
        self.catch_up(other, &mut home)
    }
}

impl Display for CallError {
    fn fmt(&self, f: &mut Formatter<'_>) -> fmt::Result {
        match self {
            CallError::Bad(bad) => bad.fmt(f),
            CallError::Inside => f.write_str("a call inside another one on the same nodes"),
            CallError::Lost(node) => write!(f, "a change panicked at node {node}"),
        }
    }
}

impl Error for CallError {}
