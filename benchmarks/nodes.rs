//! The calls of `unverified_replicas` on nodes: each has a page table in plain Rust, and all change through the log of `nrvs::nodes`.
//!     benchmarks/run nodes
//!     ./nodes lock|shared|sequence|std THREADS NODES CALLS READS [maps]
//! A thread leaves its update in a slot, and whoever has its node's lock appends all that he finds there, up to 16. With `lock` a read has
//! the node's lock. With `shared` it is one of several, each of whom has a flag that whoever changes the table waits for. With `sequence` it
//! reads beside a change, and again where there was one. `std` is `Nodes`, where an update is appended alone, under a lock of `std`.
#[allow(dead_code)]
#[path = "unverified_replicas.rs"]
mod replicas;

use nrvs::nodes::{Entry, LogWords, Node, NodeWords, Nodes, State, Words, RING};
use replicas::table::{Answer, Op, Space};
use replicas::unverified_log::{self as log, Waits};
use replicas::{entry_of, op_of, Done, Guard, Lock, Slot, Work};
use std::sync::atomic::{fence, AtomicBool, AtomicU64, Ordering};
use std::time::Duration;

fn packed(op: Op) -> Entry {
    let entry = entry_of(op);
    Entry { first: entry.operation, second: entry.frame }
}

fn unpacked(entry: Entry) -> Op {
    op_of(log::Entry { operation: entry.first, frame: entry.second })
}

/// An answer in two words.
fn words_of(answer: Answer) -> Entry {
    let (kind, first, level, rights) = match answer {
        Answer::Done => (0, 0, 0, 0),
        Answer::Overlap => (1, 0, 0, 0),
        Answer::Full(need) => (2, need, 0, 0),
        Answer::Removed(phys, level, rights) => (3, phys, level, rights),
        Answer::NotMapped => (4, 0, 0, 0),
        Answer::Inside(base) => (5, base, 0, 0),
        Answer::Changed(rights) => (6, 0, 0, rights),
        Answer::Mapped(phys, level, rights) => (7, phys, level, rights),
    };
    Entry { first, second: kind | (level as u64) << 8 | rights << 16 }
}

fn answer_in(words: Entry) -> Answer {
    let (first, level, rights) = (words.first, (words.second >> 8 & 255) as usize, words.second >> 16);
    match words.second & 255 {
        0 => Answer::Done,
        1 => Answer::Overlap,
        2 => Answer::Full(first),
        3 => Answer::Removed(first, level, rights),
        4 => Answer::NotMapped,
        5 => Answer::Inside(first),
        6 => Answer::Changed(rights),
        _ => Answer::Mapped(first, level, rights),
    }
}

/// How reads have a node beside one another.
#[derive(Clone, Copy, PartialEq)]
enum Reads {
    Lock,
    Shared,
    Sequence,
}

/// A node's machine and its table; and the slots and updates of a batch.
struct Home {
    node: Node,
    space: Space,
    slots: [usize; RING],
    updates: [Entry; RING],
}

/// A flag with cache lines of its own.
#[repr(align(128))]
#[derive(Default)]
struct Flag(AtomicBool);

/// What a node's threads share.
#[repr(align(128))]
struct Place {
    home: Lock<Home>,
    slots: Vec<Slot>,
    /// Of each of its threads, whether it reads.
    reading: Vec<Flag>,
    /// Whether somebody changes it, for those that read; and a count that is odd meanwhile.
    changing: Flag,
    count: Count,
}

#[repr(align(128))]
struct Count(AtomicU64);

struct Machine {
    reads: Reads,
    log: LogWords,
    nodes: Vec<NodeWords>,
    places: Vec<Place>,
}

/// Who changes a node, alone.
struct Alone<'m>(&'m Machine, &'m Place, Guard<'m, Home>);

impl Drop for Alone<'_> {
    fn drop(&mut self) {
        match self.0.reads {
            Reads::Lock => {}
            Reads::Shared => self.1.changing.0.store(false, Ordering::Release),
            Reads::Sequence => _ = self.1.count.0.fetch_add(1, Ordering::Release),
        }
    }
}

impl Machine {
    fn new(reads: Reads, threads: usize, nodes: usize) -> Machine {
        let place = |number| Place {
            home: Lock::new(Home {
                node: Node::new(nodes, number).expect("a node"),
                space: Space::new(4),
                slots: [0; RING],
                updates: [Entry::default(); RING],
            }),
            slots: (number..threads).step_by(nodes).map(|_| Slot::new()).collect(),
            reading: (number..threads).step_by(nodes).map(|_| Flag::default()).collect(),
            changing: Flag::default(),
            count: Count(AtomicU64::new(0)),
        };
        let words = (0..nodes).map(|_| NodeWords::default()).collect();
        Machine { reads, log: LogWords::default(), nodes: words, places: (0..nodes).map(place).collect() }
    }

    fn words(&self) -> Words<'_> {
        Words { log: &self.log, nodes: &self.nodes }
    }

    /// The node, if nobody else has it, once nobody reads it any more.
    fn attempt<'m>(&'m self, place: &'m Place) -> Option<Alone<'m>> {
        let guard = place.home.attempt()?;
        match self.reads {
            Reads::Lock => {}
            Reads::Sequence => _ = place.count.0.fetch_add(1, Ordering::SeqCst),
            Reads::Shared => {
                place.changing.0.store(true, Ordering::SeqCst);
                for flag in &place.reading {
                    let mut waits = Waits(0);
                    while flag.0.load(Ordering::SeqCst) {
                        waits.wait_long();
                    }
                }
            }
        }
        Some(Alone(self, place, guard))
    }

    /// Goes on with a node's call to its end, and leaves the answers to its own updates in the slots.
    fn run(&self, place: &Place, home: &mut Home) {
        let Home { node, space, slots, .. } = home;
        let mut waits = Waits(0);
        node.run(
            &self.words(),
            |_, entry| words_of(space.apply(unpacked(entry))),
            |other| match self.attempt(&self.places[other]) {
                Some(mut alone) => self.catch_up(&self.places[other], &mut alone.2, u64::MAX),
                None => waits.wait(),
            },
        );
        for (reply, slot) in node.replies().iter().zip(slots) {
            place.slots[*slot].answer(node.at(), answer_in(*reply));
        }
    }

    /// Appends what is posted.
    fn combine(&self, place: &Place, home: &mut Home) {
        let mut count = 0;
        for (slot, at) in place.slots.iter().enumerate() {
            let Some(entry) = at.posted().filter(|_| count < RING) else { continue };
            home.slots[count] = slot;
            home.updates[count] = Entry { first: entry.operation, second: entry.frame };
            count += 1;
        }
        if count > 0 {
            home.node.update(&home.updates[..count]).expect("a node that rests");
            self.run(place, home);
        }
    }

    fn update(&self, thread: usize, op: Op) -> Answer {
        let place = &self.places[thread % self.places.len()];
        let slot = &place.slots[thread / self.places.len()];
        slot.post(entry_of(op));
        let mut waits = Waits(0);
        loop {
            if let Some((_, answer)) = slot.poll() {
                return answer;
            }
            match self.attempt(place) {
                Some(mut alone) => self.combine(place, &mut alone.2),
                None => waits.wait_long(),
            }
        }
    }

    /// Has a node apply what a read has to see.
    fn catch_up(&self, place: &Place, home: &mut Home, seen: u64) {
        if home.node.at() < seen {
            home.node.sync(seen).expect("a node that rests");
            self.run(place, home);
        }
    }

    fn read(&self, thread: usize, address: u64) -> Answer {
        let place = &self.places[thread % self.places.len()];
        let seen = self.words().completed();
        match self.reads {
            Reads::Lock => {
                let mut home = place.home.hold();
                self.catch_up(place, &mut home, seen);
                home.space.resolve(address)
            }
            Reads::Shared => self.read_shared(place, &place.reading[thread / self.places.len()], seen, address),
            Reads::Sequence => self.read_again(place, seen, address),
        }
    }

    fn read_shared(&self, place: &Place, flag: &Flag, seen: u64, address: u64) -> Answer {
        let mut waits = Waits(0);
        loop {
            flag.0.store(true, Ordering::SeqCst);
            if !place.changing.0.load(Ordering::SeqCst) {
                // SAFETY: nobody changes it before the flag falls.
                let home = unsafe { place.home.shared() };
                let answer = (home.node.at() >= seen).then(|| home.space.resolve(address));
                flag.0.store(false, Ordering::Release);
                match answer {
                    Some(answer) => return answer,
                    None => self.catch_up_alone(place, seen),
                }
            } else {
                flag.0.store(false, Ordering::Release);
                waits.wait_long();
            }
        }
    }

    fn read_again(&self, place: &Place, seen: u64, address: u64) -> Answer {
        let mut waits = Waits(0);
        loop {
            let count = place.count.0.load(Ordering::Acquire);
            if count % 2 == 0 {
                // SAFETY: none: for measuring alone. In a kernel the words of a table and `applied` are atomic.
                let home = unsafe { place.home.shared() };
                let answer = (home.node.at() >= seen).then(|| home.space.resolve(address));
                fence(Ordering::Acquire);
                if place.count.0.load(Ordering::Relaxed) == count {
                    match answer {
                        Some(answer) => return answer,
                        None => self.catch_up_alone(place, seen),
                    }
                }
            }
            waits.wait_long();
        }
    }

    fn catch_up_alone(&self, place: &Place, seen: u64) {
        if let Some(mut alone) = self.attempt(place) {
            self.catch_up(place, &mut alone.2, seen);
        }
    }
}

/// The calls on nodes with slots.
fn on_nodes(reads: Reads, threads: usize, nodes: usize, work: Work) -> (Vec<Done>, Duration) {
    let machine = Machine::new(reads, threads, nodes);
    replicas::maps().for_each(|op| _ = machine.update(0, op));
    replicas::in_threads(threads, |thread| {
        replicas::calls(thread, work, |op, address| match op {
            Some(op) => machine.update(thread, op),
            None => machine.read(thread, address),
        })
    })
}

impl State for Space {
    type Update = Op;
    type Reply = Answer;

    fn pack(op: &Op) -> Entry {
        packed(*op)
    }

    fn unpack(entry: Entry) -> Op {
        unpacked(entry)
    }

    fn apply(&mut self, op: Op) -> Answer {
        Space::apply(self, op)
    }
}

/// The calls on `Nodes`.
fn on_std(threads: usize, count: usize, work: Work) -> (Vec<Done>, Duration) {
    let nodes = Nodes::new((0..count).map(|_| Space::new(4))).expect("nodes");
    let update = |thread: usize, op| nodes.update(thread % count, &[op]).expect("an update").replies[0];
    replicas::maps().for_each(|op| _ = update(0, op));
    replicas::in_threads(threads, |thread| {
        replicas::calls(thread, work, |op, address| match op {
            Some(op) => update(thread, op),
            None => nodes.read(thread % count, |space, _| space.resolve(address)).expect("a read"),
        })
    })
}

fn main() {
    let words: Vec<String> = std::env::args().collect();
    replicas::report(&words, |threads, nodes, work| match words[1].as_str() {
        "lock" => on_nodes(Reads::Lock, threads, nodes, work),
        "shared" => on_nodes(Reads::Shared, threads, nodes, work),
        "sequence" => on_nodes(Reads::Sequence, threads, nodes, work),
        "std" => on_std(threads, nodes, work),
        _ => panic!("lock, shared, sequence or std"),
    });
}
