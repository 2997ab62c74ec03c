//! A replicated page table in plain Rust, with no proof, to compare with `Replicas`, and one page table under a lock:
//!     rustc -O -C target-cpu=x86-64-v2 benchmarks/unverified_replicas.rs
//!     ./unverified_replicas tuned|same|mutex|rwlock THREADS REPLICAS CALLS READS [maps]
//! `tuned` is the protocol as one would write it for speed: the tails of its log lie apart, and nothing is confirmed. `same` is the design
//! of the proved program: its log has one version, each replica keeps the entries that it has applied with their answers, and an update
//! is confirmed by them.
//! 16,384 pages of 4 KiB are mapped first. Then each thread makes so many calls, of which READS in a hundred are resolves of drawn
//! addresses. The rest are protects of drawn pages, or with `maps` a map and an unmap, in turn, of one of 128 further pages of its own.
//! The log has 65,536 places, so that there may be 49,120 updates in all.
#[allow(dead_code)]
#[path = "unverified.rs"]
pub mod table;
pub mod unverified_log;

use std::cell::UnsafeCell;
use std::ops::{Deref, DerefMut};
use std::sync::atomic::{AtomicBool, AtomicU64, Ordering};
use std::sync::{Mutex, RwLock};
use std::time::{Duration, Instant};
use self::table::{Answer, Op, Space};
use self::unverified_log::{Apart, Entry, Log, OneVersion, PLACES, RING, Waits};

pub const PAGES: u64 = 16_384;

pub fn entry_of(op: Op) -> Entry {
    match op {
        Op::Map(base, _, phys, rights) => Entry { operation: base | rights << 4, frame: phys / 4096 },
        Op::Unmap(base) => Entry { operation: base | 1, frame: 0 },
        Op::Protect(base, rights) => Entry { operation: base | 2 | rights << 4, frame: 0 },
    }
}

pub fn op_of(entry: Entry) -> Op {
    let (base, rights) = (entry.operation & !4095, (entry.operation >> 4) % 8);
    match entry.operation % 4 {
        0 => Op::Map(base, 1, entry.frame * 4096, rights),
        1 => Op::Unmap(base),
        _ => Op::Protect(base, rights),
    }
}

impl Waits {
    /// Sleeps too, for longer each time, where it has waited for some time.
    pub fn wait_long(&mut self) {
        if self.0 > 10 {
            std::thread::sleep(Duration::from_micros(1 << (self.0 - 10).min(6)));
        }
        self.wait();
    }
}

/// A value under a lock, which is only tried.
pub struct Lock<T> {
    taken: AtomicBool,
    value: UnsafeCell<T>,
}

// SAFETY: the value is used under a guard alone, of which there is one at a time.
unsafe impl<T: Send> Sync for Lock<T> {}

pub struct Guard<'a, T>(&'a Lock<T>);

impl<T> Lock<T> {
    pub fn new(value: T) -> Lock<T> {
        Lock { taken: AtomicBool::new(false), value: UnsafeCell::new(value) }
    }

    pub fn attempt(&self) -> Option<Guard<'_, T>> {
        let taken = self.taken.load(Ordering::Relaxed) || self.taken.swap(true, Ordering::Acquire);
        if taken { None } else { Some(Guard(self)) }
    }

    /// # Safety
    ///
    /// Nobody has the lock meanwhile.
    pub unsafe fn shared(&self) -> &T {
        // SAFETY: so says the caller.
        unsafe { &*self.value.get() }
    }

    pub fn hold(&self) -> Guard<'_, T> {
        let mut waits = Waits(0);
        loop {
            match self.attempt() {
                Some(guard) => return guard,
                None => waits.wait_long(),
            }
        }
    }
}

impl<T> Deref for Guard<'_, T> {
    type Target = T;
    fn deref(&self) -> &T {
        // SAFETY: the lock is taken.
        unsafe { &*self.0.value.get() }
    }
}

impl<T> DerefMut for Guard<'_, T> {
    fn deref_mut(&mut self) -> &mut T {
        // SAFETY: the lock is taken.
        unsafe { &mut *self.0.value.get() }
    }
}

impl<T> Drop for Guard<'_, T> {
    fn drop(&mut self) {
        self.0.taken.store(false, Ordering::Release);
    }
}

/// Where a thread leaves its update and finds the answer. The state says which of them is there, and whose turn it is.
#[repr(align(64))]
pub struct Slot {
    state: AtomicU64,
    left: UnsafeCell<Left>,
}

#[derive(Clone, Copy)]
struct Left {
    entry: Entry,
    place: u64,
    answer: Answer,
}

// SAFETY: who may use what is left follows from the state.
unsafe impl Sync for Slot {}

const EMPTY: u64 = 0;
const POSTED: u64 = 1;
const READY: u64 = 2;

impl Slot {
    pub fn new() -> Slot {
        let left = Left { entry: Entry::default(), place: 0, answer: Answer::Done };
        Slot { state: AtomicU64::new(EMPTY), left: UnsafeCell::new(left) }
    }

    pub fn post(&self, entry: Entry) {
        // SAFETY: it is empty, and its thread alone fills it.
        unsafe { (*self.left.get()).entry = entry };
        self.state.store(POSTED, Ordering::Release);
    }

    /// What is posted, for a combiner, which holds its replica's lock.
    pub fn posted(&self) -> Option<Entry> {
        // SAFETY: it is posted, and its thread waits.
        (self.state.load(Ordering::Acquire) == POSTED).then(|| unsafe { (*self.left.get()).entry })
    }

    pub fn answer(&self, place: u64, answer: Answer) {
        // SAFETY: it is posted, and its thread waits.
        unsafe { ((*self.left.get()).place, (*self.left.get()).answer) = (place, answer) };
        self.state.store(READY, Ordering::Release);
    }

    pub fn poll(&self) -> Option<(u64, Answer)> {
        if self.state.load(Ordering::Acquire) != READY {
            return None;
        }
        self.state.store(EMPTY, Ordering::Relaxed);
        // SAFETY: it was ready, so no combiner uses it.
        let left = unsafe { *self.left.get() };
        Some((left.place, left.answer))
    }
}

/// A replica's table, how many entries it has applied, and the slots and entries of a batch, with its place if it has one.
struct Node {
    space: Space,
    applied: u64,
    count: usize,
    slots: [usize; RING],
    entries: [Entry; RING],
    first: Option<u64>,
    /// The entries that it has applied, each with its answer, where they are kept.
    told: Vec<(Entry, Answer)>,
}

/// A replica shares no cache line, nor the one beside it, with another.
#[repr(align(128))]
pub struct Replica {
    number: usize,
    node: Lock<Node>,
    /// Those of its own threads.
    slots: Vec<Slot>,
}

/// With `KEEPS` each replica keeps what it has applied, and an update is confirmed by that.
pub struct Replicas<L: Log, const KEEPS: bool> {
    log: L,
    pub replicas: Vec<Replica>,
}

impl Replica {
    /// Takes all entries and applies them, and leaves the answers of the batch in the slots.
    fn catch_up<const KEEPS: bool>(&self, node: &mut Node, log: &impl Log) {
        let mut entries = [Entry::default(); RING];
        let taken = log.take(self.number, node.applied, &mut entries);
        for (place, entry) in (node.applied..).zip(&entries[..taken]) {
            let answer = node.space.apply(op_of(*entry));
            if KEEPS {
                node.told.push((*entry, answer));
            }
            let Some(first) = node.first.filter(|first| *first <= place) else { continue };
            if let Some(slot) = node.slots[..node.count].get((place - first) as usize) {
                self.slots[*slot].answer(place, answer);
            }
        }
        node.applied += taken as u64;
        if taken > 0 && node.first.take().is_some() {
            node.count = 0;
        }
    }

    /// Tests that an update is at its place, which is not below this one, and was answered so.
    fn confirm(&self, from: u64, place: u64, entry: Entry, answer: Answer) {
        assert!(place >= from && self.node.hold().told[place as usize] == (entry, answer), "not confirmed");
    }

    /// Adds its part of a trace: how many entries it has applied, and its page table.
    pub fn dump(&mut self, bytes: &mut Vec<u8>) {
        let node = self.node.value.get_mut();
        bytes.extend((node.applied as u32).to_be_bytes());
        node.space.dump(bytes);
    }

    /// Collects updates, puts them into the log and catches up. Answers whether the log was full.
    fn combine<const KEEPS: bool>(&self, node: &mut Node, log: &impl Log) -> bool {
        if node.count == 0 {
            let posted = self.slots.iter().enumerate().filter_map(|(slot, at)| Some((slot, at.posted()?)));
            for (slot, entry) in posted.take(RING) {
                (node.slots[node.count], node.entries[node.count]) = (slot, entry);
                node.count += 1;
            }
        }
        let waits = node.count > 0 && node.first.is_none();
        if waits {
            node.first = log.append(self.number, &node.entries[..node.count]);
        }
        let full = waits && node.first.is_none();
        self.catch_up::<KEEPS>(node, log);
        full
    }
}

impl<L: Log, const KEEPS: bool> Replicas<L, KEEPS> {
    pub fn new(replicas: usize, threads: usize) -> Replicas<L, KEEPS> {
        let node = || Node {
            space: Space::new(4),
            applied: 0,
            count: 0,
            slots: [0; RING],
            entries: [Entry::default(); RING],
            first: None,
            told: Vec::with_capacity(if KEEPS { PLACES as usize } else { 0 }),
        };
        let replica = |number| Replica {
            number,
            node: Lock::new(node()),
            slots: (number..threads).step_by(replicas).map(|_| Slot::new()).collect(),
        };
        Replicas { log: L::new(replicas), replicas: (0..replicas).map(replica).collect() }
    }

    pub fn update(&self, thread: usize, op: Op) -> (u64, Answer) {
        let home = &self.replicas[thread % self.replicas.len()];
        let slot = &home.slots[thread / self.replicas.len()];
        let from = if KEEPS { self.log.tail() } else { 0 };
        slot.post(entry_of(op));
        let mut waits = Waits(0);
        loop {
            let full = match home.node.attempt() {
                Some(mut node) => home.combine::<KEEPS>(&mut node, &self.log),
                None => false,
            };
            if let Some((place, answer)) = slot.poll() {
                if KEEPS {
                    home.confirm(from, place, entry_of(op), answer);
                }
                return (place, answer);
            }
            if full {
                self.catch_up_all();
            }
            waits.wait_long();
        }
    }

    /// Has each replica apply all entries, but those at which another thread works.
    fn catch_up_all(&self) {
        for replica in &self.replicas {
            if let Some(mut node) = replica.node.attempt() {
                replica.catch_up::<KEEPS>(&mut node, &self.log);
            }
        }
    }

    pub fn read(&self, thread: usize, address: u64) -> (u64, Answer) {
        let home = &self.replicas[thread % self.replicas.len()];
        let seen = self.log.look();
        let mut node = home.node.hold();
        if !self.log.serves(seen, node.applied) {
            home.catch_up::<KEEPS>(&mut node, &self.log);
        }
        (node.applied, node.space.resolve(address))
    }

    /// Has each replica apply all entries, after all threads have ended: how many there are.
    pub fn settle(&mut self) -> u64 {
        self.catch_up_all();
        self.log.tail()
    }

    /// Gives the replicas a new log, once they have applied all of the old one; the page tables stay.
    pub fn cut(&mut self) {
        self.log = L::new(self.replicas.len());
        for replica in &mut self.replicas {
            let node = replica.node.value.get_mut();
            node.applied = 0;
            node.told.clear();
        }
    }
}

/// What a thread did: how many reads and updates, and the sum of the physical addresses that it read.
#[derive(Clone, Copy, Default)]
pub struct Done {
    reads: u64,
    updates: u64,
    sum: u64,
}

/// How many calls each thread makes, how many of a hundred read, and whether the others map and unmap.
#[derive(Clone, Copy)]
pub struct Work {
    calls: u64,
    reads: u64,
    maps: bool,
}

/// The next update of a thread, and what it answers. With `maps` it unmaps the page that it has mapped, or maps one of its own.
fn update(work: Work, thread: u64, drawn: u64, mapped: &mut Option<u64>) -> (Op, Answer) {
    if !work.maps {
        return (Op::Protect(drawn % PAGES * 4096, drawn / 7 % 8), Answer::Changed(0));
    }
    match mapped.take() {
        Some(base) => (Op::Unmap(base), Answer::Removed(base, 1, 7)),
        None => {
            let base = (PAGES + drawn % 128 * 128 + 1 + thread) * 4096;
            *mapped = Some(base);
            (Op::Map(base, 1, base, 7), Answer::Done)
        }
    }
}

/// The calls of a thread, drawn from its number.
pub fn calls(thread: usize, work: Work, mut call: impl FnMut(Option<Op>, u64) -> Answer) -> Done {
    let mut done = Done::default();
    let mut state = 0x9E37_79B9_7F4A_7C15u64.wrapping_mul(thread as u64 + 1);
    let mut mapped = None;
    for _ in 0..work.calls {
        state = state.wrapping_mul(6_364_136_223_846_793_005).wrapping_add(1_442_695_040_888_963_407);
        let drawn = state >> 33;
        let address = drawn % PAGES * 4096 + drawn % 4096;
        if drawn / PAGES % 100 < work.reads {
            let Answer::Mapped(phys, ..) = call(None, address) else { panic!("not mapped") };
            done.reads += 1;
            done.sum = done.sum.wrapping_add(phys);
        } else {
            let (op, wanted) = update(work, thread as u64, drawn, &mut mapped);
            let answer = call(Some(op), address);
            assert!(answer == wanted || !work.maps && matches!(answer, Answer::Changed(_)), "another answer");
            done.updates += 1;
        }
    }
    done
}

/// The pages that are read and protected, and one of each table of those that are mapped and unmapped.
pub fn maps() -> impl Iterator<Item = Op> {
    (0..PAGES).chain((PAGES..2 * PAGES).step_by(512)).map(|n| Op::Map(n * 4096, 1, n * 4096, 7))
}

/// What so many threads did, and the time of all together.
pub fn in_threads(threads: usize, work: impl Fn(usize) -> Done + Sync) -> (Vec<Done>, Duration) {
    let work = &work;
    let start = Instant::now();
    let done = std::thread::scope(|scope| {
        let threads: Vec<_> = (0..threads).map(|thread| scope.spawn(move || work(thread))).collect();
        threads.into_iter().map(|thread| thread.join().unwrap()).collect()
    });
    (done, start.elapsed())
}

/// The calls on replicas.
fn on_replicas<L: Log, const KEEPS: bool>(threads: usize, replicas: usize, work: Work) -> (Vec<Done>, Duration) {
    let service = Replicas::<L, KEEPS>::new(replicas, threads);
    maps().for_each(|op| {
        service.update(0, op);
    });
    in_threads(threads, |thread| {
        calls(thread, work, |op, address| match op {
            Some(op) => service.update(thread, op).1,
            None => service.read(thread, address).1,
        })
    })
}

/// The calls on one page table: how an update is made on it, and how a read.
pub fn on_one(
    threads: usize,
    work: Work,
    update: impl Fn(Op) -> Answer + Sync,
    read: impl Fn(u64) -> Answer + Sync,
) -> (Vec<Done>, Duration) {
    maps().for_each(|op| {
        update(op);
    });
    in_threads(threads, |thread| {
        calls(thread, work, |op, address| match op {
            Some(op) => update(op),
            None => read(address),
        })
    })
}

/// Makes the calls that the words after the first say, on so many threads and replicas: what each thread did, and the rate of all.
pub fn report(words: &[String], on: impl FnOnce(usize, usize, Work) -> (Vec<Done>, Duration)) {
    let number = |n: usize| words[n].parse::<u64>().expect("a number");
    let (threads, replicas) = (number(2) as usize, number(3) as usize);
    let work = Work { calls: number(4), reads: number(5), maps: words.get(6).is_some() };
    let (done, time) = on(threads, replicas, work);
    for done in done {
        println!("reads {} updates {} sum {}", done.reads, done.updates, done.sum);
    }
    let kind = if work.maps { "maps" } else { "reads" };
    eprintln!("operations a second  {:>12}", "call");
    eprintln!("{kind}_{}_{threads}_{replicas}  {:>12}", work.reads, (threads as f64 * work.calls as f64 / time.as_secs_f64()) as u64);
}

fn main() {
    let words: Vec<String> = std::env::args().collect();
    let (mutex, rwlock) = (Mutex::new(Space::new(4)), RwLock::new(Space::new(4)));
    report(&words, |threads, replicas, work| match words[1].as_str() {
        "tuned" => on_replicas::<Apart, false>(threads, replicas, work),
        "same" => on_replicas::<OneVersion, true>(threads, replicas, work),
        "mutex" => on_one(threads, work, |op| mutex.lock().unwrap().apply(op), |address| mutex.lock().unwrap().resolve(address)),
        "rwlock" => on_one(threads, work, |op| rwlock.write().unwrap().apply(op), |address| rwlock.read().unwrap().resolve(address)),
        _ => panic!("tuned, same, mutex or rwlock"),
    });
}
