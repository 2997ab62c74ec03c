//! Logs that replicas share, in plain Rust, with no proof: `unverified_ring` times them, and `unverified_replicas` is built on them.
use std::sync::atomic::{AtomicU64, Ordering};

/// How many entries a log may have.
pub const PLACES: u64 = 65_536;
/// How many of them it keeps.
pub const RING: usize = 16;

/// An update as two words.
#[derive(Clone, Copy, Default, PartialEq)]
pub struct Entry {
    pub operation: u64,
    pub frame: u64,
}

/// A log that replicas append to and take entries from.
pub trait Log: Sync {
    fn new(replicas: usize) -> Self;

    /// Appends the entries for a replica, if none would have more than 16 to take. Where they are.
    fn append(&self, replica: usize, entries: &[Entry]) -> Option<u64>;

    /// Takes all entries from this place on, for a replica that has taken those before: how many they are.
    fn take(&self, replica: usize, from: u64, entries: &mut [Entry; RING]) -> usize;

    fn tail(&self) -> u64;

    /// What a read loads before it has its replica's lock.
    fn look(&self) -> u64;

    /// Whether a replica that has taken so many entries has all that some replica had taken at that look.
    fn serves(&self, seen: u64, taken: u64) -> bool;
}

/// A word with a cache line of its own.
#[repr(align(64))]
#[derive(Default)]
struct Word(AtomicU64);

impl Word {
    fn get(&self) -> u64 {
        self.0.load(Ordering::Acquire)
    }

    fn exchange(&self, old: u64, new: u64) -> bool {
        self.0.compare_exchange(old, new, Ordering::AcqRel, Ordering::Acquire).is_ok()
    }
}

/// A cell of the ring: an entry, and one more than the place where it is.
#[repr(align(64))]
#[derive(Default)]
struct Cell {
    after: AtomicU64,
    operation: AtomicU64,
    frame: AtomicU64,
}

/// A log whose tails lie apart. An append reserves its places by one exchange of the tail, and then fills them one after another.
pub struct Apart {
    tail: Word,
    completed: Word,
    /// A place that all replicas have reached.
    reached: Word,
    local: Vec<Word>,
    cells: [Cell; RING],
}

impl Apart {
    /// The entry at a place that is reserved, once it is filled.
    fn entry(&self, place: u64) -> Entry {
        let cell = &self.cells[place as usize % RING];
        let mut waits = Waits(0);
        while cell.after.load(Ordering::Acquire) != place + 1 {
            waits.wait();
        }
        Entry { operation: cell.operation.load(Ordering::Relaxed), frame: cell.frame.load(Ordering::Relaxed) }
    }

    /// Whether no replica would have more than 16 entries to take. It looks at their tails only where it has to.
    fn has_room(&self, end: u64) -> bool {
        if end <= self.reached.get() + RING as u64 {
            return true;
        }
        let least = self.local.iter().map(Word::get).min().unwrap_or(end);
        self.reached.0.store(least, Ordering::Release);
        end <= least + RING as u64
    }
}

impl Log for Apart {
    fn new(replicas: usize) -> Apart {
        let local = (0..replicas).map(|_| Word::default()).collect();
        Apart { tail: Word::default(), completed: Word::default(), reached: Word::default(), local, cells: Default::default() }
    }

    fn append(&self, _replica: usize, entries: &[Entry]) -> Option<u64> {
        let mut first = self.tail();
        loop {
            let end = first + entries.len() as u64;
            assert!(end <= PLACES, "the log has ended");
            if !self.has_room(end) {
                return None;
            }
            if self.tail.exchange(first, end) {
                break;
            }
            first = self.tail();
        }
        for (place, entry) in (first..).zip(entries) {
            let cell = &self.cells[place as usize % RING];
            cell.operation.store(entry.operation, Ordering::Relaxed);
            cell.frame.store(entry.frame, Ordering::Relaxed);
            cell.after.store(place + 1, Ordering::Release);
        }
        Some(first)
    }

    fn take(&self, replica: usize, from: u64, entries: &mut [Entry; RING]) -> usize {
        let to = self.tail();
        for (place, entry) in (from..to).zip(entries.iter_mut()) {
            *entry = self.entry(place);
        }
        if from < to {
            self.local[replica].0.store(to, Ordering::Release);
            if self.completed.get() < to {
                self.completed.0.fetch_max(to, Ordering::AcqRel);
            }
        }
        (to - from) as usize
    }

    fn tail(&self) -> u64 {
        self.tail.get()
    }

    /// The completed tail.
    fn look(&self) -> u64 {
        self.completed.get()
    }

    fn serves(&self, seen: u64, taken: u64) -> bool {
        seen <= taken
    }
}

/// A log with one version, as that of the proved program is: it determines the tails and the ring of the last entry, and each event of any
/// replica exchanges it. Each replica stores its entries in a ring of its own before that, and with each the ring of the one before it.
pub struct OneVersion {
    replicas: usize,
    version: Word,
    rings: [Ring; 4],
}

#[repr(align(64))]
#[derive(Default)]
struct Ring([[AtomicU64; 2]; RING]);

/// Where the ring of the entry before lies in an entry's second word.
const LINK: u32 = 56;

/// Of a version: the tail, how much room a replica has, and the ring of the last entry.
fn tail_of(version: u64) -> u64 {
    version >> 22
}

fn room_of(version: u64, replica: usize) -> u64 {
    (version >> (2 + 5 * replica)) % 32
}

fn last_ring(version: u64) -> u64 {
    version % 4
}

impl OneVersion {
    fn rooms(&self, version: u64) -> impl Iterator<Item = u64> {
        (0..self.replicas).map(move |replica| room_of(version, replica))
    }

    fn words(&self, ring: u64, place: u64) -> &[AtomicU64; 2] {
        &self.rings[ring as usize % 4].0[place as usize % RING]
    }
}

impl Log for OneVersion {
    fn new(replicas: usize) -> OneVersion {
        let start = (0..replicas).map(|replica| (RING as u64) << (2 + 5 * replica)).sum();
        OneVersion { replicas, version: Word(AtomicU64::new(start)), rings: Default::default() }
    }

    fn append(&self, replica: usize, entries: &[Entry]) -> Option<u64> {
        let (count, ring) = (entries.len() as u64, replica as u64);
        let mut waits = Waits(0);
        loop {
            let version = self.version.get();
            let tail = tail_of(version);
            assert!(tail + count <= PLACES, "the log has ended");
            if self.rooms(version).any(|room| room < count) {
                return None;
            }
            let mut before = last_ring(version);
            for (place, entry) in (tail..).zip(entries) {
                let words = self.words(ring, place);
                words[0].store(entry.operation, Ordering::Relaxed);
                words[1].store(entry.frame | before << LINK, Ordering::Relaxed);
                before = ring;
            }
            let less: u64 = (0..self.replicas).map(|replica| count << (2 + 5 * replica)).sum();
            if self.version.exchange(version, version - last_ring(version) + ring + (count << 22) - less) {
                return Some(tail);
            }
            waits.wait();
        }
    }

    fn take(&self, replica: usize, from: u64, entries: &mut [Entry; RING]) -> usize {
        let mut waits = Waits(0);
        loop {
            let version = self.version.get();
            let tail = tail_of(version);
            if from == tail {
                return 0;
            }
            let mut ring = last_ring(version);
            for place in (from..tail).rev() {
                let words = self.words(ring, place);
                let second = words[1].load(Ordering::Relaxed);
                let frame = second % (1 << LINK);
                entries[(place - from) as usize] = Entry { operation: words[0].load(Ordering::Relaxed), frame };
                ring = second >> LINK;
            }
            if self.version.exchange(version, version + ((tail - from) << (2 + 5 * replica))) {
                return (tail - from) as usize;
            }
            waits.wait();
        }
    }

    fn tail(&self) -> u64 {
        tail_of(self.version.get())
    }

    /// The version.
    fn look(&self) -> u64 {
        self.version.get()
    }

    fn serves(&self, seen: u64, taken: u64) -> bool {
        let lacks = tail_of(seen) - taken.min(tail_of(seen));
        lacks == 0 || self.rooms(seen).all(|room| room + lacks <= RING as u64)
    }
}

/// Spins a little, and then yields.
pub struct Waits(pub u32);

impl Waits {
    pub fn wait(&mut self) {
        match self.0 {
            0..=6 => (0..1 << self.0).for_each(|_| std::hint::spin_loop()),
            _ => std::thread::yield_now(),
        }
        self.0 += 1;
    }
}
