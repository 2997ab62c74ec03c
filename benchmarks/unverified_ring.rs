//! The same calls on logs in plain Rust, with no proof, to compare with `nrvs_benchmark log`:
//!     rustc -O -C target-cpu=x86-64-v2 benchmarks/unverified_ring.rs && ./unverified_ring apart|cell looks|appends THREADS CALLS
//! The tails of the log of `apart` have a cache line each; that of `cell` lies in one cell, as that of the proved program does.
mod unverified_log;

use std::time::{Duration, Instant};
use unverified_log::{Apart, Entry, Log, OneVersion, RING, Waits};

/// What a replica has taken: how many entries, and the sum of the numbers of their calls.
#[derive(Clone, Copy, Default)]
struct Taken {
    entries: u64,
    calls: u64,
}

fn entry_of(call: u64) -> Entry {
    Entry { operation: 1, frame: call << 39 }
}

fn take(log: &impl Log, replica: usize, taken: &mut Taken) {
    let mut entries = [Entry::default(); RING];
    let count = log.take(replica, taken.entries, &mut entries);
    taken.entries += count as u64;
    taken.calls += entries[..count].iter().map(|entry| entry.frame >> 39).sum::<u64>();
}

/// Appends so many entries, and takes entries until the replica has all that the threads append.
fn append_and_take(log: &impl Log, replica: usize, calls: u64, all: u64) -> Taken {
    let mut taken = Taken::default();
    for call in 0..calls {
        let mut waits = Waits(0);
        while log.append(replica, &[entry_of(call)]).is_none() {
            take(log, replica, &mut taken);
            waits.wait();
        }
    }
    let mut waits = Waits(0);
    while taken.entries != all {
        take(log, replica, &mut taken);
        waits.wait();
    }
    taken
}

/// What so many threads return, and the time of all together.
fn in_threads<T: Send>(threads: usize, work: impl Fn(usize) -> T + Sync) -> (Vec<T>, Duration) {
    let work = &work;
    let start = Instant::now();
    let results = std::thread::scope(|scope| {
        let threads: Vec<_> = (0..threads).map(|thread| scope.spawn(move || work(thread))).collect();
        threads.into_iter().map(|thread| thread.join().unwrap()).collect()
    });
    (results, start.elapsed())
}

fn looks<L: Log>(threads: usize, calls: u64) -> Duration {
    let log = L::new(threads);
    log.append(0, &[entry_of(0); RING]).expect("room");
    let (tails, time) = in_threads(threads, |_| (0..calls).map(|_| log.tail()).sum::<u64>());
    println!("looks {}\ntails {}", threads as u64 * calls, tails.iter().sum::<u64>());
    time
}

fn appends<L: Log>(threads: usize, calls: u64) -> Duration {
    let (log, all) = (L::new(threads), threads as u64 * calls);
    let (taken, time) = in_threads(threads, |replica| append_and_take(&log, replica, calls, all));
    assert!(log.serves(log.look(), all));
    println!("tail {}\ncompleted {all}", log.tail());
    for taken in taken {
        println!("taken {} calls {}", taken.entries, taken.calls);
    }
    time
}

fn main() {
    let words: Vec<String> = std::env::args().collect();
    let (threads, calls) = (words[3].parse().expect("THREADS"), words[4].parse().expect("CALLS"));
    let (name, time) = match (words[2].as_str(), words[1].as_str()) {
        ("looks", "apart") => ("look", looks::<Apart>(threads, calls)),
        ("looks", "cell") => ("look", looks::<OneVersion>(threads, calls)),
        ("appends", "apart") => ("append", appends::<Apart>(threads, calls)),
        ("appends", "cell") => ("append", appends::<OneVersion>(threads, calls)),
        _ => panic!("apart or cell, and looks or appends"),
    };
    let rate = (threads as f64 * calls as f64 / time.as_secs_f64()) as u64;
    eprintln!("operations a second  {name:>12}");
    eprintln!("{threads}_threads            {rate:>12}");
}
