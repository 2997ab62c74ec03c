//! A script's threads on the replicated page table in plain Rust, with no proof, recorded, to compare with `nrvs run`:
//!     rustc -O -C target-cpu=x86-64-v2 benchmarks/unverified_run.rs
//!     ./unverified_run tuned|same REPLICAS answers|judged|trace [SEGMENT] <SCRIPT
//!     ./unverified_run script LINES
//! The first word is the design, as in `unverified_replicas`. It makes the trace, and prints the answers by thread and then by call, or
//! the bytes of the trace; with `judged` it audits these bytes too, and says so. The script has pages of 4 KiB and no access. With SEGMENT
//! it may have any length, and is run in segments of so many requests by 64 threads. `script` prints one of so many requests by 8 threads.
#[allow(dead_code)]
#[path = "unverified_replicas.rs"]
mod replicas;
#[path = "unverified_audit.rs"]
mod audit;

use replicas::table::{Answer, Op};
use replicas::unverified_log::{Apart, Log, OneVersion};
use replicas::Replicas;
use std::fmt::Write as _;
use std::io::{BufRead, BufWriter, Write};
use std::sync::atomic::{AtomicU64, Ordering};

#[derive(Clone, Copy)]
enum Request {
    Update(Op),
    Resolve(u64),
}

/// A call as its thread recorded it: its stamps, what was asked, and what was answered at which place.
struct Made {
    called: u64,
    replied: u64,
    request: Request,
    at: u64,
    answer: Answer,
}

fn number(word: &str) -> u64 {
    u64::from_str_radix(&word[2..], 16).expect("a number")
}

fn rights(word: &str) -> u64 {
    word.bytes().enumerate().map(|(i, letter)| u64::from(letter != b'-') << i).sum()
}

/// The requests of each thread.
fn script(text: &str) -> Vec<Vec<Request>> {
    let mut scripts: Vec<Vec<Request>> = Vec::new();
    for line in text.lines() {
        let words: Vec<&str> = line.split(' ').collect();
        let thread: usize = words[0].parse().expect("a thread");
        if scripts.len() <= thread {
            scripts.resize_with(thread + 1, Vec::new);
        }
        scripts[thread].push(match words[1] {
            "map" => Request::Update(Op::Map(number(words[3]), 1, number(words[4]), rights(words[5]))),
            "unmap" => Request::Update(Op::Unmap(number(words[2]))),
            "protect" => Request::Update(Op::Protect(number(words[2]), rights(words[3]))),
            _ => Request::Resolve(number(words[2])),
        });
    }
    scripts
}

/// Makes a thread's calls, each with a stamp before it and one after it, and adds them to those that it made.
fn work<L: Log, const KEEPS: bool>(
    service: &Replicas<L, KEEPS>,
    clock: &AtomicU64,
    thread: usize,
    requests: &[Request],
    mut made: Vec<Made>,
) -> Vec<Made> {
    for request in requests {
        let called = clock.fetch_add(1, Ordering::AcqRel);
        let (at, answer) = match *request {
            Request::Update(op) => service.update(thread, op),
            Request::Resolve(address) => service.read(thread, address),
        };
        let replied = clock.fetch_add(1, Ordering::AcqRel);
        made.push(Made { called, replied, request: *request, at, answer });
    }
    made
}

/// A call's kind, rights, address and physical address; all sizes are 4 KiB.
fn fields(request: Request) -> (u8, u8, u64, u64) {
    match request {
        Request::Update(Op::Map(base, _, phys, rights)) => (0, rights as u8, base, phys),
        Request::Update(Op::Unmap(base)) => (1, 0, base, 0),
        Request::Update(Op::Protect(base, rights)) => (2, rights as u8, base, 0),
        Request::Resolve(address) => (3, 0, address, 0),
    }
}

/// An answer's code, rights and value.
fn told(made: &Made) -> (u8, u8, u64) {
    match made.answer {
        Answer::Done => (0, 0, 0),
        Answer::Overlap => (1, 0, fields(made.request).2),
        Answer::Full(need) => (2, 0, need),
        Answer::Removed(phys, _, rights) => (3, rights as u8, phys),
        Answer::NotMapped => (4, 0, 0),
        Answer::Inside(base) => (5, 0, base),
        Answer::Changed(rights) => (6, rights as u8, 0),
        Answer::Mapped(phys, _, rights) => (7, rights as u8, phys),
    }
}

fn call_bytes(replica: usize, thread: usize, made: &Made) -> [u8; 24] {
    let (kind, rights, address, phys) = fields(made.request);
    let mut bytes = [0; 24];
    bytes[1] = replica as u8;
    bytes[2..4].copy_from_slice(&(thread as u16).to_be_bytes());
    (bytes[4], bytes[6]) = (kind, rights);
    bytes[8..16].copy_from_slice(&address.to_be_bytes());
    bytes[16..].copy_from_slice(&phys.to_be_bytes());
    bytes
}

fn reply_bytes(made: &Made) -> [u8; 24] {
    let (code, rights, value) = told(made);
    let mut bytes = [0; 24];
    (bytes[0], bytes[1], bytes[3]) = (1, code, rights);
    bytes[4..8].copy_from_slice(&(made.called as u32).to_be_bytes());
    bytes[8..12].copy_from_slice(&(made.at as u32).to_be_bytes());
    bytes[16..].copy_from_slice(&value.to_be_bytes());
    bytes
}

/// The bytes of a trace, or of a segment without a start.
fn trace<L: Log, const KEEPS: bool>(service: &mut Replicas<L, KEEPS>, runs: &[Vec<Made>], is_segment: bool) -> Vec<u8> {
    let count: usize = runs.iter().map(|made| 2 * made.len()).sum();
    let (mut log, mut events) = (vec![0u32; service.settle() as usize], vec![[0; 24]; count]);
    for (thread, made) in runs.iter().enumerate() {
        for each in made {
            if let Request::Update(_) = each.request {
                log[each.at as usize] = each.called as u32;
            }
            events[each.called as usize] = call_bytes(thread % service.replicas.len(), thread, each);
            events[each.replied as usize] = reply_bytes(each);
        }
    }
    let mut bytes = if is_segment { b"NRVS\0\x01\x04" } else { b"NRVT\0\x01\x04" }.to_vec();
    bytes.push(service.replicas.len() as u8);
    bytes.extend((runs.len() as u16).to_be_bytes());
    bytes.extend(4096u16.to_be_bytes());
    bytes.extend((log.len() as u32).to_be_bytes());
    bytes.extend((count as u32).to_be_bytes());
    bytes.extend(&[0; 4][..if is_segment { 4 } else { 0 }]);
    bytes.extend(log.iter().flat_map(|call| call.to_be_bytes()));
    bytes.extend(events.as_flattened());
    service.replicas.iter_mut().for_each(|replica| replica.dump(&mut bytes));
    bytes
}

fn letters(rights: u8) -> String {
    "wux".chars().enumerate().map(|(i, letter)| if rights >> i & 1 == 1 { letter } else { '-' }).collect()
}

fn text(runs: &[Vec<Made>]) -> String {
    let mut text = String::new();
    for (thread, made) in runs.iter().enumerate() {
        for each in made {
            let (code, rights, value) = told(each);
            let _ = match code {
                0 => writeln!(text, "{thread} done"),
                1 => writeln!(text, "{thread} overlap {value:#x}"),
                2 => writeln!(text, "{thread} full {value}"),
                3 => writeln!(text, "{thread} removed {value:#x} 4K {}", letters(rights)),
                4 => writeln!(text, "{thread} not mapped"),
                5 => writeln!(text, "{thread} inside {value:#x}"),
                6 => writeln!(text, "{thread} changed {}", letters(rights)),
                _ => writeln!(text, "{thread} mapped {value:#x} 4K {}", letters(rights)),
            };
        }
    }
    text
}

/// Runs the scripts: what is shown of that.
fn run<L: Log, const KEEPS: bool>(
    service: &mut Replicas<L, KEEPS>,
    scripts: &[Vec<Request>],
    shown: &str,
    segment: Option<&mut audit::Pages>,
) -> Vec<u8> {
    let clock = AtomicU64::new(0);
    let runs: Vec<Vec<Made>> = std::thread::scope(|scope| {
        let (service, clock) = (&*service, &clock);
        // Allocated before the threads begin: what a thread allocates itself stays in a region for threads.
        let room: Vec<Vec<Made>> = scripts.iter().map(|requests| Vec::with_capacity(requests.len())).collect();
        let start = |((thread, requests), made)| scope.spawn(move || work(service, clock, thread, requests, made));
        let threads: Vec<_> = scripts.iter().map(Vec::as_slice).enumerate().zip(room).map(start).collect();
        threads.into_iter().map(|thread| thread.join().unwrap()).collect()
    });
    let bytes = trace(service, &runs, segment.is_some());
    if shown == "trace" {
        return bytes;
    }
    if shown == "judged" {
        let mut none = audit::Pages::none();
        let order = audit::judge(&bytes, segment.unwrap_or(&mut none)).expect("a right run");
        assert!(order.len() >= runs.iter().map(Vec::len).sum());
    }
    text(&runs).into_bytes()
}

/// The next so many lines of a script.
fn lines(input: &mut impl BufRead, most: usize) -> String {
    let mut lines = String::new();
    for _ in 0..most {
        if input.read_line(&mut lines).expect("a script") == 0 {
            break;
        }
    }
    lines
}

/// Runs a script: all of it, or segment by segment.
fn run_all<L: Log, const KEEPS: bool>(replicas: usize, shown: &str, most: Option<usize>) {
    let (mut input, mut output) = (std::io::stdin().lock(), std::io::stdout());
    let mut scripts = script(&lines(&mut input, most.unwrap_or(usize::MAX)));
    let threads = if most.is_some() { 64 } else { scripts.len() };
    let mut service = Replicas::<L, KEEPS>::new(replicas, threads);
    let mut pages = audit::Pages::none();
    while !scripts.is_empty() {
        scripts.resize_with(threads, Vec::new);
        let segment = most.map(|_| &mut pages);
        output.write_all(&run(&mut service, &scripts, shown, segment)).expect("an output");
        service.cut();
        scripts = script(&lines(&mut input, most.unwrap_or(usize::MAX)));
    }
    if shown == "judged" {
        output.write_all(b"verified\n").expect("an output");
    }
}

/// Prints a script: half of its requests resolve a drawn address of 4,096 pages, the others map, protect or unmap a drawn page.
fn print_script(count: usize) -> std::io::Result<()> {
    let mut output = BufWriter::new(std::io::stdout());
    let mut state = 1u64;
    for _ in 0..count {
        state = state.wrapping_mul(6_364_136_223_846_793_005).wrapping_add(1_442_695_040_888_963_407);
        let (thread, kind, page) = (state >> 61, (state >> 32) % 6, (state >> 40) % 4096 * 4096);
        match kind {
            0 => writeln!(output, "{thread} map 4K {page:#x} {:#x} wux", (state >> 48) % 4096 * 4096)?,
            1 => writeln!(output, "{thread} protect {page:#x} w-x")?,
            2 => writeln!(output, "{thread} unmap {page:#x}")?,
            _ => writeln!(output, "{thread} resolve {:#x}", page + (state >> 52))?,
        }
    }
    output.flush()
}

fn main() {
    let words: Vec<String> = std::env::args().collect();
    let number = |n: usize| words.get(n).map(|word| word.parse::<usize>().expect("a number"));
    match words.get(1).map(String::as_str) {
        Some("script") => print_script(number(2).expect("LINES")).expect("an output"),
        Some("same") => run_all::<OneVersion, true>(number(2).expect("REPLICAS"), &words[3], number(4)),
        Some("tuned") => run_all::<Apart, false>(number(2).expect("REPLICAS"), &words[3], number(4)),
        _ => panic!("tuned|same REPLICAS answers|judged|trace [SEGMENT], or script LINES"),
    }
}
