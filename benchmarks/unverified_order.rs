//! Porcupine's algorithm in plain Rust, with no proof: whether the calls of a trace have an order, read from standard input. It is for
//! version 1 of the format, pages of 4 KiB and no access, and it takes the pages one by one, as a partition by key does.
//!
//!     unverified_order SECONDS <TRACE
//!
//! It prints `yes`, `no`, or after so many seconds `gave up`. The log, the dumps and the number of tables are not looked at.
//! Calls and returns are a list. A call that fits the page is lifted out of it with its return, until a return is met whose call isn't
//! lifted: then the last one goes back. What was lifted together with the page that this led to is looked for in a cache.
use std::collections::{BTreeMap, HashSet};
use std::io::Read;
use std::time::{Duration, Instant};

/// The physical address and the rights of a page.
type Page = Option<(u64, u8)>;

struct Call {
    asked: [u8; 24],
    made: usize,
    /// The event of its reply, and what that says. Without one it may be answered anything, at the end.
    answer: Option<(usize, [u8; 24])>,
}

fn word(bytes: &[u8], at: usize) -> u32 {
    u32::from_be_bytes(*bytes[at..].first_chunk().unwrap())
}

fn long(bytes: &[u8], at: usize) -> u64 {
    u64::from_be_bytes(*bytes[at..].first_chunk().unwrap())
}

/// The calls of each page, in the order in which they were made.
fn calls_of(bytes: &[u8]) -> Option<BTreeMap<u64, Vec<Call>>> {
    let known = bytes.len() >= 20 && bytes.starts_with(b"NRVT\0\x01");
    let events = bytes.get(20 + 4 * known.then(|| word(bytes, 12))? as usize..)?.as_chunks::<24>().0.get(..word(bytes, 16) as usize)?;
    let mut calls: BTreeMap<u64, Vec<Call>> = BTreeMap::new();
    let mut place = vec![(0, 0); events.len()];
    for (number, event) in events.iter().enumerate() {
        if event[0] == 0 {
            let page = long(event, 8) >> 12;
            let own = calls.entry(page).or_default();
            place[number] = (page, own.len());
            own.push(Call { asked: *event, made: number, answer: None });
        } else {
            let (page, index) = place[word(event, 4) as usize];
            calls.get_mut(&page)?[index].answer = Some((number, *event));
        }
    }
    Some(calls)
}

/// What the page is after a call, if that is answered so.
fn after(page: Page, call: &Call) -> Option<Page> {
    let (kind, rights, base) = (call.asked[4], call.asked[6], long(&call.asked, 8));
    let (answer, then) = match (kind, page) {
        (0, None) => ((0, 0, 0), Some((long(&call.asked, 16), rights))),
        (0, Some(_)) => ((1, 0, base & !0xFFF), page),
        (1, Some((physical, old))) => ((3, old, physical), None),
        (2, Some((physical, old))) => ((6, old, 0), Some((physical, rights))),
        (3, Some((physical, old))) => ((7, old, physical + base % 4096), page),
        (_, None) => ((4, 0, 0), None),
        _ => return None,
    };
    let fits = call.answer.is_none_or(|(_, said)| (said[1], said[3], long(&said, 16)) == answer);
    fits.then_some(then)
}

/// Calls and returns by time, each with the entries beside it. Entry 0 is before the first, and the last is behind all.
struct History {
    next: Vec<usize>,
    before: Vec<usize>,
    /// Of an entry the call, and of a call's entry that of its return.
    call: Vec<usize>,
    returns: Vec<Option<usize>>,
}

impl History {
    fn new(calls: &[Call]) -> History {
        let mut moments: Vec<(usize, usize, bool)> = Vec::new();
        for (index, call) in calls.iter().enumerate() {
            moments.push((call.made, index, true));
            moments.push((call.answer.map_or(usize::MAX, |(event, _)| event), index, false));
        }
        moments.sort_unstable();
        let count = moments.len();
        let mut made = vec![0; calls.len()];
        let mut history = History {
            next: (1..count + 3).collect(),
            before: (0..count + 2).map(|entry| entry.saturating_sub(1)).collect(),
            call: vec![0; count + 2],
            returns: vec![None; count + 2],
        };
        for (index, &(_, call, is_made)) in moments.iter().enumerate() {
            history.call[index + 1] = call;
            if is_made {
                made[call] = index + 1;
            } else {
                history.returns[made[call]] = Some(index + 1);
            }
        }
        history
    }

    fn lift(&mut self, entry: usize) {
        let (before, next) = (self.before[entry], self.next[entry]);
        self.next[before] = next;
        self.before[next] = before;
    }

    fn put_back(&mut self, entry: usize) {
        let (before, next) = (self.before[entry], self.next[entry]);
        self.next[before] = entry;
        self.before[next] = entry;
    }
}

/// Whether the calls of one page have an order, or nothing if that wasn't known in time.
fn has_order(calls: &[Call], until: Instant) -> Option<bool> {
    let mut history = History::new(calls);
    let end = history.next.len() - 1;
    let mut page: Page = None;
    let mut lifted: Vec<(usize, Page)> = Vec::new();
    let mut set = vec![0u64; calls.len().div_ceil(64)];
    let mut seen: HashSet<(Vec<u64>, Page)> = HashSet::new();
    let (mut entry, mut turns) = (history.next[0], 0u64);
    while history.next[0] != end {
        turns += 1;
        if turns % 256 == 0 && (Instant::now() > until || seen.len() * set.len() > 250_000_000) {
            return None;
        }
        let call = history.call[entry];
        let Some(back) = history.returns[entry] else {
            let Some((made, earlier)) = lifted.pop() else { return Some(false) };
            let call = history.call[made];
            set[call / 64] &= !(1 << (call % 64));
            page = earlier;
            history.put_back(history.returns[made].unwrap());
            history.put_back(made);
            entry = history.next[made];
            continue;
        };
        let then = after(page, &calls[call]);
        set[call / 64] |= 1 << (call % 64);
        if let Some(then) = then && seen.insert((set.clone(), then)) {
            lifted.push((entry, page));
            page = then;
            history.lift(entry);
            history.lift(back);
            entry = history.next[0];
        } else {
            set[call / 64] &= !(1 << (call % 64));
            entry = history.next[entry];
        }
    }
    Some(true)
}

fn main() {
    let seconds: u64 = std::env::args().nth(1).and_then(|word| word.parse().ok()).expect("unverified_order SECONDS <TRACE");
    let mut bytes = Vec::new();
    std::io::stdin().read_to_end(&mut bytes).expect("a trace");
    let until = Instant::now() + Duration::from_secs(seconds);
    let pages = calls_of(&bytes).expect("a trace of version 1");
    let mut found = Some(true);
    for calls in pages.values() {
        found = has_order(calls, until);
        if found != Some(true) {
            break;
        }
    }
    println!("{}", match found { Some(true) => "yes", Some(false) => "no", None => "gave up" });
}
