//! Nodes: all schedules of two updates, drawn schedules of three nodes, threads on page tables and counters, and each refusal.
#![cfg(all(feature = "nodes", feature = "std"))]
use nrvs::nodes::{
    BadUpdate, CallError, Entry, LogWords, NoNode, Node, NodeWords, Nodes, Operation, State, Step,
    Word, Words, MOST_NODES, RING,
};
use nrvs::{ChangeError, Depth, Frame, MapError, Mapping, Mark, Page, PageTable, Rights, Size};
use std::collections::{BTreeMap, HashSet};
use std::hash::{DefaultHasher, Hash, Hasher};
use std::panic::{catch_unwind, AssertUnwindSafe};
use std::sync::atomic::{AtomicU64, Ordering::SeqCst};
use std::sync::Mutex;
use std::thread;

fn draw(seed: &mut u64, below: u64) -> u64 {
    *seed = seed
        .wrapping_mul(6364136223846793005)
        .wrapping_add(1442695040888963407);
    (*seed >> 33) % below
}

/// Nodes whose operations are carried out one by one, in an order that a test chooses; and the log that each has applied.
#[derive(Clone)]
struct Schedule {
    words: BTreeMap<(u8, usize, usize), u64>,
    nodes: Vec<Node>,
    logs: Vec<Vec<u64>>,
}

impl Schedule {
    fn new(count: usize) -> Schedule {
        let nodes = (0..count).map(|number| Node::new(count, number).unwrap());
        Schedule {
            words: BTreeMap::new(),
            nodes: nodes.collect(),
            logs: vec![Vec::new(); count],
        }
    }

    fn carry_out(&mut self, operation: Operation) -> u64 {
        let (Operation::Load(word)
        | Operation::Store(word, _)
        | Operation::Exchange(word, ..)
        | Operation::Max(word, _)) = operation;
        let key = match word {
            Word::Head => (0, 0, 0),
            Word::Completed => (1, 0, 0),
            Word::Local(node) => (2, node, 0),
            Word::Done(node) => (3, node, 0),
            Word::First(node, index) => (4, node, index),
            Word::Second(node, index) => (5, node, index),
        };
        let word = self.words.entry(key).or_default();
        let was = *word;
        match operation {
            Operation::Load(_) => {}
            Operation::Store(_, value) => *word = value,
            Operation::Exchange(_, old, new) if was == old => *word = new,
            Operation::Exchange(..) => {}
            Operation::Max(_, value) => *word = was.max(value),
        }
        was
    }

    /// One step of a node; false where its call is over. A node that lags is named.
    fn step(&mut self, number: usize) -> Result<bool, usize> {
        let asked = match self.nodes[number].step() {
            Step::Carry(carry) => carry.operation(),
            Step::Apply(apply) => {
                let (place, entry) = (apply.place(), apply.entry());
                assert_eq!(place, self.logs[number].len() as u64);
                self.logs[number].push(entry.first);
                let reply = Entry {
                    first: place,
                    second: entry.first,
                };
                return Ok(apply.applied(reply) != Step::Done);
            }
            Step::Lags(lags) => {
                let other = lags.node();
                lags.again();
                return Err(other);
            }
            Step::Done => return Ok(false),
            Step::Broken => panic!("broken"),
        };
        let value = self.carry_out(asked);
        match self.nodes[number].step() {
            Step::Carry(carry) => Ok(carry.told(value) != Step::Done),
            other => panic!("{other:?} after an operation"),
        }
    }

    fn agree(&self) {
        for log in &self.logs {
            let shared = log.len().min(self.logs[0].len());
            assert_eq!(log[..shared], self.logs[0][..shared]);
        }
    }
}

fn update(name: u64) -> Entry {
    Entry {
        first: name,
        second: 7,
    }
}

#[test]
fn all_schedules_of_two_updates() {
    let mut seen = HashSet::new();
    let mut first = Schedule::new(2);
    for number in 0..2 {
        first.nodes[number]
            .update(&[update(number as u64)])
            .unwrap();
    }
    let mut left = vec![first];
    let mut ends = 0;
    while let Some(now) = left.pop() {
        let mut hasher = DefaultHasher::new();
        (&now.words, &now.nodes, &now.logs).hash(&mut hasher);
        if !seen.insert(hasher.finish()) {
            continue;
        }
        now.agree();
        let mut over = true;
        for number in 0..2 {
            let mut next = now.clone();
            if next.nodes[number].step() != Step::Done {
                over = false;
                next.step(number).unwrap();
                left.push(next);
            }
        }
        if over {
            ends += 1;
            let places: Vec<u64> = now.nodes.iter().map(|it| it.replies()[0].first).collect();
            assert!(places == [0, 1] || places == [1, 0]);
            for (node, name) in now.nodes.iter().zip(0..) {
                assert_eq!((node.replies().len(), node.replies()[0].second), (1, name));
            }
        }
    }
    assert!(seen.len() > 400 && ends > 1, "{} {ends}", seen.len());
}

#[test]
fn drawn_schedules_of_three_nodes() {
    for seed in 0..60 {
        let mut seed = seed * 2 + 1;
        let mut now = Schedule::new(3);
        let (mut name, mut lagged) = (0, 0);
        for _ in 0..4000 {
            // one node is slow: the others are a ring ahead of it now and then
            let number = (draw(&mut seed, 21) / 10) as usize;
            if now.nodes[number].step() == Step::Done {
                let count = draw(&mut seed, 6);
                let updates: Vec<Entry> = (name..name + count).map(update).collect();
                name += count;
                let begun = match count {
                    0 => now.nodes[number].sync(u64::MAX),
                    _ => now.nodes[number].update(&updates),
                };
                begun.unwrap();
                continue;
            }
            if let Err(other) = now.step(number) {
                lagged += 1;
                if now.nodes[other].step() == Step::Done {
                    now.nodes[other].sync(u64::MAX).unwrap();
                }
            }
        }
        now.agree();
        assert!(lagged > 0);
    }
}

/// What changes a page table.
#[derive(Clone, Copy, Debug)]
enum Change {
    Map(Page),
    Unmap(u64),
    Protect(u64, Rights),
}

#[derive(Clone, Debug, PartialEq)]
enum Changed {
    Mapped(Result<(), MapError>),
    Unmapped(Result<Mapping, ChangeError>),
    Protected(Result<Rights, ChangeError>),
}

fn rights_of(code: u64) -> Rights {
    Rights {
        write: code & 1 != 0,
        user: code & 2 != 0,
        exec: code & 4 != 0,
    }
}

fn code_of(rights: Rights) -> u64 {
    u64::from(rights.write) | u64::from(rights.user) << 1 | u64::from(rights.exec) << 2
}

/// A page table of a node, in frames of its own.
struct Space(PageTable<'static>);

fn space() -> Space {
    let frames = Vec::leak(vec![Frame::ZERO; 13]);
    let marks = Vec::leak(vec![Mark::default(); 13]);
    Space(PageTable::new(Depth::Four, 0x100, frames, marks).unwrap())
}

impl State for Space {
    type Update = Change;
    type Reply = Changed;

    fn pack(update: &Change) -> Entry {
        let (first, second) = match *update {
            Change::Map(page) => (page.base + 8 * code_of(page.rights), page.phys / 4096),
            Change::Unmap(base) => (base + 1, 0),
            Change::Protect(base, rights) => (base + 2 + 8 * code_of(rights), 0),
        };
        Entry { first, second }
    }

    fn unpack(entry: Entry) -> Change {
        let (base, rights) = (entry.first & !4095, rights_of(entry.first / 8 % 8));
        match entry.first % 8 {
            0 => Change::Map(Page {
                base,
                size: Size::K4,
                phys: entry.second * 4096,
                rights,
            }),
            1 => Change::Unmap(base),
            _ => Change::Protect(base, rights),
        }
    }

    fn apply(&mut self, update: Change) -> Changed {
        match update {
            Change::Map(page) => Changed::Mapped(self.0.map(page)),
            Change::Unmap(base) => Changed::Unmapped(self.0.unmap(base)),
            Change::Protect(base, rights) => Changed::Protected(self.0.protect(base, rights)),
        }
    }
}

fn draw_change(seed: &mut u64) -> Change {
    let base = (draw(seed, 4) << 30) + (draw(seed, 2) << 21) + (draw(seed, 4) << 12);
    let rights = rights_of(draw(seed, 8));
    match draw(seed, 4) {
        0 => Change::Unmap(base),
        1 => Change::Protect(base, rights),
        _ => Change::Map(Page {
            base,
            size: Size::K4,
            phys: draw(seed, 1 << 20) << 12,
            rights,
        }),
    }
}

/// A call as its thread recorded it: when it began and ended, by a clock that all share; where it is in the log, and what it was answered.
struct Call {
    began: u64,
    ended: u64,
    place: u64,
    changes: Vec<(Change, Changed)>,
    read: Option<(u64, Option<Mapping>)>,
}

/// Threads on nodes: each reply is that of one page table at its place, each read that after as many changes as it says; and what ended
/// before another call began comes before it.
fn run(threads: usize, count: usize, calls: usize) {
    let nodes = Nodes::new((0..count).map(|_| space())).unwrap();
    let (clock, made) = (AtomicU64::new(0), Mutex::new(Vec::new()));
    let work = |number: usize| {
        let mut seed = (number as u64).wrapping_mul(0x9E37_79B9_7F4A_7C15) + 1;
        for _ in 0..calls {
            let changes: Vec<Change> = (0..draw(&mut seed, 4))
                .map(|_| draw_change(&mut seed))
                .collect();
            let address = (draw(&mut seed, 4) << 30) + (draw(&mut seed, 4) << 12);
            let began = clock.fetch_add(1, SeqCst);
            let mut call = Call {
                began,
                ended: 0,
                place: 0,
                changes: Vec::new(),
                read: None,
            };
            if changes.is_empty() {
                let look = |it: &Space, at| (at, it.0.resolve(address).unwrap());
                let (at, found) = nodes.read(number % count, look).unwrap();
                (call.place, call.read) = (at, Some((address, found)));
            } else {
                let answered = nodes.update(number % count, &changes).unwrap();
                call.place = answered.place;
                call.changes = changes.into_iter().zip(answered.replies).collect();
            }
            call.ended = clock.fetch_add(1, SeqCst);
            made.lock().unwrap().push(call);
        }
    };
    thread::scope(|scope| {
        let work = &work;
        (0..threads).for_each(|number| _ = scope.spawn(move || work(number)));
    });
    let made = made.into_inner().unwrap();
    check_answers(&made);
    check_order(made);
    let ends: HashSet<u64> = (0..count).map(|node| nodes.sync(node).unwrap()).collect();
    assert_eq!(ends.len(), 1);
    let end = nodes.sync(0).unwrap();
    assert!(end == 0 || nodes.everywhere(end - 1) && !nodes.everywhere(end));
}

fn check_answers(made: &[Call]) {
    let mut log = BTreeMap::new();
    let mut reads: BTreeMap<u64, Vec<_>> = BTreeMap::new();
    for call in made {
        for (place, change) in (call.place..).zip(&call.changes) {
            assert!(log.insert(place, change).is_none(), "two at one place");
        }
        reads.entry(call.place).or_default().extend(call.read);
    }
    let mut one = space();
    for place in 0..=log.len() as u64 {
        for (address, found) in reads.remove(&place).unwrap_or_default() {
            assert_eq!(one.0.resolve(address).unwrap(), found);
        }
        if let Some((change, changed)) = log.get(&place) {
            assert_eq!(one.apply(*change), *changed);
        }
    }
    assert!(reads.values().all(Vec::is_empty) && log.keys().copied().eq(0..log.len() as u64));
}

fn check_order(mut made: Vec<Call>) {
    let mut ends: Vec<(u64, u64)> = made
        .iter()
        .map(|call| (call.ended, call.place + call.changes.len() as u64))
        .collect();
    ends.sort();
    made.sort_by_key(|call| call.began);
    let (mut ends, mut reached) = (ends.into_iter().peekable(), 0);
    for call in made {
        while let Some((_, reach)) = ends.next_if(|(ended, _)| *ended < call.began) {
            reached = reached.max(reach);
        }
        assert!(call.place >= reached, "it comes before one that had ended");
    }
}

#[test]
fn page_tables_of_threads() {
    for (threads, nodes, calls) in [(1, 1, 300), (2, 2, 300), (4, 4, 200), (3, 8, 100)] {
        run(threads, nodes, calls);
    }
}

#[test]
fn more_threads_than_processors() {
    run(16, 4, 60);
    run(64, 8, 20);
}

/// Counters by name: another state, with replies of another kind.
#[derive(Default)]
struct Counters(BTreeMap<u64, u64>);

impl State for Counters {
    type Update = (u64, u64);
    type Reply = String;

    fn pack(update: &(u64, u64)) -> Entry {
        Entry {
            first: update.0,
            second: update.1,
        }
    }

    fn unpack(entry: Entry) -> (u64, u64) {
        (entry.first, entry.second)
    }

    fn apply(&mut self, (name, more): (u64, u64)) -> String {
        let count = self.0.entry(name).or_default();
        *count += more;
        format!("{name}: {count}")
    }
}

#[test]
fn counters_of_two_nodes() {
    let nodes = Nodes::new([Counters::default(), Counters::default()]).unwrap();
    let one = nodes.update(0, &[(5, 1), (6, 10)]).unwrap();
    assert_eq!(
        (one.place, one.replies),
        (0, vec!["5: 1".into(), "6: 10".into()])
    );
    let two = nodes.update(1, &[(5, 2)]).unwrap();
    assert_eq!((two.place, two.replies), (2, vec!["5: 3".into()]));
    assert!(nodes.everywhere(1) && !nodes.everywhere(2));
    assert_eq!(nodes.read(0, |it, at| (it.0[&5], at)), Ok((3, 3)));
    assert!(nodes.everywhere(2));
    assert_eq!(nodes.count(), 2);
}

#[test]
fn refusals() {
    assert_eq!(Node::new(0, 0), Err(NoNode));
    assert_eq!(Node::new(2, 2), Err(NoNode));
    assert_eq!(Node::new(MOST_NODES + 1, 0), Err(NoNode));
    assert!(Nodes::new(Vec::<Counters>::new()).is_err());
    assert!(Nodes::new((0..=MOST_NODES).map(|_| Counters::default())).is_err());
    let mut node = Node::new(1, 0).unwrap();
    assert_eq!(node.update(&[]), Err(BadUpdate::Empty));
    assert_eq!(node.update(&[update(1); RING + 1]), Err(BadUpdate::TooMany));
    let large = Entry {
        first: 0,
        second: 1 << 57,
    };
    assert_eq!(node.update(&[large]), Err(BadUpdate::TooLarge));
    assert!(node.update(&[update(1)]).is_ok());
    assert_eq!(node.update(&[update(2)]), Err(BadUpdate::Busy));
    assert_eq!(node.sync(0), Err(BadUpdate::Busy));
    let nodes = Nodes::new([Counters::default()]).unwrap();
    let bad = |updates: &[(u64, u64)]| nodes.update(0, updates).map(|it| it.place);
    assert_eq!(bad(&[]), Err(CallError::Bad(BadUpdate::Empty)));
    assert_eq!(
        bad(&[(1, 1 << 57)]),
        Err(CallError::Bad(BadUpdate::TooLarge))
    );
    assert_eq!(nodes.sync(0), Ok(0));
}

#[test]
fn a_machine_knows_how_many_nodes_there_are() {
    let (log, words) = (
        LogWords::default(),
        [NodeWords::default(), NodeWords::default()],
    );
    let all = Words {
        log: &log,
        nodes: &words,
    };
    let mut node = Node::new(2, 0).unwrap();
    assert!(node.update(&[update(1)]).is_ok());
    node.run(&all, |_, entry| entry, |_| ());
    assert!(node.nodes() == 2 && !node.everywhere(&all, 0));
    let few = Words {
        log: &log,
        nodes: &words[..1],
    };
    assert!(catch_unwind(AssertUnwindSafe(|| node.everywhere(&few, 0))).is_err());
}

#[test]
fn a_reader_that_panics_harms_nobody() {
    let nodes = Nodes::new((0..3).map(|_| Counters::default())).unwrap();
    let reader = AssertUnwindSafe(|| nodes.read(1, |_, _| panic!("on purpose")));
    assert!(catch_unwind(reader).is_err());
    for _ in 0..3 * RING {
        assert!(nodes.update(0, &[(5, 1)]).is_ok());
    }
    assert!((0..3).all(|node| nodes.read(node, |it, _| it.0[&5]) == Ok(3 * RING as u64)));
}

#[test]
fn a_call_inside_another_is_refused() {
    let nodes = Nodes::new((0..2).map(|_| Counters::default())).unwrap();
    for node in 0..2 {
        let inner = || {
            let updated = nodes.update(node, &[(5, 1)]).map(|it| it.place);
            (updated, nodes.read(node, |_, at| at), nodes.sync(node))
        };
        let refused = (
            Err(CallError::Inside),
            Err(CallError::Inside),
            Err(CallError::Inside),
        );
        assert_eq!(nodes.read(0, |_, _| inner()), Ok(refused));
    }
    let others = Nodes::new([Counters::default()]).unwrap();
    let other = nodes.read(0, |_, _| others.update(0, &[(5, 1)]).map(|it| it.place));
    assert_eq!((other, nodes.sync(0)), (Ok(Ok(0)), Ok(0)));
}
