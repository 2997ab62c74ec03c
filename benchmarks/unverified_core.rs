//! The states and steps of the protocol in plain Rust, with no proof, to compare with `Core`:
//!     rustc -O -C target-cpu=x86-64-v2 benchmarks/unverified_core.rs
//!     ./unverified_core THREADS REPLICAS CALLS
//! Each thread in turn makes a call with all its steps, a map, a resolve, an unmap and a resolve of a page of its own; the replica
//! catches up before each read. There are so many calls in all, and a whole number of threads for each replica.
#[allow(dead_code)]
#[path = "unverified.rs"]
mod table;

use std::time::Instant;
use table::{Answer, Op, Space};

const BATCH: usize = 16;
const PLACES: usize = 65_536;

#[derive(Clone, Copy)]
enum Request {
    Update(Op),
    Resolve(u64),
}

#[derive(Clone, Copy)]
#[allow(dead_code)]
enum Event {
    Call(u8, u16, Request),
    Reply(Answered),
}

#[derive(Clone, Copy)]
#[allow(dead_code)]
struct Answered {
    call: u32,
    at: u32,
    answer: Answer,
}

#[derive(Clone, Copy)]
struct Entry {
    call: u32,
    op: Op,
}

#[derive(Clone, Copy)]
#[allow(dead_code)]
enum Stage {
    Idle,
    Called(u32, Request),
    Posted(u32, Op),
    Taken(u32),
    Ready(Answered),
    Looked(u32, u64, u32),
    HasRead(Answered),
}

struct Thread {
    script: Vec<Request>,
    made: usize,
    stage: Stage,
    holds: Option<u8>,
}

struct Collected {
    thread: u16,
    entry: Entry,
    noted: Option<Answered>,
}

struct Replica {
    holder: Option<u16>,
    placed: bool,
    local: u32,
    applied: u32,
    batch: Vec<Collected>,
    pages: Space,
}

#[derive(Clone, Copy)]
enum Act {
    Call,
    Post,
    Take(u8),
    Collect(u16),
    Append,
    Advance,
    Apply,
    Answer(u16),
    Release,
    Look,
    Read,
    Reply,
}

struct Core {
    events: Vec<Event>,
    log: Vec<Entry>,
    completed: u32,
    replicas: Vec<Replica>,
    threads: Vec<Thread>,
}

impl Core {
    fn new(replicas: u8, scripts: Vec<Vec<Request>>) -> Core {
        let replica = |_| Replica { holder: None, placed: false, local: 0, applied: 0, batch: Vec::new(), pages: Space::new(4) };
        let thread = |script| Thread { script, made: 0, stage: Stage::Idle, holds: None };
        Core {
            events: Vec::new(),
            log: Vec::new(),
            completed: 0,
            replicas: (0..replicas).map(replica).collect(),
            threads: scripts.into_iter().map(thread).collect(),
        }
    }

    fn home(&self, thread: u16) -> u8 {
        (thread % self.replicas.len() as u16) as u8
    }

    fn held(&mut self, thread: u16) -> Option<&mut Replica> {
        let replica = self.threads[thread as usize].holds?;
        Some(&mut self.replicas[replica as usize])
    }

    /// Takes a step where it is enabled, and says whether it was.
    fn step(&mut self, thread: u16, act: Act) -> bool {
        if thread as usize >= self.threads.len() {
            return false;
        }
        let done = match act {
            Act::Call => self.call(thread),
            Act::Post => self.post(thread),
            Act::Take(replica) => self.take(thread, replica),
            Act::Collect(from) => self.collect(thread, from),
            Act::Append => self.append(thread),
            Act::Advance => self.advance(thread),
            Act::Apply => self.apply(thread),
            Act::Answer(to) => self.answer(thread, to),
            Act::Release => self.release(thread),
            Act::Look => self.look(thread),
            Act::Read => self.read(thread),
            Act::Reply => self.reply(thread),
        };
        done.is_some()
    }

    fn call(&mut self, t: u16) -> Option<()> {
        let (home, call) = (self.home(t), self.events.len() as u32);
        let thread = &mut self.threads[t as usize];
        if !matches!(thread.stage, Stage::Idle) {
            return None;
        }
        let request = *thread.script.get(thread.made)?;
        thread.made += 1;
        thread.stage = Stage::Called(call, request);
        self.events.push(Event::Call(home, t, request));
        Some(())
    }

    fn post(&mut self, t: u16) -> Option<()> {
        let thread = &mut self.threads[t as usize];
        let Stage::Called(call, Request::Update(op)) = thread.stage else { return None };
        thread.stage = Stage::Posted(call, op);
        Some(())
    }

    fn take(&mut self, t: u16, r: u8) -> Option<()> {
        let (thread, replica) = (&mut self.threads[t as usize], self.replicas.get_mut(r as usize)?);
        if thread.holds.is_some() || replica.holder.is_some() {
            return None;
        }
        (thread.holds, replica.holder) = (Some(r), Some(t));
        Some(())
    }

    fn collect(&mut self, t: u16, from: u16) -> Option<()> {
        let r = self.threads[t as usize].holds?;
        let Stage::Posted(call, op) = self.threads.get(from as usize)?.stage else { return None };
        let (home, replica) = (self.home(from), &mut self.replicas[r as usize]);
        if home != r || replica.placed || replica.batch.len() == BATCH {
            return None;
        }
        replica.batch.push(Collected { thread: from, entry: Entry { call, op }, noted: None });
        self.threads[from as usize].stage = Stage::Taken(call);
        Some(())
    }

    fn append(&mut self, t: u16) -> Option<()> {
        let r = self.threads[t as usize].holds? as usize;
        let end = self.log.len() + self.replicas[r].batch.len();
        let behind = self.replicas.iter().any(|replica| end > replica.local as usize + BATCH);
        let replica = &mut self.replicas[r];
        if replica.batch.is_empty() || replica.placed || end > PLACES || behind {
            return None;
        }
        replica.placed = true;
        self.log.extend(replica.batch.iter().map(|update| update.entry));
        Some(())
    }

    fn advance(&mut self, t: u16) -> Option<()> {
        let tail = self.log.len() as u32;
        let replica = self.held(t)?;
        if replica.applied < replica.local || replica.local == tail {
            return None;
        }
        replica.local = tail;
        self.completed = tail;
        Some(())
    }

    fn apply(&mut self, t: u16) -> Option<()> {
        let r = self.threads[t as usize].holds? as usize;
        let replica = &mut self.replicas[r];
        if replica.applied == replica.local {
            return None;
        }
        let at = replica.applied;
        let Entry { call, op } = self.log[at as usize];
        let answer = replica.pages.apply(op);
        replica.applied += 1;
        if replica.placed {
            for update in replica.batch.iter_mut().filter(|update| update.entry.call == call) {
                update.noted = Some(Answered { call, at, answer });
            }
        }
        Some(())
    }

    fn answer(&mut self, t: u16, to: u16) -> Option<()> {
        let replica = self.held(t)?;
        let answered = replica.batch.iter().find(|update| update.thread == to)?.noted?;
        replica.batch.retain(|update| update.thread != to);
        replica.placed &= !replica.batch.is_empty();
        self.threads[to as usize].stage = Stage::Ready(answered);
        Some(())
    }

    fn release(&mut self, t: u16) -> Option<()> {
        let replica = self.held(t)?;
        if replica.applied < replica.local {
            return None;
        }
        replica.holder = None;
        self.threads[t as usize].holds = None;
        Some(())
    }

    fn look(&mut self, t: u16) -> Option<()> {
        let completed = self.completed;
        let thread = &mut self.threads[t as usize];
        let Stage::Called(call, Request::Resolve(address)) = thread.stage else { return None };
        thread.stage = Stage::Looked(call, address, completed);
        Some(())
    }

    fn read(&mut self, t: u16) -> Option<()> {
        let Stage::Looked(call, address, completed) = self.threads[t as usize].stage else { return None };
        let replica = &self.replicas[self.home(t) as usize];
        if replica.holder.is_some() || replica.applied < completed {
            return None;
        }
        let (at, answer) = (replica.applied, replica.pages.resolve(address));
        self.threads[t as usize].stage = Stage::HasRead(Answered { call, at, answer });
        Some(())
    }

    fn reply(&mut self, t: u16) -> Option<()> {
        let thread = &mut self.threads[t as usize];
        let (Stage::Ready(answered) | Stage::HasRead(answered)) = thread.stage else { return None };
        thread.stage = Stage::Idle;
        self.events.push(Event::Reply(answered));
        Some(())
    }
}

/// The call of a thread with this number of its own: a map, a resolve, an unmap and a resolve of each page in turn.
fn request(thread: u64, number: u64) -> Request {
    let page = (thread * 4096 + number / 4 % 4096) << 12;
    match number % 4 {
        0 => Request::Update(Op::Map(page, 1, page, 7)),
        2 => Request::Update(Op::Unmap(page)),
        _ => Request::Resolve(page + 0x123),
    }
}

/// The steps of a call; as many entries are applied as there are replicas.
fn steps_of(thread: u16, replica: u8, replicas: u8, is_update: bool, steps: &mut Vec<(u16, Act)>) {
    let mut add = |act| steps.push((thread, act));
    add(Act::Call);
    add(if is_update { Act::Post } else { Act::Look });
    add(Act::Take(replica));
    if is_update {
        add(Act::Collect(thread));
        add(Act::Append);
    }
    add(Act::Advance);
    (0..replicas).for_each(|_| add(Act::Apply));
    if is_update {
        add(Act::Answer(thread));
    }
    add(Act::Release);
    if !is_update {
        add(Act::Read);
    }
    add(Act::Reply);
}

fn main() {
    let words: Vec<u64> = std::env::args().skip(1).map(|word| word.parse().unwrap()).collect();
    let (threads, replicas, requests) = (words[0], words[1] as u8, words[2] / words[0]);
    let scripts = (0..threads).map(|t| (0..requests).map(|number| request(t, number)).collect()).collect();
    let mut steps = Vec::new();
    for number in 0..requests {
        for t in 0..threads {
            steps_of(t as u16, (t % replicas as u64) as u8, replicas, number % 2 == 0, &mut steps);
        }
    }
    let mut core = Core::new(replicas, scripts);
    let begin = Instant::now();
    let enabled = steps.iter().filter(|(thread, act)| core.step(*thread, *act)).count();
    let seconds = begin.elapsed().as_secs_f64();
    let at = |event: &Event| if let Event::Reply(answered) = event { answered.at as u64 } else { 0 };
    let places: u64 = core.events.iter().map(at).sum();
    println!("steps {} enabled {enabled}", steps.len());
    println!("events {} entries {} places {places}", core.events.len(), core.log.len());
    eprintln!("operations a second  {:>12}", "step");
    eprintln!("threads_{threads}_{replicas}          {:>12}", (steps.len() as f64 / seconds) as u64);
}
