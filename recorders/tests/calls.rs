//! Makes the calls on the recorder that standard input lists, as calls.c does with the C recorder, and prints the same.
#![deny(warnings)]

#[path = "../nrvs_trace.rs"]
mod nrvs_trace;

use nrvs_trace::{Access, Answer, Config, Event, Failed, Frame, Memory, Mode, Refusal, Request, Rights, Size, Trace};
use std::collections::HashMap;
use std::io::Write;
use std::sync::atomic::AtomicU32;

#[derive(Default)]
struct Machine {
    frames: HashMap<u64, [u64; 512]>,
    broken: Vec<u64>,
}

impl Memory for Machine {
    fn frame(&mut self, number: u64) -> Result<Option<&[u64; 512]>, Failed> {
        if self.broken.contains(&number) {
            return Err(Failed);
        }
        Ok(self.frames.get(&number))
    }
}

fn text(refusal: Refusal) -> &'static str {
    match refusal {
        Refusal::BadConfig => "bad configuration",
        Refusal::BadEvent => "bad event",
        Refusal::EventsFull => "events full",
        Refusal::NoCall => "no such call",
        Refusal::LogFull => "log full",
        Refusal::PlaceTaken => "place taken",
        Refusal::BadReplica => "bad replica",
        Refusal::BadFrame => "bad frame number",
        Refusal::FrameFailed => "frame failed",
        Refusal::FramesFull => "frames full",
        Refusal::TooManyFrames => "too many frames",
        Refusal::NotDumped => "replica not dumped",
        Refusal::NotWritten => "event not written",
        Refusal::GapInLog => "gap in the log",
        Refusal::WriteFailed => "write failed",
        Refusal::BadStart => "no start here",
        Refusal::CallOpen => "call open",
        Refusal::BadChain => "no segment of this chain",
        Refusal::NotFinished => "segment not finished",
    }
}

/// What the types of the Rust recorder leave no room for is a bad event.
fn size(code: u64) -> Result<Size, Refusal> {
    [Size::K4, Size::M2, Size::G1].get(code as usize).copied().ok_or(Refusal::BadEvent)
}

fn rights(code: u64) -> Result<Rights, Refusal> {
    let rights = Rights { write: code & 1 != 0, user: code & 2 != 0, exec: code & 4 != 0 };
    if code < 8 {
        Ok(rights)
    } else {
        Err(Refusal::BadEvent)
    }
}

fn mode(code: u64) -> Result<Mode, Refusal> {
    [Mode::Supervisor, Mode::User].get(code as usize).copied().ok_or(Refusal::BadEvent)
}

fn access(code: u64) -> Result<Access, Refusal> {
    [Access::Read, Access::Write, Access::Fetch].get(code as usize).copied().ok_or(Refusal::BadEvent)
}

fn request(n: &[u64]) -> Result<Request, Refusal> {
    let (size, rights, address) = (size(n[3])?, rights(n[4])?, n[5]);
    match n[2] {
        0 => Ok(Request::Map { address, size, phys: n[6], rights }),
        1 => Ok(Request::Unmap { address }),
        2 => Ok(Request::Protect { address, rights }),
        3 => Ok(Request::Resolve { address }),
        4 => Ok(Request::Access { address, mode: mode(n[4])?, access: access(n[3])? }),
        5 => Ok(Request::Touch { address, mode: mode(n[4])?, access: access(n[3])? }),
        6 => Ok(Request::Release { phys: n[6], size }),
        _ => Err(Refusal::BadEvent),
    }
}

fn answer(n: &[u64]) -> Result<Answer, Refusal> {
    let (size, rights, value) = (size(n[3])?, rights(n[4])?, n[5]);
    match n[2] {
        0 => Ok(Answer::Done),
        1 => Ok(Answer::Overlap(value)),
        2 => Ok(Answer::Full(value)),
        3 => Ok(Answer::Removed { phys: value, size, rights }),
        4 => Ok(Answer::NotMapped),
        5 => Ok(Answer::Inside(value)),
        6 => Ok(Answer::Changed(rights)),
        7 => Ok(Answer::Mapped { phys: value, size, rights }),
        8 => Ok(Answer::Allowed(value)),
        9 => Ok(Answer::Fault(value)),
        _ => Err(Refusal::BadEvent),
    }
}

/// A trace is written into the file, and a segment behind those that are there.
fn finish(trace: &Trace, is_chain: bool, path: &str, limit: u64) -> Result<(), Refusal> {
    let mut options = std::fs::OpenOptions::new();
    let mut file = options.create(true).write(true).append(is_chain).truncate(!is_chain).open(path).expect("a file to write to");
    let mut left = limit;
    trace.finish(|bytes| {
        left = left.checked_sub(bytes.len() as u64).ok_or(Failed)?;
        file.write_all(bytes).map_err(|_| Failed)
    })
}

/// What is recorded, and another recorder, so that one can be written while the other is recorded.
#[derive(Default)]
struct Recorders {
    trace: Option<Trace<'static>>,
    spare: Option<Trace<'static>>,
    is_chain: bool,
    machine: Machine,
}

impl Recorders {
    fn step(&mut self, word: &str, n: &[u64], path: &str) -> Result<Option<u32>, Refusal> {
        match word {
            "begin" | "chain" => {
                self.trace = Some(begin(n, word == "chain")?);
                self.is_chain = word == "chain";
                return Ok(None);
            }
            "spare" => {
                self.spare = Some(begin(n, true)?);
                return Ok(None);
            }
            "swap" => {
                core::mem::swap(&mut self.trace, &mut self.spare);
                return Ok(None);
            }
            "word" => {
                self.machine.frames.entry(n[0]).or_insert([0; 512])[n[1] as usize % 512] = n[2];
                return Ok(None);
            }
            "broken" => {
                self.machine.broken.push(n[0]);
                return Ok(None);
            }
            _ => {}
        }
        let machine = &mut self.machine;
        let trace = self.trace.as_mut().expect("a trace that is begun");
        match word {
            "call" => return trace.call(n[0] as u8, n[1] as u16, request(n)?).map(Some),
            "events" => return Ok(Some(trace.events())),
            "place" => trace.place(n[0] as u32, n[1] as u32)?,
            "reply" => trace.reply(n[0] as u32, n[1] as u32, answer(n)?)?,
            "start" => trace.start(n[0], machine)?,
            "next" => trace.next(self.spare.as_mut().ok_or(Refusal::BadChain)?)?,
            "restart" => trace.restart()?,
            "dump" => trace.dump(n[0] as u8, n[1] as u32, n[2], machine)?,
            "dump_frame" => trace.dump_frame(n[0] as u8, n[1], machine)?,
            "finish" => finish(trace, self.is_chain, path, n[0])?,
            _ => panic!("an unknown line"),
        }
        Ok(None)
    }
}

fn say(word: &str, result: Result<Option<u32>, Refusal>) {
    match result {
        Ok(Some(call)) => println!("{word}: ok {call}"),
        Ok(None) => println!("{word}: ok"),
        Err(refusal) => println!("{word}: {}", text(refusal)),
    }
}

fn number(word: &str) -> u64 {
    match word.strip_prefix("0x") {
        Some(digits) => u64::from_str_radix(digits, 16),
        None => word.parse(),
    }
    .expect("a number")
}

/// Buffers of the trace that a line asks for, leaked: this is a test.
fn begin(n: &[u64], is_chain: bool) -> Result<Trace<'static>, Refusal> {
    let config = Config { levels: n[0] as u8, replicas: n[1] as u8, threads: n[2] as u16, tables: n[3] as u16 };
    let events: Vec<Event> = (0..n[4]).map(|_| Event::new()).collect();
    let log: Vec<AtomicU32> = (0..n[5]).map(|_| AtomicU32::new(7)).collect();
    let frames: Vec<Frame> = (0..n[6]).map(|_| Frame::new()).collect();
    let begin = if is_chain { Trace::begin_chain } else { Trace::begin };
    begin(config, events.leak(), log.leak(), frames.leak())
}

fn main() {
    let path = std::env::args().nth(1).expect("a path to write the trace to");
    let mut recorders = Recorders::default();
    for line in std::io::stdin().lines().map(|line| line.expect("a line")) {
        let mut words = line.split_whitespace();
        let Some(word) = words.next() else { continue };
        let mut n: Vec<u64> = words.map(number).collect();
        n.resize(8, 0);
        say(word, recorders.step(word, &n, &path));
    }
}
