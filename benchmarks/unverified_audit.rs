//! An auditor in plain Rust, with no proof, for the traces of `unverified_run`, and for segments without a start: four levels, 4,096
//! tables, pages of 4 KiB, no access. It reads the bytes, replays the recorded order on one page table, and compares each dump with that.
use super::replicas::table::{Answer, Op, Space};

const NO_CALL: u32 = u32::MAX;

fn half(bytes: &[u8], at: usize) -> u16 {
    u16::from_be_bytes(*bytes[at..].first_chunk().unwrap())
}

fn word(bytes: &[u8], at: usize) -> u32 {
    u32::from_be_bytes(*bytes[at..].first_chunk().unwrap())
}

fn long(bytes: &[u8], at: usize) -> u64 {
    u64::from_be_bytes(*bytes[at..].first_chunk().unwrap())
}

/// Its events are those that the bytes spell, and of its dumps only where they are is known.
struct Trace<'a> {
    threads: usize,
    log: Vec<u32>,
    events: &'a [[u8; 24]],
    dumps: Vec<Dump<'a>>,
}

struct Dump<'a> {
    applied: usize,
    root: u64,
    /// By rising number, each of 8 bytes and 4,096.
    frames: &'a [[u8; 4104]],
}

/// Takes so many bytes from the front.
fn take<'a>(bytes: &mut &'a [u8], count: usize) -> Option<&'a [u8]> {
    let (front, rest) = bytes.split_at_checked(count)?;
    *bytes = rest;
    Some(front)
}

fn is_call(event: &[u8; 24], replicas: usize, threads: usize) -> bool {
    let (kind, address, phys) = (event[4], long(event, 8), long(event, 16));
    let aligned = kind == 3 || address % 4096 == 0;
    let unused = (kind == 0 || phys == 0) && (kind % 2 == 0 || event[6] == 0) && event[5] == 0 && event[7] == 0;
    (event[1] as usize) < replicas && (half(event, 2) as usize) < threads && kind < 4 && event[6] < 8
        && address < 1 << 47 && phys < 1 << 51 && phys % 4096 == 0 && aligned && unused
}

fn read_dump<'a>(bytes: &mut &'a [u8], places: usize) -> Option<Dump<'a>> {
    let head = take(bytes, 16)?;
    let frames = take(bytes, 4104 * word(head, 4) as usize)?.as_chunks().0;
    let rises = frames.is_sorted_by(|one, other| long(one, 0) < long(other, 0));
    let dump = Dump { applied: word(head, 0) as usize, root: long(head, 8), frames };
    (dump.applied <= places && rises).then_some(dump)
}

fn read(mut bytes: &[u8]) -> Option<Trace<'_>> {
    let is_segment = bytes.starts_with(b"NRVS");
    let head = take(&mut bytes, if is_segment { 24 } else { 20 })?;
    let (replicas, threads) = (head[7] as usize, half(head, 8) as usize);
    let log: Vec<u32> = take(&mut bytes, 4 * word(head, 12) as usize)?.chunks(4).map(|place| word(place, 0)).collect();
    let events = take(&mut bytes, 24 * word(head, 16) as usize)?.as_chunks().0;
    let magic = head.starts_with(b"NRVT\0\x01\x04") || head.starts_with(b"NRVS\0\x01\x04") && word(head, 20) == 0;
    let known = magic && half(head, 10) == 4096;
    if !known || !events.iter().all(|event| event[0] == 1 || is_call(event, replicas, threads)) {
        return None;
    }
    let dumps = (0..replicas).map(|_| read_dump(&mut bytes, log.len())).collect::<Option<_>>()?;
    bytes.is_empty().then_some(Trace { threads, log, events, dumps })
}

/// The reply of each call, and the answered reads of each place, of which each has the one before.
struct Replies {
    reply: Vec<u32>,
    last_read: Vec<u32>,
    read_before: Vec<u32>,
}

/// Pairs calls and replies: each reply is to its thread's open call, an update's is at its place of the log, and none is at a place
/// below those that were known when its call was made.
fn pair(trace: &Trace) -> Result<Replies, &'static str> {
    let (count, places) = (trace.events.len(), trace.log.len());
    let mut found = Replies { reply: vec![NO_CALL; count], last_read: vec![NO_CALL; places + 1], read_before: vec![NO_CALL; count] };
    let (mut open, mut floor, mut known) = (vec![NO_CALL; trace.threads], vec![0; count], 0);
    for (number, event) in trace.events.iter().enumerate() {
        if event[0] == 0 {
            let thread = half(event, 2) as usize;
            if open[thread] != NO_CALL {
                return Err("call");
            }
            (open[thread], floor[number]) = (number as u32, known);
            continue;
        }
        let (call, at) = (word(event, 4) as usize, word(event, 8) as usize);
        let of = trace.events.get(call).filter(|of| of[0] == 0).ok_or("reply")?;
        let thread = half(of, 2) as usize;
        if open[thread] != call as u32 || at < floor[call] || at > places {
            return Err("reply");
        }
        (open[thread], found.reply[call]) = (NO_CALL, number as u32);
        if of[4] == 3 {
            (found.read_before[call], found.last_read[at]) = (found.last_read[at], call as u32);
            known = known.max(at);
        } else {
            trace.log.get(at).filter(|there| **there == call as u32).ok_or("place")?;
            known = known.max(at + 1);
        }
    }
    Ok(found)
}

/// Whether a reply has this answer to a call at an address.
fn says(reply: &[u8; 24], address: u64, answer: Answer) -> bool {
    let (code, rights, value) = match answer {
        Answer::Done => (0, 0, 0),
        Answer::Overlap => (1, 0, address),
        Answer::Full(need) => (2, 0, need),
        Answer::Removed(phys, _, rights) => (3, rights, phys),
        Answer::NotMapped => (4, 0, 0),
        Answer::Inside(base) => (5, 0, base),
        Answer::Changed(rights) => (6, rights, 0),
        Answer::Mapped(phys, _, rights) => (7, rights, phys),
    };
    (reply[1], reply[2], reply[3] as u64, word(reply, 12), long(reply, 16)) == (code, 0, rights, 0, value)
}

fn op_of(call: &[u8; 24]) -> Option<Op> {
    let (rights, address, phys) = (call[6] as u64, long(call, 8), long(call, 16));
    match call[4] {
        0 => Some(Op::Map(address, 1, phys, rights)),
        1 => Some(Op::Unmap(address)),
        2 => Some(Op::Protect(address, rights)),
        _ => None,
    }
}

impl Dump<'_> {
    fn frame(&self, number: u64) -> Option<&[u8]> {
        let at = self.frames.binary_search_by_key(&number, |frame| long(frame, 0)).ok()?;
        Some(&self.frames[at][8..])
    }

    /// How many pages lie below a table, or none where one is not as in the address space.
    fn pages(&self, space: &Space, number: u64, level: usize, base: u64, rights: u64) -> Option<usize> {
        let mut pages = 0;
        for (index, bytes) in self.frame(number)?.chunks(8).enumerate() {
            let entry = long(bytes, 0);
            if entry % 2 == 0 {
                continue;
            }
            let (at, phys) = (base + ((index as u64) << (3 + 9 * level)), entry & ((1 << 52) - 4096));
            let rights = rights & ((entry >> 1) % 4 + if entry >> 63 == 0 { 4 } else { 0 });
            pages += match level {
                1 => match space.resolve(at) {
                    Answer::Mapped(is, _, with) if (is, with) == (phys, rights) => 1,
                    _ => return None,
                },
                _ => self.pages(space, phys / 4096, level - 1, at, rights)?,
            };
        }
        Some(pages)
    }
}

/// The address space before a segment, and how many pages it has.
pub struct Pages {
    space: Space,
    count: usize,
}

impl Pages {
    pub fn none() -> Pages {
        Pages { space: Space::new(4), count: 0 }
    }
}

/// The order of the calls of a right run, or of a right segment from these pages on, which become those behind it; or what is not right.
pub fn judge(bytes: &[u8], pages: &mut Pages) -> Result<Vec<u32>, &'static str> {
    let trace = read(bytes).ok_or("format")?;
    let found = pair(&trace)?;
    let mut order = Vec::with_capacity(trace.events.len());
    let Pages { space, count } = pages;
    for place in 0..=trace.log.len() {
        let mut read = found.last_read[place];
        while read != NO_CALL {
            let (call, reply) = (&trace.events[read as usize], &trace.events[found.reply[read as usize] as usize]);
            if !says(reply, long(call, 8), space.resolve(long(call, 8))) {
                return Err("answer");
            }
            order.push(read);
            read = found.read_before[read as usize];
        }
        for dump in trace.dumps.iter().filter(|dump| dump.applied == place) {
            if dump.pages(space, dump.root, 4, 0, 7) != Some(*count) {
                return Err("dump");
            }
        }
        let Some(&number) = trace.log.get(place) else { break };
        let call = trace.events.get(number as usize).filter(|call| call[0] == 0).ok_or("log")?;
        let answer = space.apply(op_of(call).ok_or("log")?);
        match answer {
            Answer::Done => *count += 1,
            Answer::Removed(..) => *count -= 1,
            _ => {}
        }
        let reply = found.reply[number as usize];
        if reply != NO_CALL && !says(&trace.events[reply as usize], long(call, 8), answer) {
            return Err("answer");
        }
        order.push(number);
    }
    Ok(order)
}
