//! A page table under a mutex that records itself. The numbers are the six steps of docs/RECORDING.md.
//!     rustc --edition 2021 -O -o minimal examples/minimal/minimal.rs && ./minimal | nrvs audit
#[path = "../../recorders/nrvs_trace.rs"] #[allow(dead_code)] mod nrvs_trace;
use nrvs_trace::{Answer, Config, Event, Failed, Frame, Memory, Refusal, Request, Rights, Size, Trace};
use std::{io::Write, sync::atomic::AtomicU32, sync::Mutex, thread};
const RIGHTS: Rights = Rights { write: true, user: true, exec: false };

/// Table n lies at physical n * 4096; the root is table 0.
struct Tables { tables: Vec<[u64; 512]>, updates: u32 }
impl Memory for Tables {
    fn frame(&mut self, number: u64) -> Result<Option<&[u64; 512]>, Failed> { Ok(self.tables.get(number as usize)) }
}
impl Tables {
    /// The entry of the page of 4 KiB at the address. Links tables on the way.
    fn entry(&mut self, address: u64) -> &mut u64 {
        let mut table = 0;
        for shift in [39, 30, 21] {
            let index = (address >> shift & 511) as usize;
            if self.tables[table][index] == 0 {
                self.tables[table][index] = (self.tables.len() as u64) << 12 | 7;
                self.tables.push([0; 512]);
            }
            table = (self.tables[table][index] >> 12) as usize;
        }
        &mut self.tables[table][(address >> 12 & 511) as usize]
    }

    fn answer(&mut self, request: Request) -> Answer {
        let (Request::Map { address, .. } | Request::Unmap { address } | Request::Resolve { address }) = request else { unreachable!() };
        let word = self.entry(address);
        let (found, size, rights) = (*word & 0xf_ffff_ffff_f000, Size::K4, RIGHTS);
        match request {
            Request::Map { .. } if *word != 0 => Answer::Overlap(address),
            Request::Map { phys, .. } => { *word = phys | 7 | 1 << 63; Answer::Done }
            _ if *word == 0 => Answer::NotMapped,
            Request::Unmap { .. } => { *word = 0; Answer::Removed { phys: found, size, rights } }
            _ => Answer::Mapped { phys: found, size, rights },
        }
    }
}

fn work(trace: &Trace, tables: &Mutex<Tables>, thread: u16) -> Result<(), Refusal> {
    let mut random = u32::from(thread);
    for _ in 0..1000 {
        random = random.wrapping_mul(1664525).wrapping_add(1013904223);
        let (address, phys) = (0x40_0000 + u64::from(random >> 8 & 7) * 0x20_1000, u64::from(random) << 12);
        let request = match random >> 11 & 3 {
            0 | 1 => Request::Map { address, size: Size::K4, phys, rights: RIGHTS },
            2 => Request::Unmap { address },
            _ => Request::Resolve { address },
        };
        let call = trace.call(0, thread, request)?; // 3. the first stamp, before the work
        let mut held = tables.lock().unwrap();
        let (answer, at) = (held.answer(request), held.updates);
        if !matches!(request, Request::Resolve { .. }) {
            trace.place(at, call)?; // 4. an update's place, under the lock
            held.updates += 1;
        }
        drop(held);
        trace.reply(call, at, answer)?; // 5. the second stamp, after the work
    }
    Ok(())
}

fn main() -> Result<(), Refusal> {
    // 1. memory for the trace; 2. begin, while nothing is mapped
    let events: Vec<Event> = (0..8000).map(|_| Event::new()).collect();
    let places: Vec<AtomicU32> = (0..4000).map(|_| AtomicU32::new(0)).collect();
    let mut frames: Vec<Frame> = (0..16).map(|_| Frame::new()).collect();
    let mut trace = Trace::begin(Config { levels: 4, replicas: 1, threads: 4, tables: 4096 }, &events, &places, &mut frames)?;
    let tables = Mutex::new(Tables { tables: vec![[0; 512]], updates: 0 });
    thread::scope(|scope| {
        let threads: Vec<_> = (0..4).map(|n| scope.spawn({ let (trace, tables) = (&trace, &tables); move || work(trace, tables, n) })).collect();
        threads.into_iter().try_for_each(|thread| thread.join().unwrap())
    })?;
    // 6. dump the tables, and write
    let mut tables = tables.into_inner().unwrap();
    trace.dump(0, tables.updates, 0, &mut tables)?;
    trace.finish(|bytes| std::io::stdout().write_all(bytes).map_err(|_| Failed))
}
