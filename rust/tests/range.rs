//! Ranges: pages of several tables are mapped, looked at, given other rights and unmapped, run by run, beside a list of pages.
#![cfg(feature = "plans")]
use nrvs::{
    BadPlan, BadRequest, Depth, Flush, Frame, Page, RangePlanner, RangeRequest, RangeStep, Rights,
    Size, Target,
};
use std::collections::{BTreeMap, HashMap};

const WRITE: Rights = Rights {
    write: true,
    user: false,
    exec: false,
};
const USER: Rights = Rights {
    write: false,
    user: true,
    exec: false,
};
const FLAGS: u64 = 0x60;
const PAGES: u64 = 1200;

/// A kernel's memory: frames, each allocated by itself; what waits for a flush, and frames that are free after it.
struct Memory {
    frames: HashMap<u64, Box<Frame>>,
    target: Target,
    flushes: Vec<Flush>,
    unlinked: Vec<u64>,
    found: BTreeMap<u64, u64>,
}

impl Memory {
    fn new(depth: Depth) -> Memory {
        let target = Target {
            root: 77,
            depth,
            phys_bits: 46,
            pinned: 0,
        };
        Memory {
            frames: HashMap::from([(77, Box::new(Frame::ZERO))]),
            target,
            flushes: Vec::new(),
            unlinked: Vec::new(),
            found: BTreeMap::new(),
        }
    }

    /// The word at the end of the way to an address.
    fn walk(&self, address: u64) -> u64 {
        let mut number = self.target.root;
        for level in (1..=self.target.depth as u32).rev() {
            let word = self.frames[&number].word((address >> (3 + 9 * level) & 511) as usize);
            if word & 1 == 0 || level == 1 {
                return word;
            }
            number = word >> 12 & ((1 << 40) - 1);
        }
        unreachable!("level 1 ends each way")
    }

    /// One step of a range: how many bytes it was, and whether it was a run.
    fn step(&mut self, request: RangeRequest, bytes: u64) -> (u64, bool) {
        let mut planner = RangePlanner::new();
        let mut step = planner.begin(&self.target, request, bytes).unwrap();
        loop {
            step = match step {
                RangeStep::See(see) => {
                    let frame = see.frame();
                    see.words(&self.frames[&frame])
                }
                RangeStep::Give(give) => {
                    let number = 1000 + self.frames.len() as u64;
                    self.frames.insert(number, Box::new(Frame::ZERO));
                    give.frame(number)
                }
                RangeStep::Planned(mut plan) => {
                    plan.carry_out(|number| &self.frames[&number]).unwrap();
                    self.flushes.push(plan.flush());
                    self.unlinked.extend(plan.unlinked());
                    return (if plan.stores().len() == 0 { 0 } else { 4096 }, false);
                }
                RangeStep::Run(run) | RangeStep::Harvest(run) => {
                    assert_eq!(
                        (run.size(), run.bytes()),
                        (Size::K4, run.indices().len() as u64 * 4096)
                    );
                    let base = request.base();
                    let found = &mut self.found;
                    run.carry_out(&self.frames[&run.frame()], |number, word| {
                        found.insert(base + number as u64 * 4096, word);
                    });
                    self.flushes.extend(run.flushes());
                    return (run.bytes(), true);
                }
                RangeStep::Absent { bytes } => return (bytes, false),
                RangeStep::EndsBeyond { .. } => panic!("each page has 4 KiB"),
            }
        }
    }

    /// The whole range: in how many steps, of which so many were runs.
    fn all(&mut self, request: RangeRequest, bytes: u64) -> (u64, u64) {
        let (mut done, mut steps, mut runs) = (0, 0, 0);
        while done < bytes {
            let (covered, is_run) = self.step(request.behind(done), bytes - done);
            assert_ne!(covered, 0);
            done += covered;
            steps += 1;
            runs += u64::from(is_run);
        }
        (steps, runs)
    }
}

fn of(base: u64) -> RangeRequest {
    let page = Page {
        base,
        size: Size::K4,
        rights: WRITE,
        phys: 1 << 30,
    };
    RangeRequest::Map { page, bits: FLAGS }
}

#[test]
fn ranges_over_several_tables() {
    for depth in [Depth::Four, Depth::Five] {
        let (mut memory, base, bytes) = (Memory::new(depth), 0x7f_ffe0_0000, PAGES * 4096);
        // the first page of each table links it, and the rest of it is one run
        assert_eq!(memory.all(of(base), bytes), (6, 3));
        assert_eq!(memory.found.len() as u64, PAGES - 3);
        for number in 0..PAGES {
            let word = memory.walk(base + number * 4096);
            assert_eq!(word, ((1 << 30) + number * 4096) | FLAGS | 3 | 1 << 63);
        }
        memory.flushes.clear();
        // the flags are found once, and are gone then
        assert_eq!(memory.all(RangeRequest::Harvest { base }, bytes), (3, 3));
        assert!(memory.found.values().all(|word| word & FLAGS == FLAGS));
        assert!((0..PAGES).all(|number| memory.walk(base + number * 4096) & FLAGS == 0));
        assert_eq!(memory.flushes.len() as u64, PAGES);
        let size = Size::K4;
        assert_eq!(
            memory.flushes[1],
            Flush::Page {
                base: base + 4096,
                size
            }
        );
        let protect = RangeRequest::Protect { base, rights: USER };
        assert_eq!(memory.all(protect, bytes), (3, 3));
        assert_eq!(memory.walk(base) & 7, 5);
        // the last page of each table unlinks it
        assert_eq!(memory.all(RangeRequest::Unmap { base }, bytes), (6, 3));
        assert!((0..PAGES).all(|number| memory.walk(base + number * 4096) == 0));
        assert!(memory.unlinked.len() >= 3);
        assert_eq!(memory.all(RangeRequest::Unmap { base }, bytes).1, 0);
    }
}

#[test]
fn ranges_that_are_refused() {
    let target = Memory::new(Depth::Four).target;
    let refused = |request| {
        let mut planner = RangePlanner::new();
        planner.begin(&target, request, 4096).unwrap_err()
    };
    let unmap = RangeRequest::Unmap { base: 1 << 47 };
    assert_eq!(refused(unmap), BadPlan::Request(BadRequest::NotCanonical));
    assert_eq!(refused(of(1)), BadPlan::Request(BadRequest::Unaligned));
    let beyond = of(0).behind((1 << 46) - (1 << 30));
    assert_eq!(refused(beyond), BadPlan::Request(BadRequest::PhysRange));
    // the last page of all, and one that would follow on from it
    let last = RangeRequest::Unmap {
        base: 0xffff_ffff_ffff_f000,
    };
    assert!(RangePlanner::new().begin(&target, last, 4096).is_ok());
    let beyond = RangePlanner::new().begin(&target, last, 8192).unwrap_err();
    assert_eq!(beyond, BadPlan::Request(BadRequest::NotCanonical));
    // a map of no whole pages
    for bytes in [0, 1, 4097] {
        let bad = RangePlanner::new()
            .begin(&target, of(0), bytes)
            .unwrap_err();
        assert_eq!(bad, BadPlan::Request(BadRequest::Unaligned));
    }
}
