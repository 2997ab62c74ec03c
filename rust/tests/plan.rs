//! Plans: drawn requests beside a list of pages, in frames under numbers that lie anywhere; flags that are set between plan and store; and
//! each refusal.
#![cfg(feature = "plans")]
use nrvs::{
    Answer, BadPlan, BadRequest, Depth, Flush, Frame, Mapping, NotAsked, Page, Plan, Planner,
    Request, Rights, Size, Step, Target, ATTRIBUTES,
};
use std::collections::{BTreeMap, HashMap};

const ALL: Rights = Rights {
    write: true,
    user: true,
    exec: true,
};
const NONE: Rights = Rights {
    write: false,
    user: false,
    exec: false,
};
const WRITE: Rights = Rights {
    write: true,
    ..NONE
};
const FLAGS: u64 = 0x60;
const SIZES: [Size; 3] = [Size::K4, Size::M2, Size::G1];

/// A kernel's memory: frames, each allocated by itself.
struct Memory {
    frames: HashMap<u64, Box<Frame>>,
    target: Target,
    seed: u64,
}

impl Memory {
    fn new(depth: Depth) -> Memory {
        let mut memory = Memory {
            frames: HashMap::new(),
            target: Target {
                root: 0,
                depth,
                phys_bits: 46,
                pinned: 0,
            },
            seed: 1,
        };
        memory.target.root = memory.take();
        memory
    }

    fn draw(&mut self, below: u64) -> u64 {
        self.seed = self
            .seed
            .wrapping_mul(6364136223846793005)
            .wrapping_add(1442695040888963407);
        (self.seed >> 33) % below
    }

    fn take(&mut self) -> u64 {
        loop {
            let number = self.draw(1 << 30);
            if !self.frames.contains_key(&number) {
                self.frames.insert(number, Box::new(Frame::ZERO));
                return number;
            }
        }
    }

    /// The word at the end of the way to an address, and the size of a page there.
    fn walk(&self, address: u64) -> (u64, Size) {
        let mut number = self.target.root;
        for level in (1..=self.target.depth as u32).rev() {
            let word = self.frames[&number].word((address >> (3 + 9 * level) & 511) as usize);
            if word & 1 == 0 || level == 1 || (level < 4 && word & 128 != 0) {
                return (word, SIZES[(level as usize - 1).min(2)]);
            }
            number = word >> 12 & ((1 << 40) - 1);
        }
        unreachable!("level 1 ends each way")
    }

    /// Carries out a request as the header has it; `set` sets flags in the words of stores before these are made.
    fn run(&mut self, request: Request, set: bool) -> (Answer, u64, Flush) {
        let (mut planner, mut given) = (Planner::new(), vec![]);
        let mut step = planner.begin(&self.target, request).unwrap();
        let mut plan = loop {
            step = match step {
                Step::See(see) => {
                    let frame = see.frame();
                    see.words(&self.frames[&frame])
                }
                Step::Give(give) => {
                    given.push(self.take());
                    give.frame(given[given.len() - 1])
                }
                Step::Planned(plan) => break plan,
            };
        };
        if set {
            self.set_flags(&plan);
        }
        plan.carry_out(|number| &self.frames[&number]).unwrap();
        for number in plan.unlinked() {
            self.frames.remove(number);
        }
        if plan.stores().len() == 0 {
            for number in &given {
                self.frames.remove(number);
            }
        }
        (plan.answer(), plan.bits(), plan.flush())
    }

    /// A processor sets both flags in each present entry that is to be stored.
    fn set_flags(&mut self, plan: &Plan<'_>) {
        for store in plan.stores().filter(|store| store.old & 1 != 0) {
            let words = self.frames[&store.frame].words();
            let mut words = words;
            words[store.index] |= FLAGS;
            *self.frames.get_mut(&store.frame).unwrap() = Box::new(Frame::from(words));
        }
    }
}

/// The pages as a list, by their first addresses.
type Pages = BTreeMap<u64, Mapping>;

fn covering(pages: &Pages, address: u64) -> Option<(u64, Mapping)> {
    let (&base, &page) = pages.range(..=address).next_back()?;
    (address - base < page.size.bytes()).then_some((base, page))
}

/// What the list answers.
fn listed(pages: &mut Pages, request: Request) -> Answer {
    let (base, found) = match request {
        Request::Map { page, .. } => return listed_map(pages, page),
        Request::Ask { address } => {
            return match covering(pages, address) {
                Some((base, page)) => Answer::Mapped(Mapping {
                    phys: page.phys + (address - base),
                    ..page
                }),
                None => Answer::NotMapped,
            }
        }
        Request::Unmap { base } | Request::Protect { base, .. } | Request::Remap { base, .. } => {
            (base, covering(pages, base))
        }
        _ => unreachable!("not drawn"),
    };
    match (found, request) {
        (None, _) => Answer::NotMapped,
        (Some((first, _)), _) if first != base => Answer::Inside { base: first },
        (Some((_, page)), Request::Unmap { .. }) => {
            pages.remove(&base);
            Answer::Removed(page)
        }
        (Some((_, page)), Request::Protect { rights, .. }) => {
            pages.insert(base, Mapping { rights, ..page });
            Answer::Changed(page.rights)
        }
        (Some((_, page)), Request::Remap { phys, .. }) if phys % page.size.bytes() != 0 => {
            Answer::Misplaced
        }
        (Some((_, page)), Request::Remap { phys, rights, .. }) => {
            let size = page.size;
            pages.insert(base, Mapping { phys, size, rights });
            Answer::Changed(page.rights)
        }
        _ => unreachable!("not drawn"),
    }
}

fn listed_map(pages: &mut Pages, page: Page) -> Answer {
    let end = page.base + page.size.bytes();
    let least = covering(pages, page.base)
        .map(|(base, _)| base)
        .or_else(|| pages.range(page.base..end).next().map(|(&base, _)| base));
    match least {
        Some(base) => Answer::Overlap { base },
        None => {
            let Page {
                phys, size, rights, ..
            } = page;
            pages.insert(page.base, Mapping { phys, size, rights });
            Answer::Done
        }
    }
}

/// Few addresses, which share tables; each some multiple of a page's size.
fn drawn(memory: &mut Memory) -> Request {
    let size = SIZES[memory.draw(3) as usize];
    let bytes = size.bytes();
    let base = (memory.draw(4) << 30) + (memory.draw(2) << 21) + (memory.draw(3) << 12);
    let phys = memory.draw(1 << 34) << 12;
    let rights = Rights {
        write: memory.draw(2) == 0,
        user: memory.draw(2) == 0,
        exec: memory.draw(2) == 0,
    };
    match memory.draw(5) {
        0 => Request::Map {
            page: Page {
                base: base / bytes * bytes,
                size,
                phys: phys / bytes * bytes,
                rights,
            },
            bits: 0,
        },
        1 => Request::Unmap { base },
        2 => Request::Protect { base, rights },
        3 => Request::Remap {
            base,
            phys: if memory.draw(4) == 0 {
                phys
            } else {
                phys >> 30 << 30
            },
            rights,
        },
        _ => Request::Ask {
            address: base + memory.draw(4096),
        },
    }
}

#[test]
fn drawn_requests_are_answered_as_by_a_list_of_pages() {
    for depth in [Depth::Four, Depth::Five] {
        let (mut memory, mut pages) = (Memory::new(depth), Pages::new());
        for _ in 0..20_000 {
            let request = drawn(&mut memory);
            let set = memory.draw(2) == 0;
            let (answer, _, _) = memory.run(request, set);
            assert_eq!(answer, listed(&mut pages, request), "{request:?}");
        }
        for base in pages.keys().copied().collect::<Vec<_>>() {
            memory.run(Request::Unmap { base }, false);
        }
        assert_eq!(memory.frames.len(), 1, "all tables are freed but the root");
    }
}

fn page(base: u64, size: Size, phys: u64, rights: Rights) -> Request {
    let page = Page {
        base,
        size,
        phys,
        rights,
    };
    Request::Map { page, bits: 0 }
}

#[test]
fn a_page_is_split_and_its_parts_are_joined() {
    let mut memory = Memory::new(Depth::Four);
    memory.run(page(0, Size::M2, 0x4000_0000, WRITE), false);
    let (answer, bits, flush) = memory.run(Request::Split { base: 0 }, true);
    assert_eq!((answer, bits & FLAGS), (Answer::Changed(WRITE), FLAGS));
    assert_eq!(
        flush,
        Flush::Range {
            base: 0,
            size: Size::M2
        }
    );
    for part in 0..512 {
        let (word, size) = memory.walk(part << 12);
        assert_eq!(size, Size::K4);
        assert_eq!(word & 0xf_ffff_f000, 0x4000_0000 + (part << 12));
        assert_eq!(word & FLAGS, FLAGS, "no flag is lost");
    }
    assert_eq!(memory.frames.len(), 4);
    assert_eq!(
        memory.run(Request::Join { base: 0 }, true).0,
        Answer::Changed(WRITE)
    );
    assert_eq!(memory.frames.len(), 3);
    assert_eq!(memory.walk(0x1000).1, Size::M2);
    assert_eq!(
        memory.run(Request::Join { base: 0 }, false).0,
        Answer::Apart { index: 1 }
    );
    memory.run(page(1 << 30, Size::K4, 0, ALL), false);
    assert_eq!(
        memory.run(Request::Split { base: 1 << 30 }, false).0,
        Answer::Smallest
    );
    memory.run(page(2 << 30, Size::G1, 0, ALL), false);
    assert_eq!(
        memory.run(Request::Join { base: 2 << 30 }, false).0,
        Answer::Largest
    );
}

#[test]
fn the_flush_of_a_change() {
    let (mut memory, size) = (Memory::new(Depth::Five), Size::K4);
    let base = 0x7000;
    assert_eq!(
        memory.run(page(base, size, 0x5000, ALL), false).2,
        Flush::Nothing
    );
    let protect = Request::Protect { base, rights: NONE };
    assert_eq!(memory.run(protect, false).2, Flush::Page { base, size });
    let ask = Request::Ask { address: 0x7123 };
    let found = Mapping {
        phys: 0x5123,
        size,
        rights: NONE,
    };
    assert_eq!(
        memory.run(ask, false),
        (Answer::Mapped(found), 0, Flush::Nothing)
    );
    let (answer, bits, flush) = memory.run(Request::Unmap { base }, true);
    let removed = Mapping {
        phys: 0x5000,
        ..found
    };
    assert_eq!((answer, bits), (Answer::Removed(removed), FLAGS));
    assert_eq!(flush, Flush::PageAndTables { base, size });
}

#[test]
fn a_page_loses_parts_and_pages_are_replaced_by_one() {
    let mut memory = Memory::new(Depth::Four);
    let base = 0x40_0000;
    let flush = Flush::Range {
        base,
        size: Size::M2,
    };
    memory.run(page(base, Size::M2, 0x80_0000, ALL), false);
    let parts = Request::UnmapPart {
        base,
        first: 3,
        count: 2,
    };
    let (answer, _, flushed) = memory.run(parts, false);
    assert_eq!((answer, flushed), (Answer::Changed(ALL), flush));
    let of = |memory: &mut Memory, address| memory.run(Request::Ask { address }, false).0;
    let kept = |phys| {
        Answer::Mapped(Mapping {
            phys,
            size: Size::K4,
            rights: ALL,
        })
    };
    assert_eq!(of(&mut memory, base + 0x2FFF), kept(0x80_2FFF));
    assert_eq!(of(&mut memory, base + 0x3000), Answer::NotMapped);
    assert_eq!(of(&mut memory, base + 0x4FFF), Answer::NotMapped);
    assert_eq!(of(&mut memory, base + 0x5000), kept(0x80_5000));

    let collapse = Request::Collapse {
        base,
        phys: 0xA0_0000,
        rights: NONE,
    };
    assert_eq!(memory.run(collapse, false).0, Answer::Apart { index: 3 });
    for (number, phys) in [(3, 0x12_3000), (4, 0x45_6000)] {
        memory.run(page(base + number * 0x1000, Size::K4, phys, ALL), false);
    }
    let (answer, _, flushed) = memory.run(collapse, false);
    assert_eq!((answer, flushed), (Answer::Changed(ALL), flush));
    let whole = Mapping {
        phys: 0xA0_3000,
        size: Size::M2,
        rights: NONE,
    };
    assert_eq!(of(&mut memory, base + 0x3000), Answer::Mapped(whole));
}

#[test]
fn an_empty_table_is_in_the_way_and_is_pruned() {
    let mut memory = Memory::new(Depth::Four);
    let (table, root) = (memory.take(), memory.target.root);
    let mut words = [0; 512];
    words[0] = table << 12 | 7;
    memory.frames.insert(root, Box::new(Frame::from(words)));
    let large = page(0, Size::G1, 0, ALL);
    memory.run(large, false);
    memory.run(Request::Unmap { base: 0 }, false);
    assert_eq!(
        memory.frames.len(),
        1,
        "the table was emptied, and is unlinked"
    );

    let (upper, lower) = (memory.take(), memory.take());
    for (frame, below) in [(root, upper), (upper, lower)] {
        words[0] = below << 12 | 7;
        memory.frames.insert(frame, Box::new(Frame::from(words)));
    }
    let Answer::Empty { frame, address } = memory.run(large, false).0 else {
        panic!("the table is empty")
    };
    assert_eq!(frame, lower);
    assert_eq!(
        memory.run(Request::Prune { address }, false).0,
        Answer::Done
    );
    assert_eq!(memory.run(large, false).0, Answer::Done);
}

#[test]
fn frames_that_lack_or_lie_beyond() {
    let memory = Memory::new(Depth::Four);
    let mut planner = Planner::new();
    let begin = |planner: &mut Planner, frame: Option<u64>| {
        let mut step = planner
            .begin(&memory.target, page(0, Size::K4, 0, ALL))
            .unwrap();
        loop {
            step = match (step, frame) {
                (Step::See(see), _) => see.words(&memory.frames[&memory.target.root]),
                (Step::Give(give), Some(frame)) => give.frame(frame),
                (Step::Give(give), None) => give.none(),
                (Step::Planned(plan), _) => return (plan.answer(), plan.stores().len()),
            };
        }
    };
    assert_eq!(begin(&mut planner, None), (Answer::NoFrame, 0));
    let frame = 1 << 34;
    assert_eq!(
        begin(&mut planner, Some(frame)),
        (Answer::FrameRange { frame }, 0)
    );
}

#[test]
fn a_word_that_somebody_else_wrote_is_refused() {
    let memory = Memory::new(Depth::Four);
    let mut planner = Planner::new();
    let step = planner
        .begin(&memory.target, page(0, Size::G1, 0, ALL))
        .unwrap();
    let Step::See(see) = step else {
        panic!("the root is seen first")
    };
    let Step::Give(give) = see.words(&memory.frames[&memory.target.root]) else {
        panic!("a table is needed")
    };
    let Step::Planned(mut plan) = give.frame(7) else {
        panic!("one table is enough")
    };
    let stores: Vec<_> = plan.stores().collect();
    assert_eq!(stores.len(), 2);
    assert_eq!((stores[0].frame, stores[1].frame), (7, memory.target.root));
    assert_eq!((plan.fill(), plan.unlinked()), (None, &[][..]));
    assert_eq!(plan.again(1, 2), Err(NotAsked));
    assert_eq!(plan.again(2, 0), Err(NotAsked));
    assert_eq!(plan.stores().collect::<Vec<_>>(), stores);
}

#[test]
fn requests_that_are_refused() {
    let target = Memory::new(Depth::Four).target;
    let refused = |target: &Target, request| Planner::new().begin(target, request).unwrap_err();
    let of = |bad| BadPlan::Request(bad);
    let unmap = Request::Unmap { base: 1 << 47 };
    assert_eq!(refused(&target, unmap), of(BadRequest::NotCanonical));
    let unmap = Request::Unmap { base: 1 };
    assert_eq!(refused(&target, unmap), of(BadRequest::Unaligned));
    let parts = Request::UnmapPart {
        base: 0,
        first: 0,
        count: 512,
    };
    assert_eq!(refused(&target, parts), BadPlan::Part);
    let map = page(0, Size::M2, 4096, ALL);
    assert_eq!(refused(&target, map), of(BadRequest::PhysUnaligned));
    let map = page(0, Size::K4, 1 << 46, ALL);
    assert_eq!(refused(&target, map), of(BadRequest::PhysRange));
    let few = Target {
        phys_bits: 35,
        ..target
    };
    assert_eq!(refused(&few, map), BadPlan::PhysBits);
    let beyond = Target {
        root: 1 << 34,
        ..target
    };
    assert_eq!(refused(&beyond, Request::Ask { address: 0 }), BadPlan::Root);
    let Request::Map { page, .. } = page(0, Size::K4, 0, ALL) else {
        unreachable!()
    };
    let bits = Request::Map { page, bits: 1 };
    assert_eq!(refused(&target, bits), BadPlan::Bits);
    let bits = Request::Map {
        page,
        bits: ATTRIBUTES,
    };
    assert!(Planner::new().begin(&target, bits).is_ok());
    assert_eq!(of(BadRequest::Unaligned).to_string(), "unaligned");
}
