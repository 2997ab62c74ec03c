//! Each call, each refusal, and pages of all sizes against what was asked.
use nrvs::{
    Access, AccessError, BadMemory, BadRequest, ChangeError, Depth, Frame, MapError, Mapping, Mark,
    Mode, Page, PageTable, Rights, Size,
};
use std::sync::atomic::{AtomicU64, Ordering};

const GIB: u64 = 1 << 30;
const NONE: Rights = Rights {
    write: false,
    user: false,
    exec: false,
};
const WRITE: Rights = Rights {
    write: true,
    ..NONE
};
const EXEC: Rights = Rights { exec: true, ..NONE };
const ANY: u64 = 0xABAB_ABAB_ABAB_ABAB;

fn page(base: u64, size: Size, phys: u64, rights: Rights) -> Page {
    Page {
        base,
        size,
        phys,
        rights,
    }
}

/// Frames that had some use before.
fn frames_of_any(count: usize) -> Vec<Frame> {
    vec![Frame::from([ANY; 512]); count]
}

/// The word at the end of the path to an address, as a processor walks it.
fn walk(table: &PageTable, depth: Depth, base: u64, address: u64) -> u64 {
    let (mut number, mut word) = (table.root(), 0);
    for level in (1..=depth as u32).rev() {
        word = table.frames()[(number - base) as usize]
            .word((address >> (3 + 9 * level) & 511) as usize);
        if word & 1 == 0 || (level < 4 && level > 1 && word & 128 != 0) {
            return word;
        }
        number = word >> 12 & ((1 << 40) - 1);
    }
    word
}

#[test]
fn memory_that_cannot_be_lent() {
    let new = |base, frames: usize, marks: usize| {
        let (mut frames, mut marks) = (frames_of_any(frames), vec![Mark::default(); marks]);
        PageTable::new(Depth::Four, base, &mut frames, &mut marks).map(|table| table.root())
    };
    assert_eq!(new(0, 0, 8), Err(BadMemory::Frames));
    assert_eq!(new(0, 4097, 4097), Err(BadMemory::Frames));
    assert_eq!(new(0, 8, 7), Err(BadMemory::Marks));
    assert_eq!(new((1 << 40) - 7, 8, 8), Err(BadMemory::Base));
    assert_eq!(new(u64::MAX, 8, 8), Err(BadMemory::Base));
    assert_eq!(new((1 << 40) - 8, 8, 8), Ok((1 << 40) - 8));
    assert_eq!(new(7, 4096, 5000), Ok(7));
}

#[test]
fn requests_that_are_refused() {
    let (mut frames, mut marks) = (frames_of_any(8), [Mark::default(); 8]);
    let mut table = PageTable::new(Depth::Four, 0, &mut frames, &mut marks).unwrap();
    let bad = |bad| Err(MapError::Refused(bad));
    assert_eq!(
        table.map(page(1 << 47, Size::K4, 0, NONE)),
        bad(BadRequest::NotCanonical)
    );
    assert_eq!(
        table.map(page(4096, Size::M2, 0, NONE)),
        bad(BadRequest::Unaligned)
    );
    assert_eq!(
        table.map(page(0, Size::G1, 4096, NONE)),
        bad(BadRequest::PhysUnaligned)
    );
    assert_eq!(
        table.map(page(0, Size::K4, 1 << 51, NONE)),
        bad(BadRequest::PhysRange)
    );
    assert_eq!(
        table.unmap(1),
        Err(ChangeError::Refused(BadRequest::Unaligned))
    );
    assert_eq!(
        table.unmap(1 << 60),
        Err(ChangeError::Refused(BadRequest::NotCanonical))
    );
    assert_eq!(
        table.protect(8, NONE),
        Err(ChangeError::Refused(BadRequest::Unaligned))
    );
    assert_eq!(table.resolve(1 << 47), Err(BadRequest::NotCanonical));
    assert_eq!(
        table.access(1 << 47, Mode::User, Access::Read),
        Err(AccessError::Refused(BadRequest::NotCanonical))
    );
    assert_eq!(table.tables(), 1);
}

fn answers(depth: Depth) {
    let (mut frames, mut marks) = (frames_of_any(16), [Mark::default(); 16]);
    let mut table = PageTable::new(depth, 1000, &mut frames, &mut marks).unwrap();
    let user = Rights {
        user: true,
        exec: true,
        write: false,
    };
    assert_eq!(table.root(), 1000);
    assert_eq!(table.map(page(0x401000, Size::K4, 0x7000, WRITE)), Ok(()));
    assert_eq!(walk(&table, depth, 1000, 0x401000), 0x8000_0000_0000_7003);
    assert_eq!(table.map(page(GIB, Size::G1, 3 * GIB, user)), Ok(()));
    assert_eq!(walk(&table, depth, 1000, GIB), 3 * GIB + 0x85);
    assert_eq!(
        table.map(page(0x400000, Size::M2, 0, NONE)),
        Err(MapError::Overlap { base: 0x401000 })
    );
    assert_eq!(
        table.resolve(0x401234),
        Ok(Some(Mapping {
            phys: 0x7234,
            size: Size::K4,
            rights: WRITE
        }))
    );
    assert_eq!(table.resolve(0x400000), Ok(None));
    assert_eq!(
        table.access(GIB + 5, Mode::User, Access::Fetch),
        Ok(3 * GIB + 5)
    );
    assert_eq!(
        table.access(GIB + 5, Mode::User, Access::Write),
        Err(AccessError::Fault { code: 7 })
    );
    assert_eq!(
        table.access(0x401000, Mode::User, Access::Read),
        Err(AccessError::Fault { code: 5 })
    );
    assert_eq!(
        table.access(0x401000, Mode::Supervisor, Access::Write),
        Ok(0x7000)
    );
    assert_eq!(
        table.access(0, Mode::Supervisor, Access::Fetch),
        Err(AccessError::Fault { code: 16 })
    );
    assert_eq!(table.tables(), depth as usize);
    assert_eq!(table.protect(0x401000, EXEC), Ok(WRITE));
    assert_eq!(walk(&table, depth, 1000, 0x401000), 0x7001);
    assert_eq!(table.protect(0, EXEC), Err(ChangeError::NotMapped));
    assert_eq!(
        table.protect(GIB + 4096, EXEC),
        Err(ChangeError::Inside { base: GIB })
    );
    assert_eq!(
        table.unmap(GIB + 4096),
        Err(ChangeError::Inside { base: GIB })
    );
    assert_eq!(
        table.unmap(0x401000),
        Ok(Mapping {
            phys: 0x7000,
            size: Size::K4,
            rights: EXEC
        })
    );
    assert_eq!(walk(&table, depth, 1000, 0x401000), 0);
    assert_eq!(table.unmap(0x401000), Err(ChangeError::NotMapped));
    assert_eq!(table.tables(), depth as usize - 2);
}

#[test]
fn answers_at_four_levels() {
    answers(Depth::Four);
}

#[test]
fn answers_at_five_levels() {
    answers(Depth::Five);
}

#[test]
fn frames_run_out_and_come_back() {
    let (mut frames, mut marks) = (frames_of_any(32), [Mark::default(); 32]);
    let mut table = PageTable::new(Depth::Four, 0, &mut frames, &mut marks).unwrap();
    for _ in 0..2 {
        for i in 0..15 {
            assert_eq!(table.map(page(i << 30, Size::K4, i << 12, WRITE)), Ok(()));
        }
        assert_eq!(
            table.map(page(15 << 30, Size::K4, 0, WRITE)),
            Err(MapError::Full { tables: 34 })
        );
        for i in 0..15 {
            assert_eq!(table.unmap(i << 30).map(|had| had.phys), Ok(i << 12));
        }
        assert_eq!(table.tables(), 1);
    }
}

#[test]
fn threads_ask_at_once() {
    let (mut frames, mut marks) = (frames_of_any(32), [Mark::default(); 32]);
    let mut table = PageTable::new(Depth::Four, 7, &mut frames, &mut marks).unwrap();
    for i in 0..8 {
        assert_eq!(table.map(page(i << 30, Size::K4, i << 12, WRITE)), Ok(()));
    }
    let shared = &table;
    std::thread::scope(|scope| {
        for _ in 0..2 {
            scope.spawn(move || {
                for i in 0..8_000 {
                    let (address, phys) = ((i % 8 << 30) + 5, (i % 8 << 12) + 5);
                    assert_eq!(
                        shared.access(address, Mode::Supervisor, Access::Write),
                        Ok(phys)
                    );
                    assert_eq!(shared.tables(), 18);
                }
            });
        }
    });
}

/// Sets flags in a word, as a processor does that walks by it.
fn set_flags(table: &PageTable, frame: usize, index: usize, flags: u64) {
    let word = std::ptr::from_ref(&table.frames()[frame]).cast::<AtomicU64>();
    // SAFETY: a frame is 512 such words.
    unsafe { (*word.add(index)).fetch_or(flags, Ordering::SeqCst) };
}

#[test]
fn a_processor_sets_flags() {
    let (mut frames, mut marks) = (frames_of_any(4), [Mark::default(); 4]);
    let mut table = PageTable::new(Depth::Four, 0, &mut frames, &mut marks).unwrap();
    table.map(page(0x1000, Size::K4, 0x7000, WRITE)).unwrap();
    for level in 0..4 {
        set_flags(&table, level, usize::from(level == 3), 0x60);
    }
    assert_eq!(table.frames()[3].word(1), 0x8000_0000_0000_7063);
    assert_eq!(table.frames()[3].words()[1], 0x8000_0000_0000_7063);
    assert_eq!(
        table.access(0x1008, Mode::Supervisor, Access::Write),
        Ok(0x7008)
    );
    assert_eq!(table.clear_flags(3, 1), 0x8000_0000_0000_7063);
    assert_eq!(table.frames()[3].word(1), 0x8000_0000_0000_7003);
    assert_eq!(table.clear_flags(3, 0), 0);
    set_flags(&table, 3, 1, 0x20);
    assert_eq!(table.unmap(0x1000).map(|had| had.phys), Ok(0x7000));
    assert_eq!(table.tables(), 1);
}

#[test]
fn the_memory_comes_back() {
    let (mut frames, mut marks) = (frames_of_any(4), [Mark::default(); 4]);
    {
        let mut table = PageTable::new(Depth::Four, 0, &mut frames, &mut marks).unwrap();
        table.map(page(0, Size::G1, 0, WRITE)).unwrap();
    }
    assert_eq!(frames[0].word(0), 0x1007);
    assert_eq!(frames[1].word(0), 0x8000_0000_0000_0083);
    assert_eq!(frames[3].word(0), ANY);
}
