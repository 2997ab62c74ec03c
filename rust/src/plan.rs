//! Plans: what a kernel stores in its own page table, in which order, what it flushes, and what it may free.
//!
//! What a plan promises, and what the caller keeps, is in crates/nrvs_plan_c/README.md. One lock is held from the first step until the
//! flush is over on each processor. The words that are shown stay as they are but for flags, and the frames that are given are empty. No
//! call here is `unsafe`: where the caller keeps none of that a plan may be wrong, and nothing undefined happens.
//!
//! Each frame is shown by itself: C's calls over a direct map (`nrvs_plan_map_in` and the like) aren't offered here.
use crate::errors::BadRequest;
use crate::ffi;
use crate::page::{Frame, Mapping, Rights, Size};
pub use crate::request::{BadPlan, Request, Target, ATTRIBUTES};
use core::error::Error;
use core::fmt::{self, Display, Formatter};

/// More than flags differ: somebody else wrote the word, so that the lock doesn't hold. Or the plan has no such store.
#[derive(Clone, Copy, Debug, PartialEq, Eq)]
pub struct NotAsked;

/// What a plan answers. Where it is none of `Done`, `Removed` and `Changed`, no store is planned.
#[derive(Clone, Copy, Debug, PartialEq, Eq)]
pub enum Answer {
    /// The page is mapped; the table is unlinked.
    Done,
    /// A page is in the way; the least such one begins here.
    Overlap {
        /// Its first address.
        base: u64,
    },
    /// The page that was unmapped.
    Removed(Mapping),
    /// No page covers the address.
    NotMapped,
    /// A page covers the address, and begins elsewhere.
    Inside {
        /// Its first address.
        base: u64,
    },
    /// The page is changed; the rights that it had.
    Changed(Rights),
    /// Where the address leads.
    Mapped(Mapping),
    /// There was no frame to be had.
    NoFrame,
    /// A frame that was given lies beyond `phys_bits`.
    FrameRange {
        /// Its number.
        frame: u64,
    },
    /// The entries that lead to the page's table allow less than the page is to allow.
    Narrow,
    /// A table with no present entry is where the page would be mapped: `Request::Prune` unlinks it.
    Empty {
        /// Its number.
        frame: u64,
        /// An address on whose way it is.
        address: u64,
    },
    /// A word has a reserved bit set.
    Reserved {
        /// The frame's number.
        frame: u64,
        /// The word's index.
        index: u64,
    },
    /// The physical address is no multiple of the page's size.
    Misplaced,
    /// The page would not lie below 2^51 and 2^`phys_bits`.
    Beyond,
    /// The page has 4 KiB: it can't be split.
    Smallest,
    /// The page has 1 GiB: it can't be joined with others.
    Largest,
    /// The base is no multiple of the next larger size.
    NotFirst,
    /// An entry is no page that follows on from the first.
    Apart {
        /// The least index of one.
        index: u64,
    },
    /// The table in which the pages lie stays, by `pinned`.
    Pinned,
}

/// What the processors that use the table have to forget, once the last store is made.
#[derive(Clone, Copy, Debug, PartialEq, Eq)]
pub enum Flush {
    /// Nothing.
    Nothing,
    /// The translations of a page.
    Page {
        /// Its first address.
        base: u64,
        /// Its size.
        size: Size,
    },
    /// The same, and what they keep of tables. For a plan with a flush of its own, what they keep of those on the way to the page suffices.
    PageAndTables {
        /// Its first address.
        base: u64,
        /// Its size.
        size: Size,
    },
    /// All translations from an address on for so many bytes, and what they keep of tables, or of those on the ways there.
    Range {
        /// The address.
        base: u64,
        /// The bytes, as a page's size.
        size: Size,
    },
}

/// A word that is to be stored.
#[derive(Clone, Copy, Debug, PartialEq, Eq)]
pub struct Store {
    /// The frame's number.
    pub frame: u64,
    /// The word's index, below 512.
    pub index: usize,
    /// The word that is there.
    pub old: u64,
    /// The word that is to be there.
    pub new: u64,
}

/// A frame that is filled before the stores.
#[derive(Clone, Copy, Debug, PartialEq, Eq)]
pub struct Fill {
    /// The frame's number.
    pub frame: u64,
    first: u64,
    step: u64,
    gap: u64,
    gap_count: u64,
}

impl Fill {
    /// Its 512 words, in order: 0 for the parts that are removed.
    pub fn words(&self) -> impl ExactSizeIterator<Item = u64> {
        let fill = *self;
        (0..512u32).map(move |index| {
            let index = u64::from(index);
            if index.wrapping_sub(fill.gap) < fill.gap_count {
                0
            } else {
                fill.first.wrapping_add(fill.step.wrapping_mul(index))
            }
        })
    }
}

/// What calls work in: less than 512 bytes, to be used for one plan after another.
#[derive(Debug, Default)]
pub struct Planner(ffi::Plan);

/// What a plan waits for; or the plan.
#[derive(Debug)]
pub enum Step<'p> {
    /// The words of a frame.
    See(See<'p>),
    /// An empty frame.
    Give(Give<'p>),
    /// Nothing: it is there.
    Planned(Plan<'p>),
}

/// A plan that waits for the words of a frame.
#[derive(Debug)]
pub struct See<'p>(&'p mut ffi::Plan);

/// A plan that waits for an empty frame.
#[derive(Debug)]
pub struct Give<'p>(&'p mut ffi::Plan);

/// A plan that is there, to be carried out under the same lock: the fill, the stores, the flush; then the unlinked frames are free.
#[derive(Debug)]
pub struct Plan<'p>(pub(crate) &'p mut ffi::Plan);

/// The step that a status means.
fn step(plan: &mut ffi::Plan, status: u32) -> Step<'_> {
    match status {
        0 => Step::Planned(Plan(plan)),
        32 => Step::See(See(plan)),
        33 => Step::Give(Give(plan)),
        _ => unreachable!("a plan that waits for something is promised no other status"),
    }
}

impl Planner {
    /// Room for a plan.
    pub fn new() -> Planner {
        Planner::default()
    }

    /// Begins a plan.
    ///
    /// # Errors
    ///
    /// What is wrong with the target or the request.
    pub fn begin(&mut self, target: &Target, request: Request) -> Result<Step<'_>, BadPlan> {
        let status = begin(&mut self.0, &of_target(target), request);
        match fault(status) {
            Some(bad) => Err(bad),
            None => Ok(step(&mut self.0, status)),
        }
    }
}

/// The target, as C has it.
pub(crate) fn of_target(target: &Target) -> ffi::Target {
    ffi::Target {
        root: target.root,
        levels: target.depth as u32,
        phys_bits: target.phys_bits,
        pinned: target.pinned,
    }
}

/// What is wrong, by the status of a call that begins something.
pub(crate) fn fault(status: u32) -> Option<BadPlan> {
    Some(match status {
        10 => BadPlan::Request(BadRequest::NotCanonical),
        11 => BadPlan::Request(BadRequest::Unaligned),
        12 => BadPlan::Request(BadRequest::PhysUnaligned),
        13 => BadPlan::Request(BadRequest::PhysRange),
        14 => BadPlan::PhysBits,
        15 => BadPlan::Bits,
        16 => BadPlan::Root,
        18 => BadPlan::Part,
        _ => return None,
    })
}

fn begin(plan: &mut ffi::Plan, target: &ffi::Target, request: Request) -> u32 {
    // SAFETY: the pointers are those of references, and nothing of a plan that was begun before is asked for.
    unsafe {
        match request {
            Request::Map { page, bits } => ffi::nrvs_plan_map(
                plan,
                target,
                page.base,
                page.size as u32,
                page.phys,
                page.rights.code(),
                bits,
            ),
            Request::Unmap { base } => ffi::nrvs_plan_unmap(plan, target, base),
            Request::Protect { base, rights } => {
                ffi::nrvs_plan_protect(plan, target, base, rights.code())
            }
            Request::Remap { base, phys, rights } => {
                ffi::nrvs_plan_remap(plan, target, base, phys, rights.code())
            }
            Request::Split { base } => ffi::nrvs_plan_split(plan, target, base),
            Request::Join { base } => ffi::nrvs_plan_join(plan, target, base),
            Request::Prune { address } => ffi::nrvs_plan_prune(plan, target, address),
            Request::UnmapPart { base, first, count } => {
                ffi::nrvs_plan_unmap_part(plan, target, base, first, count)
            }
            Request::Collapse { base, phys, rights } => {
                ffi::nrvs_plan_collapse(plan, target, base, phys, rights.code())
            }
            Request::Ask { address } => ffi::nrvs_plan_ask(plan, target, address),
        }
    }
}

impl<'p> See<'p> {
    /// The number of the frame whose words are to be shown.
    pub fn frame(&self) -> u64 {
        self.0.frame
    }

    /// Shows the words. Each that matters is read once, as compiled.
    pub fn words(self, words: &Frame) -> Step<'p> {
        // SAFETY: the plan is as the call before left it, and the words are those of a frame.
        let status = unsafe { ffi::nrvs_plan_see(self.0, core::ptr::from_ref(words).cast()) };
        step(self.0, status)
    }
}

impl<'p> Give<'p> {
    /// Gives a frame all of whose words are 0, by its number.
    pub fn frame(self, number: u64) -> Step<'p> {
        // SAFETY: the plan is as the call before left it.
        let status = unsafe { ffi::nrvs_plan_give(self.0, number) };
        step(self.0, status)
    }

    /// Says that there is none: no store is planned then, and those that were given are free.
    pub fn none(self) -> Step<'p> {
        // SAFETY: the plan is as the call before left it.
        let status = unsafe { ffi::nrvs_plan_give_none(self.0) };
        step(self.0, status)
    }
}

impl Plan<'_> {
    /// What is answered.
    pub fn answer(&self) -> Answer {
        let (reply, number) = (&self.0.reply, self.0.reply.number);
        let mapping = Mapping {
            phys: number,
            size: Size::of_code(reply.size),
            rights: Rights::of_code(reply.rights),
        };
        match reply.code {
            0 => Answer::Done,
            1 => Answer::Overlap { base: number },
            3 => Answer::Removed(mapping),
            4 => Answer::NotMapped,
            5 => Answer::Inside { base: number },
            6 => Answer::Changed(mapping.rights),
            7 => Answer::Mapped(mapping),
            10 => Answer::NoFrame,
            11 => Answer::FrameRange { frame: number },
            12 => Answer::Narrow,
            13 => Answer::Empty {
                frame: number,
                address: self.0.bits,
            },
            14 => Answer::Reserved {
                frame: number,
                index: self.0.bits,
            },
            15 => Answer::Misplaced,
            16 => Answer::Beyond,
            17 => Answer::Smallest,
            18 => Answer::Largest,
            19 => Answer::NotFirst,
            20 => Answer::Apart { index: number },
            21 => Answer::Pinned,
            _ => unreachable!("no other answer is promised of a plan"),
        }
    }

    /// The attributes of the page that was removed, changed or asked for, the flags that were found among them; else 0.
    pub fn bits(&self) -> u64 {
        match self.answer() {
            Answer::Removed(_) | Answer::Changed(_) | Answer::Mapped(_) => self.0.bits,
            _ => 0,
        }
    }

    /// The frame that is filled before the stores, if one is; again after `again`.
    pub fn fill(&self) -> Option<Fill> {
        (self.0.fills != 0).then_some(Fill {
            frame: self.0.fill.frame,
            first: self.0.fill.first_word,
            step: self.0.fill.step,
            gap: self.0.fill.gap,
            gap_count: self.0.fill.gap_count,
        })
    }

    /// The stores, in their order: five at most.
    pub fn stores(&self) -> impl ExactSizeIterator<Item = Store> + '_ {
        self.0.stores[..self.0.store_count as usize]
            .iter()
            .map(|store| Store {
                frame: store.frame,
                index: store.index as usize,
                old: store.old_word,
                new: store.new_word,
            })
    }

    /// Store number `index` finds a word that differs by flags which a processor set: the plan has that word in its place.
    ///
    /// # Errors
    ///
    /// More than flags differ, or there is no such store: the plan stays as it is.
    pub fn again(&mut self, index: usize, found: u64) -> Result<(), NotAsked> {
        // SAFETY: the plan is as the call before left it.
        match unsafe { ffi::nrvs_plan_again(self.0, index as u64, found) } {
            0 => Ok(()),
            _ => Err(NotAsked),
        }
    }

    /// What is to be flushed.
    pub fn flush(&self) -> Flush {
        let (base, size) = (self.0.flush_base, Size::of_code(self.0.flush_size as u8));
        match self.0.flush {
            0 => Flush::Nothing,
            1 => Flush::Page { base, size },
            2 => Flush::PageAndTables { base, size },
            _ => Flush::Range { base, size },
        }
    }

    /// The frames that are no tables any more, free after the flush: four at most. After a join, a collapse or a prune their words aren't 0.
    pub fn unlinked(&self) -> &[u64] {
        &self.0.unlinked[..self.0.unlinked_count as usize]
    }

    /// Fills, and makes the stores by compare-exchanges, with the flags that processors set meanwhile. `frames` finds a frame by number.
    ///
    /// # Errors
    ///
    /// Somebody else wrote a word: the stores before it are made.
    pub fn carry_out<'m>(&mut self, frames: impl Fn(u64) -> &'m Frame) -> Result<(), NotAsked> {
        self.fill_in(&frames);
        for index in 0..self.0.store_count as usize {
            loop {
                let store = self.0.stores[index];
                let words = frames(store.frame);
                match words.exchange(store.index as usize, store.old_word, store.new_word) {
                    Ok(_) => break,
                    Err(found) => self.again(index, found)?,
                }
                self.fill_in(&frames);
            }
        }
        Ok(())
    }

    fn fill_in<'m>(&self, frames: &impl Fn(u64) -> &'m Frame) {
        if let Some(fill) = self.fill() {
            let words = frames(fill.frame);
            for (index, word) in fill.words().enumerate() {
                words.store(index, word);
            }
        }
    }
}

impl Display for NotAsked {
    fn fmt(&self, f: &mut Formatter<'_>) -> fmt::Result {
        f.write_str("more than flags differ, or there is no such store")
    }
}

impl Error for NotAsked {}
