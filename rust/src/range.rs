//! Ranges: pages that follow one another, in one run of words for each table.
//!
//! What is promised of a run, and what the caller keeps, is in crates/nrvs_plan_c/README.md. One call deals with pages of one table, from
//! the base of the range on; the caller carries that out and begins again behind it, until nothing is left. One flush for all of it
//! suffices. A range over the hole between the two halves isn't refused, and may end in the hole: ask for the halves apart.
use crate::ffi;
use crate::page::{Frame, Page, Rights, Size};
use crate::plan::{fault, of_target, BadPlan, Flush, Plan, Target};

/// What is done to the pages of a range.
#[derive(Clone, Copy, Debug, PartialEq, Eq)]
pub enum RangeRequest {
    /// Pages are mapped from this one on, physically too one after another, each with these of `ATTRIBUTES`. The range has whole pages.
    Map {
        /// The first page.
        page: Page,
        /// The attributes.
        bits: u64,
    },
    /// The pages from an address on are unmapped, of whatever sizes; none is split.
    Unmap {
        /// The address.
        base: u64,
    },
    /// The pages from an address on have these rights from then on.
    Protect {
        /// The address.
        base: u64,
        /// The rights.
        rights: Rights,
    },
    /// The accessed and the dirty flag are taken from the pages from an address on.
    Harvest {
        /// The address.
        base: u64,
    },
}

impl RangeRequest {
    /// Where the range begins.
    pub fn base(&self) -> u64 {
        match *self {
            RangeRequest::Map { page, .. } => page.base,
            RangeRequest::Unmap { base }
            | RangeRequest::Protect { base, .. }
            | RangeRequest::Harvest { base } => base,
        }
    }

    /// The same, so many bytes on.
    #[must_use]
    pub fn behind(self, bytes: u64) -> RangeRequest {
        let on = |base: u64| base.wrapping_add(bytes);
        match self {
            RangeRequest::Map { page, bits } => RangeRequest::Map {
                page: Page {
                    base: on(page.base),
                    phys: on(page.phys),
                    ..page
                },
                bits,
            },
            RangeRequest::Unmap { base } => RangeRequest::Unmap { base: on(base) },
            RangeRequest::Protect { base, rights } => RangeRequest::Protect {
                base: on(base),
                rights,
            },
            RangeRequest::Harvest { base } => RangeRequest::Harvest { base: on(base) },
        }
    }
}

/// What calls for ranges work in, to be used for one after another.
#[derive(Debug, Default)]
pub struct RangePlanner(ffi::Run);

/// What a range waits for; or what is to be done in one table.
#[derive(Debug)]
pub enum RangeStep<'p> {
    /// The words of a frame.
    See(SeeRange<'p>),
    /// An empty frame.
    Give(GiveRange<'p>),
    /// A plan for the page at the base alone: it links or unlinks tables, or the page is refused or isn't there.
    Planned(Plan<'p>),
    /// A run of pages from the base on.
    Run(Run<'p>),
    /// The same; each exchange finds the flags that it takes.
    Harvest(Run<'p>),
    /// No page has any of so many bytes from the base on.
    Absent {
        /// How many: some, and maybe more than the range has.
        bytes: u64,
    },
    /// The page that begins at the base ends beyond the range.
    EndsBeyond {
        /// Its size.
        size: Size,
    },
}

/// A range that waits for the words of a frame.
#[derive(Debug)]
pub struct SeeRange<'p>(&'p mut ffi::Run);

/// A range that waits for an empty frame.
#[derive(Debug)]
pub struct GiveRange<'p>(&'p mut ffi::Run);

/// Words of one table that change one after another.
#[derive(Debug)]
pub struct Run<'p>(&'p mut ffi::Run);

/// The step that a status means.
fn step(run: &mut ffi::Run, status: u32) -> RangeStep<'_> {
    match status {
        0 => RangeStep::Planned(Plan(&mut run.plan)),
        32 => RangeStep::See(SeeRange(run)),
        33 => RangeStep::Give(GiveRange(run)),
        34 => RangeStep::Run(Run(run)),
        35 => RangeStep::Harvest(Run(run)),
        36 => RangeStep::Absent { bytes: run.covered },
        37 => RangeStep::EndsBeyond {
            size: Size::of_code(run.size as u8),
        },
        _ => unreachable!("a range that waits for something is promised no other status"),
    }
}

impl RangePlanner {
    /// Room for a range.
    pub fn new() -> RangePlanner {
        RangePlanner::default()
    }

    /// Begins a range of so many bytes.
    ///
    /// # Errors
    ///
    /// What is wrong with the target or the first page. Before that `NotCanonical`: the bytes go beyond the last address. And of a map, first of
    /// all, `Unaligned`: the bytes are 0, or no multiple of the page's size.
    pub fn begin(
        &mut self,
        target: &Target,
        request: RangeRequest,
        bytes: u64,
    ) -> Result<RangeStep<'_>, BadPlan> {
        let status = begin(&mut self.0, &of_target(target), request, bytes);
        match fault(status) {
            Some(bad) => Err(bad),
            None => Ok(step(&mut self.0, status)),
        }
    }
}

fn begin(run: &mut ffi::Run, target: &ffi::Target, request: RangeRequest, bytes: u64) -> u32 {
    // SAFETY: the pointers are those of references, and nothing of a range that was begun before is asked for.
    unsafe {
        match request {
            RangeRequest::Map { page, bits } => ffi::nrvs_plan_map_range(
                run,
                target,
                page.base,
                page.size as u32,
                page.phys,
                page.rights.code(),
                bits,
                bytes,
            ),
            RangeRequest::Unmap { base } => ffi::nrvs_plan_unmap_range(run, target, base, bytes),
            RangeRequest::Protect { base, rights } => {
                ffi::nrvs_plan_protect_range(run, target, base, bytes, rights.code())
            }
            RangeRequest::Harvest { base } => {
                ffi::nrvs_plan_harvest_range(run, target, base, bytes)
            }
        }
    }
}

impl<'p> SeeRange<'p> {
    /// The number of the frame whose words are to be shown.
    pub fn frame(&self) -> u64 {
        self.0.plan.frame
    }

    /// Shows the words. Each that matters is read once, as compiled.
    pub fn words(self, words: &Frame) -> RangeStep<'p> {
        // SAFETY: the range is as the call before left it, and the words are those of a frame.
        let status = unsafe { ffi::nrvs_run_see(self.0, core::ptr::from_ref(words).cast()) };
        step(self.0, status)
    }
}

impl<'p> GiveRange<'p> {
    /// Gives a frame all of whose words are 0, by its number.
    pub fn frame(self, number: u64) -> RangeStep<'p> {
        // SAFETY: the range is as the call before left it.
        let status = unsafe { ffi::nrvs_run_give(self.0, number) };
        step(self.0, status)
    }

    /// Says that there is none: no store is planned then, and those that were given are free.
    pub fn none(self) -> RangeStep<'p> {
        // SAFETY: the range is as the call before left it.
        let status = unsafe { ffi::nrvs_run_give_none(self.0) };
        step(self.0, status)
    }
}

impl Run<'_> {
    /// The number of the table's frame.
    pub fn frame(&self) -> u64 {
        self.0.frame
    }

    /// The indices of its words in the table.
    pub fn indices(&self) -> core::ops::Range<usize> {
        let index = self.0.index as usize;
        index..index + self.0.count as usize
    }

    /// The size of its pages.
    pub fn size(&self) -> Size {
        Size::of_code(self.0.size as u8)
    }

    /// How many bytes its pages have: the range goes on so far behind its base.
    pub fn bytes(&self) -> u64 {
        self.0.covered
    }

    /// What the word of page `number`, from 0 on, becomes, where it is this one.
    pub fn word(&self, number: usize, word: u64) -> u64 {
        let on = self.0.step.wrapping_mul(number as u64);
        (word & self.0.keep)
            .wrapping_add(self.0.first_word)
            .wrapping_add(on)
    }

    /// Changes its words in their table, from the first to the last, each by an exchange of what is there: flags that a processor sets
    /// meanwhile are kept. `found` gets the number of each page and the word that was there, with its flags.
    pub fn carry_out(&self, table: &Frame, mut found: impl FnMut(usize, u64)) {
        for (number, index) in self.indices().enumerate() {
            let mut was = table.word(index);
            while let Err(other) = table.exchange(index, was, self.word(number, was)) {
                was = other;
            }
            found(number, was);
        }
    }

    /// What is to be flushed: each of its pages, or nothing.
    pub fn flushes(&self) -> impl ExactSizeIterator<Item = Flush> + '_ {
        let (base, size) = (self.0.base, self.size());
        let bytes = 4096u64 << (9 * size as u32);
        let many = if self.0.flush == 0 {
            0
        } else {
            self.0.count as u32
        };
        (0..many).map(move |number| Flush::Page {
            base: base.wrapping_add(u64::from(number) * bytes),
            size,
        })
    }
}
