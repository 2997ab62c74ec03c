//! A page table of x86-64 over memory that its caller lends: four or five levels, pages of 4 KiB, 2 MiB and 1 GiB.
//!
//! What each call answers is proved of the archive that it calls (`nrvs_c`); this crate, which turns numbers into enums and back, is
//! tested. It allocates nothing, has no dependency, and needs no `std`.
//!
//! ```
//! use nrvs::{Access, Depth, Frame, Mark, Mode, Page, PageTable, Rights, Size};
//!
//! let mut frames = vec![Frame::ZERO; 16];
//! let mut marks = [Mark::default(); 16];
//! let mut table = PageTable::new(Depth::Four, 0x100, &mut frames, &mut marks)?;
//! let rights = Rights { write: true, user: true, exec: false };
//! table.map(Page { base: 0x400000, size: Size::K4, phys: 0x1000, rights })?;
//! assert_eq!(table.access(0x400123, Mode::User, Access::Write)?, 0x1123);
//! assert_eq!(table.root(), 0x100);
//! # Ok::<(), Box<dyn std::error::Error>>(())
//! ```
//!
//! The memory is the table's for as long as the table lives:
//!
//! ```compile_fail,E0502
//! # use nrvs::{Depth, Frame, Mark, PageTable};
//! let mut frames = vec![Frame::ZERO; 16];
//! let mut marks = [Mark::default(); 16];
//! let table = PageTable::new(Depth::Four, 0, &mut frames, &mut marks).unwrap();
//! let first = frames[0].word(0); // lent
//! table.tables();
//! ```
//!
//! ```compile_fail,E0597
//! # use nrvs::{Depth, Frame, Mark, PageTable};
//! let mut frames = vec![Frame::ZERO; 16];
//! let table = {
//!     let mut marks = [Mark::default(); 16]; // does not live long enough
//!     PageTable::new(Depth::Four, 0, &mut frames, &mut marks).unwrap()
//! };
//! table.tables();
//! ```
#![no_std]
#![warn(missing_docs, unsafe_op_in_unsafe_fn)]

#[cfg(feature = "audit")]
mod audit;
#[cfg(feature = "audit")]
mod chain;
mod errors;
mod ffi;
#[cfg(feature = "nodes")]
pub mod nodes;
mod page;
#[cfg(feature = "plans")]
mod plan;
#[cfg(feature = "plans")]
mod range;
#[cfg(feature = "plans")]
mod request;
mod table;

#[cfg(feature = "audit")]
pub use audit::{audit, Fault, Format, OutOfMemory, Verdict};
#[cfg(feature = "audit")]
pub use chain::{Chain, ChainError, Fed};
pub use errors::{AccessError, BadMemory, BadRequest, ChangeError, MapError};
pub use page::{Access, Depth, Frame, Mapping, Mark, Mode, Page, Rights, Size};
#[cfg(feature = "plans")]
pub use plan::{
    Answer, BadPlan, Fill, Flush, Give, NotAsked, Plan, Planner, Request, See, Step, Store, Target,
    ATTRIBUTES,
};
#[cfg(feature = "plans")]
pub use range::{GiveRange, RangePlanner, RangeRequest, RangeStep, Run, SeeRange};
pub use table::PageTable;
