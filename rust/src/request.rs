//! What a plan is asked for.
use crate::errors::BadRequest;
use crate::page::{Depth, Page, Rights};
use core::error::Error;
use core::fmt::{self, Display, Formatter};

/// Attributes of a page, at the places of an entry of 4 KiB, whatever the size: PWT 3, PCD 4, accessed 5, dirty 6, PAT 7, global 8, for
/// software 11:9 and 58:52, protection key 62:59.
pub const ATTRIBUTES: u64 = 0x7ff0_0000_0000_0ff8;

/// The page table that a plan is for.
#[derive(Clone, Copy, Debug, PartialEq, Eq)]
pub struct Target {
    /// The frame number of its root: CR3 is this times 4,096.
    pub root: u64,
    /// How many levels it has.
    pub depth: Depth,
    /// How many bits a physical address has: 36 to 52.
    pub phys_bits: u32,
    /// Tables to which entries of this level and of those above lead stay linked, since other roots lead to them: 0 for none, 1 for all.
    pub pinned: u32,
}

/// What is asked for.
#[derive(Clone, Copy, Debug, PartialEq, Eq)]
pub enum Request {
    /// A page is mapped, with these of `ATTRIBUTES`.
    Map {
        /// The page.
        page: Page,
        /// Its attributes.
        bits: u64,
    },
    /// The page that begins at an address is unmapped; tables that it leaves empty are unlinked.
    Unmap {
        /// The address.
        base: u64,
    },
    /// The page that begins at an address has these rights from then on.
    Protect {
        /// The address.
        base: u64,
        /// The rights.
        rights: Rights,
    },
    /// The page that begins at an address leads to another physical address, with these rights; its size stays.
    Remap {
        /// The address.
        base: u64,
        /// The physical address.
        phys: u64,
        /// The rights.
        rights: Rights,
    },
    /// 512 pages of the next smaller size take the place of the page that begins at an address.
    Split {
        /// The address.
        base: u64,
    },
    /// One page takes the place of 512 that follow on from one another, the first of which begins at an address.
    Join {
        /// The address.
        base: u64,
    },
    /// The table in which the way of an address ends is unlinked, where it is empty.
    Prune {
        /// The address.
        address: u64,
    },
    /// Of the 512 parts of the page that begins at an address some are removed; the others take the page's place.
    UnmapPart {
        /// The address.
        base: u64,
        /// The number of the first part that is removed.
        first: u64,
        /// How many are.
        count: u64,
    },
    /// One page elsewhere takes the place of 512 that are alike, the first of which begins at an address. What lies there, and that nobody
    /// writes to them from the copy until the flush is over, is the caller's.
    Collapse {
        /// The address.
        base: u64,
        /// The physical address of the page.
        phys: u64,
        /// Its rights.
        rights: Rights,
    },
    /// Where an address leads.
    Ask {
        /// The address.
        address: u64,
    },
}

/// What is wrong with a target or a request; the first that holds.
#[derive(Clone, Copy, Debug, PartialEq, Eq)]
pub enum BadPlan {
    /// `phys_bits` is none of 36 to 52.
    PhysBits,
    /// The root's frame lies beyond `phys_bits`.
    Root,
    /// A bit is none of `ATTRIBUTES`.
    Bits,
    /// The parts that are to be removed are none, all, or not all among 512.
    Part,
    /// The request is not well formed.
    Request(BadRequest),
}

impl Display for BadPlan {
    fn fmt(&self, f: &mut Formatter<'_>) -> fmt::Result {
        match self {
            BadPlan::PhysBits => {
                f.write_str("physical addresses of fewer than 36 or more than 52 bits")
            }
            BadPlan::Root => f.write_str("a root beyond the physical addresses"),
            BadPlan::Bits => f.write_str("a bit that is no attribute"),
            BadPlan::Part => f.write_str("parts that are none, all, or not among 512"),
            BadPlan::Request(bad) => bad.fmt(f),
        }
    }
}

impl Error for BadPlan {}
