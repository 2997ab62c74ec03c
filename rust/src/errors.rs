//! Why a call was refused, or did nothing.
use core::error::Error;
use core::fmt::{self, Display, Formatter};

/// What is wrong with the memory lent.
#[derive(Clone, Copy, Debug, PartialEq, Eq)]
pub enum BadMemory {
    /// There is no frame, or there are more than 4,096.
    Frames,
    /// There are fewer marks than frames.
    Marks,
    /// The number of the last frame isn't below 2^40.
    Base,
}

/// What is wrong with what was asked. It changed nothing.
#[derive(Clone, Copy, Debug, PartialEq, Eq)]
pub enum BadRequest {
    /// The address isn't canonical.
    NotCanonical,
    /// The address is no multiple of the page's size, or of 4,096.
    Unaligned,
    /// The physical address is no multiple of the page's size.
    PhysUnaligned,
    /// The page doesn't lie below physical 2^51.
    PhysRange,
}

/// Why a page was not mapped. Nothing changed.
#[derive(Clone, Copy, Debug, PartialEq, Eq)]
pub enum MapError {
    /// The request is not well formed.
    Refused(BadRequest),
    /// A page is in the way; the least such one begins here.
    Overlap {
        /// Its first address.
        base: u64,
    },
    /// There are too few frames.
    Full {
        /// How many tables there would be.
        tables: u64,
    },
}

/// Why no page was removed, or given other rights. Nothing changed.
#[derive(Clone, Copy, Debug, PartialEq, Eq)]
pub enum ChangeError {
    /// The request is not well formed.
    Refused(BadRequest),
    /// No page covers the address.
    NotMapped,
    /// A page covers the address, and begins elsewhere.
    Inside {
        /// Its first address.
        base: u64,
    },
}

/// Why an access is not allowed.
#[derive(Clone, Copy, Debug, PartialEq, Eq)]
pub enum AccessError {
    /// The request is not well formed.
    Refused(BadRequest),
    /// It makes a page fault.
    Fault {
        /// The processor's error code.
        code: u64,
    },
}

impl From<BadRequest> for MapError {
    fn from(bad: BadRequest) -> MapError {
        MapError::Refused(bad)
    }
}

impl From<BadRequest> for ChangeError {
    fn from(bad: BadRequest) -> ChangeError {
        ChangeError::Refused(bad)
    }
}

impl From<BadRequest> for AccessError {
    fn from(bad: BadRequest) -> AccessError {
        AccessError::Refused(bad)
    }
}

impl Display for BadMemory {
    fn fmt(&self, f: &mut Formatter<'_>) -> fmt::Result {
        f.write_str(match self {
            BadMemory::Frames => "no frame, or more than 4,096",
            BadMemory::Marks => "fewer marks than frames",
            BadMemory::Base => "a frame number of 2^40 or more",
        })
    }
}

impl Display for BadRequest {
    fn fmt(&self, f: &mut Formatter<'_>) -> fmt::Result {
        f.write_str(match self {
            BadRequest::NotCanonical => "not canonical",
            BadRequest::Unaligned => "unaligned",
            BadRequest::PhysUnaligned => "physical address unaligned",
            BadRequest::PhysRange => "physical address out of range",
        })
    }
}

impl Display for MapError {
    fn fmt(&self, f: &mut Formatter<'_>) -> fmt::Result {
        match self {
            MapError::Refused(bad) => bad.fmt(f),
            MapError::Overlap { base } => write!(f, "overlaps the page at {base:#x}"),
            MapError::Full { tables } => write!(f, "needs {tables} tables"),
        }
    }
}

impl Display for ChangeError {
    fn fmt(&self, f: &mut Formatter<'_>) -> fmt::Result {
        match self {
            ChangeError::Refused(bad) => bad.fmt(f),
            ChangeError::NotMapped => f.write_str("not mapped"),
            ChangeError::Inside { base } => write!(f, "inside the page at {base:#x}"),
        }
    }
}

impl Display for AccessError {
    fn fmt(&self, f: &mut Formatter<'_>) -> fmt::Result {
        match self {
            AccessError::Refused(bad) => bad.fmt(f),
            AccessError::Fault { code } => write!(f, "page fault, error code {code}"),
        }
    }
}

impl Error for BadMemory {}

impl Error for BadRequest {}

impl Error for MapError {}

impl Error for ChangeError {}

impl Error for AccessError {}
