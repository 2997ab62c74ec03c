//! The audit of recorded bytes.
use crate::ffi::{self, Finding};
use core::error::Error;
use core::fmt::{self, Display, Formatter};

/// What the audit finds.
#[derive(Clone, Copy, Debug, PartialEq, Eq)]
pub enum Verdict<'a> {
    /// The bytes are right: all answered calls and some unanswered updates are in an order that explains them.
    Right {
        /// How many calls the order has.
        calls: usize,
        /// The calls, each as the index of its event; `None` where the array has no room for all of them.
        order: Option<&'a [u32]>,
    },
    /// They aren't: the first fault.
    Wrong(Fault),
}

/// What keeps bytes from spelling a trace, or a segment.
#[allow(missing_docs)]
#[derive(Clone, Copy, Debug, PartialEq, Eq)]
pub enum Format {
    Truncated,
    BadMagic,
    BadVersion,
    BadCount,
    BadEvent { event: u32 },
    BadFrame { replica: u32, index: u32 },
    Trailing,
    BadChain,
    BadStart { index: u32 },
}

/// What is wrong with a recorded run; docs/DEFINITIONS.md has what each says. Events and calls are named by index.
#[allow(missing_docs)]
#[derive(Clone, Copy, Debug, PartialEq, Eq)]
pub enum Fault {
    Format(Format),
    ThreadOpen { event: u32 },
    NoSuchCall { event: u32 },
    AnsweredTwice { event: u32 },
    NotAnUpdate { place: u32 },
    PlacedTwice { place: u32 },
    NotPlaced { event: u32 },
    PastLog { event: u32 },
    Early { call: u32 },
    WrongAnswer { call: u32 },
    PrefixPastLog { replica: u32 },
    PrefixShort { replica: u32 },
    MissingFrame { replica: u32, frame: u64 },
    SharedFrame { replica: u32, frame: u64 },
    ReservedBit { replica: u32, frame: u64, word: u32 },
    StrayFrame { replica: u32, frame: u64 },
    Differs { replica: u32, address: u64 },
    StartMissing { frame: u64 },
    StartShared { frame: u64 },
    StartReserved { frame: u64, word: u32 },
    StartStray { frame: u64 },
    StartBeyond { address: u64 },
    StartDiffers { address: u64 },
    Stale { call: u32 },
    Reachable { call: u32 },
}

/// A growth of memory was refused.
#[derive(Clone, Copy, Debug, PartialEq, Eq)]
pub struct OutOfMemory;

impl Display for OutOfMemory {
    fn fmt(&self, f: &mut Formatter<'_>) -> fmt::Result {
        f.write_str("out of memory")
    }
}

impl Error for OutOfMemory {}

/// Judges bytes. The calls of an order are written to the begin of the array where it has room for all of them. Allocates
/// on the C library's heap, and frees all of it.
///
/// # Errors
///
/// `OutOfMemory` where a growth was refused; the array is then as it was.
pub fn audit<'a>(bytes: &[u8], order: &'a mut [u32]) -> Result<Verdict<'a>, OutOfMemory> {
    let mut finding = Finding::default();
    // SAFETY: the pointers are those of references, to as many elements as is said.
    let status = unsafe {
        ffi::nrvs_audit(
            bytes.as_ptr(),
            bytes.len(),
            order.as_mut_ptr(),
            order.len(),
            &mut finding,
        )
    };
    match status {
        0 => Ok(Verdict::Right {
            calls: finding.calls,
            order: order.get(..finding.calls),
        }),
        1 => Ok(Verdict::Wrong(fault_in(&finding))),
        3 => Err(OutOfMemory),
        _ => unreachable!("no other status is promised of an audit"),
    }
}

pub(crate) fn fault_in(finding: &Finding) -> Fault {
    let (index, replica, number) = (finding.index, finding.replica, finding.number);
    match finding.fault {
        1 => Fault::Format(format_in(finding)),
        2 => Fault::ThreadOpen { event: index },
        3 => Fault::NoSuchCall { event: index },
        4 => Fault::AnsweredTwice { event: index },
        5 => Fault::NotAnUpdate { place: index },
        6 => Fault::PlacedTwice { place: index },
        7 => Fault::NotPlaced { event: index },
        8 => Fault::PastLog { event: index },
        9 => Fault::Early { call: index },
        10 => Fault::WrongAnswer { call: index },
        11 => Fault::PrefixPastLog { replica },
        12 => Fault::PrefixShort { replica },
        13 => Fault::MissingFrame {
            replica,
            frame: number,
        },
        14 => Fault::SharedFrame {
            replica,
            frame: number,
        },
        15 => Fault::ReservedBit {
            replica,
            frame: number,
            word: index,
        },
        16 => Fault::StrayFrame {
            replica,
            frame: number,
        },
        17 => Fault::Differs {
            replica,
            address: number,
        },
        18 => Fault::StartMissing { frame: number },
        19 => Fault::StartShared { frame: number },
        20 => Fault::StartReserved {
            frame: number,
            word: index,
        },
        21 => Fault::StartStray { frame: number },
        22 => Fault::StartBeyond { address: number },
        23 => Fault::StartDiffers { address: number },
        24 => Fault::Stale { call: index },
        25 => Fault::Reachable { call: index },
        _ => unreachable!("no other fault is promised"),
    }
}

fn format_in(finding: &Finding) -> Format {
    match finding.format {
        1 => Format::Truncated,
        2 => Format::BadMagic,
        3 => Format::BadVersion,
        4 => Format::BadCount,
        5 => Format::BadEvent {
            event: finding.index,
        },
        6 => Format::BadFrame {
            replica: finding.replica,
            index: finding.index,
        },
        7 => Format::Trailing,
        8 => Format::BadChain,
        9 => Format::BadStart {
            index: finding.index,
        },
        _ => unreachable!("no other fault of the format is promised"),
    }
}
