//! The audit of a chain of segments as it comes.
use crate::audit::{fault_in, Fault, OutOfMemory};
use crate::ffi::{self, AuditChain, Finding};
use core::error::Error;
use core::fmt::{self, Display, Formatter};
use core::ptr::null_mut;

/// What a piece shows of a chain.
#[derive(Clone, Copy, Debug, PartialEq, Eq)]
pub enum Fed<'a> {
    /// Some bytes at the front of the piece end a segment that is right.
    Right {
        /// How many bytes: feed the rest again.
        taken: usize,
        /// How many calls the order of the segment has.
        calls: usize,
        /// The calls, each as the index of its event in the segment; `None` where the array has no room for all of them.
        order: Option<&'a [u32]>,
    },
    /// The whole piece is taken, and no segment ended.
    More,
    /// The segment has this fault, its first, whatever comes behind. The chain is over.
    Wrong(Fault),
}

/// Why a call for a chain has no answer.
#[derive(Clone, Copy, Debug, PartialEq, Eq)]
pub enum ChainError {
    /// A growth of memory was refused. A chain that was fed or ended is over then, without a verdict.
    OutOfMemory,
    /// The chain is over.
    Over,
    /// The chain has no verdict yet, or was begun without explanations.
    NotExplained,
}

impl Display for ChainError {
    fn fmt(&self, f: &mut Formatter<'_>) -> fmt::Result {
        f.write_str(match self {
            ChainError::OutOfMemory => "out of memory",
            ChainError::Over => "the chain is over",
            ChainError::NotExplained => "there is no explanation",
        })
    }
}

impl Error for ChainError {}

fn error_of(status: u32) -> ChainError {
    match status {
        3 => ChainError::OutOfMemory,
        5 => ChainError::Over,
        7 => ChainError::NotExplained,
        _ => unreachable!("no other status is promised of a chain"),
    }
}

/// A chain that is judged as it comes, in pieces of any size. It allocates on the C library's heap, and frees all when it is dropped.
#[derive(Debug)]
pub struct Chain {
    raw: AuditChain,
}

impl Chain {
    /// A chain of which nothing has come yet. Its verdict can be explained later only if `explain` is true.
    ///
    /// # Errors
    ///
    /// `OutOfMemory` where a growth was refused.
    pub fn new(explain: bool) -> Result<Chain, OutOfMemory> {
        let mut raw = AuditChain {
            magic: 0,
            at: null_mut(),
        };
        // SAFETY: the handle is all zero.
        match unsafe { ffi::nrvs_audit_chain_new(&mut raw, explain) } {
            2 => Ok(Chain { raw }),
            _ => Err(OutOfMemory),
        }
    }

    /// Takes bytes at the front of a piece: all of them, or so many that a segment ends, which is judged then. The calls of its order are
    /// written to the begin of the array where it has room for all of them.
    ///
    /// # Errors
    ///
    /// `OutOfMemory` where a growth was refused, and then the chain is over; `Over` where it was before.
    pub fn feed<'a>(&mut self, piece: &[u8], order: &'a mut [u32]) -> Result<Fed<'a>, ChainError> {
        let (mut finding, mut taken) = (Finding::default(), 0);
        // SAFETY: the handle is as the last call left it, and the pointers are those of references, to as many elements as is said.
        let status = unsafe {
            ffi::nrvs_audit_chain_feed(
                &mut self.raw,
                piece.as_ptr(),
                piece.len(),
                order.as_mut_ptr(),
                order.len(),
                &mut finding,
                &mut taken,
            )
        };
        match status {
            0 => Ok(Fed::Right {
                taken,
                calls: finding.calls,
                order: order.get(..finding.calls),
            }),
            1 => Ok(Fed::Wrong(fault_in(&finding))),
            2 => Ok(Fed::More),
            _ => Err(error_of(status)),
        }
    }

    /// Ends the chain, of which no more comes: `None` if it is right; else the fault of bytes that end within a segment, or of none.
    ///
    /// # Errors
    ///
    /// `OutOfMemory` where a growth was refused, and then there is no verdict; `Over` where the chain was over before.
    pub fn end(&mut self) -> Result<Option<Fault>, ChainError> {
        let mut finding = Finding::default();
        // SAFETY: the handle is as the last call left it.
        match unsafe { ffi::nrvs_audit_chain_end(&mut self.raw, &mut finding) } {
            0 => Ok(None),
            1 => Ok(Some(fault_in(&finding))),
            status => Err(error_of(status)),
        }
    }

    /// The explanation of the verdict, as `nrvs explain --chain` prints it: lines, or an object on a line. Gives how many bytes it has, and
    /// writes them to the begin of the array where that has room for all of them.
    ///
    /// # Errors
    ///
    /// `NotExplained` before the verdict, and of a chain that was begun without explanations; `OutOfMemory` where a growth was refused.
    pub fn explain(&mut self, as_json: bool, text: &mut [u8]) -> Result<usize, ChainError> {
        let mut length = 0;
        // SAFETY: the handle is as the last call left it, and the pointer is that of a slice of this length.
        let status = unsafe {
            ffi::nrvs_audit_chain_explain(
                &mut self.raw,
                as_json,
                text.as_mut_ptr(),
                text.len(),
                &mut length,
            )
        };
        match status {
            0 | 1 => Ok(length),
            _ => Err(error_of(status)),
        }
    }
}

impl Drop for Chain {
    fn drop(&mut self) {
        // SAFETY: the handle is as the last call left it.
        unsafe { ffi::nrvs_audit_chain_free(&mut self.raw) }
    }
}
