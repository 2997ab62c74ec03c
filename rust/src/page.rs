//! Pages, and the memory in which tables are.
use core::sync::atomic::{AtomicU64, Ordering};

/// How many levels of tables a translation goes through.
#[derive(Clone, Copy, Debug, PartialEq, Eq)]
pub enum Depth {
    /// 48 bits of address.
    Four = 4,
    /// 57 bits of address, where the processor has LA57.
    Five = 5,
}

/// How much a page covers.
#[derive(Clone, Copy, Debug, PartialEq, Eq)]
pub enum Size {
    /// 4 KiB.
    K4 = 0,
    /// 2 MiB.
    M2 = 1,
    /// 1 GiB.
    G1 = 2,
}

impl Size {
    /// In bytes.
    pub const fn bytes(self) -> u64 {
        1 << (12 + 9 * self as u32)
    }

    pub(crate) fn of_code(code: u8) -> Size {
        match code {
            0 => Size::K4,
            1 => Size::M2,
            _ => Size::G1,
        }
    }
}

/// What a page allows beside a supervisor's read, which is always allowed.
#[derive(Clone, Copy, Debug, Default, PartialEq, Eq)]
pub struct Rights {
    /// Writes.
    pub write: bool,
    /// Accesses in user mode.
    pub user: bool,
    /// Instruction fetches.
    pub exec: bool,
}

impl Rights {
    pub(crate) fn code(self) -> u32 {
        u32::from(self.write) + 2 * u32::from(self.user) + 4 * u32::from(self.exec)
    }

    pub(crate) fn of_code(code: u8) -> Rights {
        Rights {
            write: code & 1 != 0,
            user: code & 2 != 0,
            exec: code & 4 != 0,
        }
    }
}

/// A page to map.
#[derive(Clone, Copy, Debug, PartialEq, Eq)]
pub struct Page {
    /// The first address that it covers: canonical, and a multiple of the size.
    pub base: u64,
    /// How much it covers.
    pub size: Size,
    /// The physical address of its first byte: a multiple of the size; the page ends at or below 2^51.
    pub phys: u64,
    /// What it allows.
    pub rights: Rights,
}

/// Where an address leads, or what a page that was removed had.
#[derive(Clone, Copy, Debug, PartialEq, Eq)]
pub struct Mapping {
    /// The physical address: of this very address, or of the first byte of the page that was removed.
    pub phys: u64,
    /// The page's size.
    pub size: Size,
    /// The page's rights.
    pub rights: Rights,
}

/// Who makes an access.
#[derive(Clone, Copy, Debug, PartialEq, Eq)]
pub enum Mode {
    /// A supervisor.
    Supervisor = 0,
    /// A user.
    User = 1,
}

/// What an access does.
#[derive(Clone, Copy, Debug, PartialEq, Eq)]
pub enum Access {
    /// It reads.
    Read = 0,
    /// It writes.
    Write = 1,
    /// It fetches an instruction.
    Fetch = 2,
}

/// A frame: the 512 words of a table, aligned as a processor wants it. They are atomic, since a processor that walks a table sets flags
/// in it by itself, whatever references there are.
#[derive(Debug)]
#[repr(C, align(4096))]
pub struct Frame([AtomicU64; 512]);

impl Frame {
    /// A frame of zeros. Frames that are lent may have any content.
    pub const ZERO: Frame = Frame([const { AtomicU64::new(0) }; 512]);

    /// The word at an index below 512, as it is now, with the flags that a processor has set.
    pub fn word(&self, index: usize) -> u64 {
        self.0[index].load(Ordering::Relaxed)
    }

    /// All words, one after the other: each as it is when it is read.
    pub fn words(&self) -> [u64; 512] {
        core::array::from_fn(|index| self.word(index))
    }

    /// Stores a word at an index below 512.
    #[cfg(feature = "plans")]
    pub(crate) fn store(&self, index: usize, word: u64) {
        self.0[index].store(word, Ordering::Relaxed);
    }

    /// Stores a word at an index below 512 where the old one is there; else the word that is there.
    #[cfg(feature = "plans")]
    pub(crate) fn exchange(&self, index: usize, old: u64, new: u64) -> Result<u64, u64> {
        self.0[index].compare_exchange(old, new, Ordering::SeqCst, Ordering::SeqCst)
    }

    /// Clears the flags of the word at an index below 512, where that is present, and gives the word as it was.
    pub(crate) fn clear_flags(&self, index: usize) -> u64 {
        let cleared = |word| (word & PRESENT != 0).then_some(word & !(ACCESSED | DIRTY));
        match self.0[index].fetch_update(Ordering::SeqCst, Ordering::Relaxed, cleared) {
            Ok(was) | Err(was) => was,
        }
    }
}

/// The bit of an entry that says that there is one.
const PRESENT: u64 = 1;

/// The flag that a processor sets in each entry that it uses.
const ACCESSED: u64 = 1 << 5;

/// The flag that it sets in the entry of a page that it writes to.
const DIRTY: u64 = 1 << 6;

impl From<[u64; 512]> for Frame {
    fn from(words: [u64; 512]) -> Frame {
        Frame(words.map(AtomicU64::new))
    }
}

impl Clone for Frame {
    fn clone(&self) -> Frame {
        Frame::from(self.words())
    }
}

/// What the library keeps of a frame. It may have any content when it is lent.
#[derive(Clone, Copy, Debug, Default)]
#[repr(C)]
pub struct Mark([u16; 2]);
