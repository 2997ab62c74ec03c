//! The page table.
use crate::errors::{AccessError, BadMemory, BadRequest, ChangeError, MapError};
use crate::ffi::{self, Reply};
use crate::page::{Access, Depth, Frame, Mapping, Mark, Mode, Page, Rights, Size};

/// A page table in frames that are lent to it. As it ends, the frames keep what is then in them.
///
/// Frame number `base + i` is `frames[i]`: where the first frame lies at the physical address `base * 4096`, a processor walks the
/// table from `root() * 4096` in CR3. It may set its flags there between calls, and while calls run that only ask. What is said of a
/// call during which a flag is set is in include/nrvs.h.
#[derive(Debug)]
pub struct PageTable<'a> {
    handle: ffi::Table,
    /// Lent to this table alone; but a processor writes them, so that no `&mut` to them is kept.
    frames: &'a [Frame],
    marks: &'a mut [Mark],
}

impl<'a> PageTable<'a> {
    /// A page table with no pages, whatever is in the memory. Its root takes a frame.
    ///
    /// # Errors
    ///
    /// What is wrong with the memory: 1 to 4,096 frames, whose numbers lie below 2^40, and a mark for each.
    pub fn new(
        depth: Depth,
        base: u64,
        frames: &'a mut [Frame],
        marks: &'a mut [Mark],
    ) -> Result<PageTable<'a>, BadMemory> {
        let mut handle = ffi::Table::default();
        // SAFETY: the pointers are those of references, to as many elements as is said.
        let status = unsafe {
            ffi::nrvs_table_new(
                &mut handle,
                frames.as_mut_ptr(),
                frames.len(),
                marks.as_mut_ptr(),
                marks.len(),
                depth as u64,
                base,
            )
        };
        match status {
            0 => Ok(PageTable {
                handle,
                frames,
                marks,
            }),
            3 => Err(BadMemory::Frames),
            4 => Err(BadMemory::Marks),
            5 => Err(BadMemory::Base),
            _ => unreachable!("no other status is promised of a new table"),
        }
    }

    /// The frame number of the root: CR3 is this times 4,096.
    pub fn root(&self) -> u64 {
        self.handle.root
    }

    /// The frames as they are.
    pub fn frames(&self) -> &[Frame] {
        self.frames
    }

    /// Clears the accessed and the dirty flag (bits 5 and 6) of a word that is present, and gives the word as it was. It is the word at an index
    /// below 512, of the frame at an index of `frames()`. No flag that a processor sets meanwhile is lost. What the processor keeps has
    /// to be invalidated before it sets a flag again that it has set once.
    pub fn clear_flags(&mut self, frame: usize, index: usize) -> u64 {
        self.frames[frame].clear_flags(index)
    }

    /// Maps a page. No translation that was there changes.
    ///
    /// # Errors
    ///
    /// A request that is not well formed, a page in the way, or too few frames, in this order.
    pub fn map(&mut self, page: Page) -> Result<(), MapError> {
        let rights = page.rights.code();
        let reply = self.call(|table, words, frames, marks, marked, reply| {
            // SAFETY: `call` gives what the handle was made with.
            unsafe {
                ffi::nrvs_table_map(
                    table,
                    words,
                    frames,
                    marks,
                    marked,
                    page.base,
                    page.size as u32,
                    page.phys,
                    rights,
                    reply,
                )
            }
        })?;
        match reply.code {
            0 => Ok(()),
            1 => Err(MapError::Overlap { base: reply.number }),
            2 => Err(MapError::Full {
                tables: reply.number,
            }),
            _ => unreachable!("no other answer is promised of a map"),
        }
    }

    /// Unmaps the page that begins at an address, and gives what it had. Tables left empty are free at once; a processor may still
    /// have the translation in its TLB.
    ///
    /// # Errors
    ///
    /// A request that is not well formed, or no page that begins there.
    pub fn unmap(&mut self, base: u64) -> Result<Mapping, ChangeError> {
        let reply = self.call(|table, words, frames, marks, marked, reply| {
            // SAFETY: `call` gives what the handle was made with.
            unsafe { ffi::nrvs_table_unmap(table, words, frames, marks, marked, base, reply) }
        })?;
        match reply.code {
            3 => Ok(mapping_in(&reply)),
            4 => Err(ChangeError::NotMapped),
            5 => Err(ChangeError::Inside { base: reply.number }),
            _ => unreachable!("no other answer is promised of an unmap"),
        }
    }

    /// Gives the page that begins at an address these rights and no others, and gives those from before.
    ///
    /// # Errors
    ///
    /// A request that is not well formed, or no page that begins there.
    pub fn protect(&mut self, base: u64, rights: Rights) -> Result<Rights, ChangeError> {
        let reply = self.call(|table, words, frames, marks, marked, reply| {
            // SAFETY: `call` gives what the handle was made with.
            unsafe {
                ffi::nrvs_table_protect(
                    table,
                    words,
                    frames,
                    marks,
                    marked,
                    base,
                    rights.code(),
                    reply,
                )
            }
        })?;
        match reply.code {
            6 => Ok(Rights::of_code(reply.rights)),
            4 => Err(ChangeError::NotMapped),
            5 => Err(ChangeError::Inside { base: reply.number }),
            _ => unreachable!("no other answer is promised of a protect"),
        }
    }

    /// Where an address leads, or `None` where no page covers it. The table stays the same.
    ///
    /// # Errors
    ///
    /// `NotCanonical`.
    pub fn resolve(&self, address: u64) -> Result<Option<Mapping>, BadRequest> {
        let mut reply = Reply::default();
        // SAFETY: the handle was made over these frames and marks, which no one else has written since.
        let status = unsafe {
            ffi::nrvs_table_resolve(
                &self.handle,
                self.frames.as_ptr(),
                self.frames.len(),
                self.marks.as_ptr(),
                self.marks.len(),
                address,
                &mut reply,
            )
        };
        refused(status)?;
        match reply.code {
            7 => Ok(Some(mapping_in(&reply))),
            4 => Ok(None),
            _ => unreachable!("no other answer is promised of a resolve"),
        }
    }

    /// The physical address that an access reaches. The table stays the same.
    ///
    /// # Errors
    ///
    /// `NotCanonical`, or the page fault that the access makes.
    pub fn access(&self, address: u64, mode: Mode, access: Access) -> Result<u64, AccessError> {
        let mut reply = Reply::default();
        // SAFETY: the handle was made over these frames and marks, which no one else has written since.
        let status = unsafe {
            ffi::nrvs_table_access(
                &self.handle,
                self.frames.as_ptr(),
                self.frames.len(),
                self.marks.as_ptr(),
                self.marks.len(),
                address,
                mode as u32,
                access as u32,
                &mut reply,
            )
        };
        refused(status)?;
        match reply.code {
            8 => Ok(reply.number),
            9 => Err(AccessError::Fault { code: reply.number }),
            _ => unreachable!("no other answer is promised of an access"),
        }
    }

    /// How many tables there are, the root among them.
    pub fn tables(&self) -> usize {
        let mut count = 0;
        // SAFETY: the handle was made over these frames and marks, which no one else has written since.
        let status = unsafe {
            ffi::nrvs_table_tables(
                &self.handle,
                self.frames.as_ptr(),
                self.frames.len(),
                self.marks.as_ptr(),
                self.marks.len(),
                &mut count,
            )
        };
        debug_assert_eq!(status, 0);
        count
    }

    /// Makes a call with the handle and the memory that it was made over, which no one else has written since.
    fn call(
        &mut self,
        run: impl FnOnce(*mut ffi::Table, *mut Frame, usize, *mut Mark, usize, *mut Reply) -> u32,
    ) -> Result<Reply, BadRequest> {
        let mut reply = Reply::default();
        // The frames are lent to this table alone, and their words may be written behind a `&`, since they are atomic.
        let status = run(
            &mut self.handle,
            self.frames.as_ptr().cast_mut(),
            self.frames.len(),
            self.marks.as_mut_ptr(),
            self.marks.len(),
            &mut reply,
        );
        refused(status)?;
        Ok(reply)
    }
}

/// What a call of a table that was made is refused for.
fn refused(status: u32) -> Result<(), BadRequest> {
    match status {
        0 => Ok(()),
        10 => Err(BadRequest::NotCanonical),
        11 => Err(BadRequest::Unaligned),
        12 => Err(BadRequest::PhysUnaligned),
        13 => Err(BadRequest::PhysRange),
        _ => unreachable!("no other status is promised of a table that was made"),
    }
}

fn mapping_in(reply: &Reply) -> Mapping {
    Mapping {
        phys: reply.number,
        size: Size::of_code(reply.size),
        rights: Rights::of_code(reply.rights),
    }
}
