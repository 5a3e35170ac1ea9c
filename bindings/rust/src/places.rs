//! The writes to a page, and memory that is brought on from place to place.

use crate::refusals::{checked, checked_buffer, Refused};
use crate::{calls, room, OpenTrace};

/// A write to a page.
#[repr(C)]
#[derive(Clone, Copy, Debug, Default, PartialEq, Eq)]
pub struct Write {
    /// Its tick.
    pub tick: u64,
    /// How many bytes it writes; 0 if it releases the page, which becomes zeros.
    pub size: usize,
    /// Its place in the trace, 1 for the first write.
    pub place: u32,
    /// The byte of the page at which it begins.
    pub offset: u32,
}

impl OpenTrace<'_> {
    /// Brings memory after the first `from` writes on to that after the first `to` writes, in place. Memory after 0
    /// writes is all zeros. If the trace has fewer writes than `to`, all are applied. It is an error if `to` is below
    /// `from`, or the memory does not have the bytes of all pages.
    pub fn memory_step(&self, from: u32, to: u32, memory: &mut [u8]) -> Result<(), Refused> {
        let (start, length) = (memory.as_mut_ptr(), memory.len());
        // SAFETY: the trace is as it was opened, the slice is there for its length, and no other reference reaches it.
        checked(unsafe { calls::precopy_trace_memory_step(self.shown(), from, to, start, length) })
    }

    /// Writes the writes to a page to the front of a slice, in their order, and returns how many there are. It is an
    /// error if the guest does not have the page, or the slice has fewer elements.
    pub fn page_writes_into(&self, page: u32, writes: &mut [Write]) -> Result<usize, Refused> {
        let mut count = 0;
        let (start, length) = (writes.as_mut_ptr(), writes.len());
        // SAFETY: as in `memory_step`.
        let status = unsafe { calls::precopy_trace_page_writes(self.shown(), page, start, length, &mut count) };
        checked_buffer(status, count)
    }

    /// Returns the writes to a page, in their order. It is an error if the guest does not have the page.
    pub fn page_writes(&self, page: u32) -> Result<Vec<Write>, Refused> {
        let count = match self.page_writes_into(page, &mut []) {
            Err(Refused::ShortBuffer { needed }) => needed,
            answer => answer?,
        };
        let mut found = room::filled(count, Write::default())?;
        self.page_writes_into(page, &mut found).map(|_| found)
    }
}
