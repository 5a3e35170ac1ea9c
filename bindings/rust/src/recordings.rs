//! A trace that is written.

use crate::refusals::{checked, with_record, Refused, NO_RECORD};
use crate::{calls, room, Status};

const HEAD: usize = 16;
const LONGEST: usize = 1 << 28;

/// A trace of a guest, written write after write. After each call, also one that refuses, its bytes are a whole trace.
pub struct Recording {
    /// The trace, and room for more of it.
    room: Vec<u8>,
    state: calls::Recording,
}

impl Recording {
    /// Begins a trace of a guest that has not written, of so many pages of `2^shift` bytes.
    pub fn new(shift: u32, pages: u32) -> Result<Recording, Refused> {
        let mut made = Recording {
            room: room::zeros(4096)?,
            state: calls::Recording::default(),
        };
        let (start, length) = (made.room.as_mut_ptr(), made.room.len());
        // SAFETY: the room is there for its length, and no other reference reaches what is written.
        checked(unsafe { calls::precopy_record_begin(start, length, shift, pages, &mut made.state) })?;
        Ok(made)
    }

    /// Appends a write of some bytes, from an offset of a page on. It may have no tick below that of the one before,
    /// and at least one byte.
    pub fn write(&mut self, tick: u64, page: u32, offset: u32, bytes: &[u8]) -> Result<(), Refused> {
        self.reserve(bytes.len())?;
        let (start, length) = (self.room.as_mut_ptr(), self.room.len());
        // SAFETY: as in `new`; the bytes are there for their length.
        let status = unsafe {
            calls::precopy_record_write(
                start,
                length,
                &mut self.state,
                tick,
                page,
                offset,
                bytes.as_ptr(),
                bytes.len(),
            )
        };
        self.told(status)
    }

    /// Appends a write that releases a page, which becomes zeros.
    pub fn release(&mut self, tick: u64, page: u32) -> Result<(), Refused> {
        self.reserve(0)?;
        let (start, length) = (self.room.as_mut_ptr(), self.room.len());
        // SAFETY: as in `new`.
        let status = unsafe { calls::precopy_record_release(start, length, &mut self.state, tick, page) };
        self.told(status)
    }

    /// Returns the trace as it is so far.
    pub fn bytes(&self) -> &[u8] {
        self.room.get(..self.state.length).unwrap_or_default()
    }

    /// Makes room for one more write, if a trace may have so many bytes.
    fn reserve(&mut self, size: usize) -> Result<(), Refused> {
        let needed = self.state.length.saturating_add(HEAD).saturating_add(size);
        if needed <= self.room.len() || LONGEST < needed {
            return Ok(());
        }
        let length = LONGEST.min(needed.max(2 * self.room.len()));
        self.room
            .try_reserve_exact(length - self.room.len())
            .map_err(|_| Refused::NoMemory)?;
        self.room.resize(length, 0);
        Ok(())
    }

    /// Returns what a status means; a record that is refused is the next one.
    fn told(&self, status: u32) -> Result<(), Refused> {
        let of_record = Status::TickOrder.number()..=Status::OutOfPage.number();
        let record = if of_record.contains(&status) {
            self.state.writes
        } else {
            NO_RECORD
        };
        with_record(record, checked(status))
    }
}
