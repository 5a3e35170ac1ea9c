//! A trace that stays open between calls.

use crate::refusals::{checked, checked_buffer, with_record, Refused, NO_RECORD};
use crate::{calls, room, Finding, OpenCheck, Sizes, Status};

/// C's `struct precopy_trace`.
#[repr(C)]
#[derive(Clone, Copy)]
pub struct Trace {
    sizes: calls::Sizes,
    version: u32,
    bytes: *const u8,
    bytes_length: usize,
    words: *const u32,
    words_length: usize,
}

/// A trace that stays open: each call over it costs what it answers, and not another test of the trace. Its bytes are
/// borrowed, and not copied. Several threads may ask at once.
pub struct OpenTrace<'a> {
    shown: Trace,
    /// The index, to which `shown` points.
    _words: Vec<u32>,
    /// The trace, to which it points too.
    bytes: &'a [u8],
}

// SAFETY: all calls only read the bytes and the words that `shown` points to.
unsafe impl Send for OpenTrace<'_> {}
// SAFETY: as above.
unsafe impl Sync for OpenTrace<'_> {}

/// The form of the calls that write the versions of all pages.
type VersionsCall<P> = unsafe extern "C" fn(*const Trace, P, *mut u32, usize, *mut usize) -> u32;

impl<'a> OpenTrace<'a> {
    /// Opens the trace with these bytes, or returns why and at which record they are refused. No later call refuses the
    /// trace.
    pub fn open(bytes: &'a [u8]) -> Result<OpenTrace<'a>, Refused> {
        let most = (bytes.len().saturating_sub(16) / 16).min(1 << 20);
        let mut words = room::filled(3 * most + (1 << 16), 0)?;
        let mut shown = Trace {
            sizes: calls::Sizes::default(),
            version: 0,
            bytes: std::ptr::null(),
            bytes_length: 0,
            words: std::ptr::null(),
            words_length: 0,
        };
        let (mut needed, mut record) = (0, NO_RECORD);
        // SAFETY: each slice is there for its length, and no other reference reaches the one that is written.
        let status = unsafe {
            calls::precopy_trace_open(
                bytes.as_ptr(),
                bytes.len(),
                words.as_mut_ptr(),
                words.len(),
                &mut shown,
                &mut needed,
                &mut record,
            )
        };
        with_record(record, checked_buffer(status, needed))?;
        Ok(OpenTrace {
            shown,
            _words: words,
            bytes,
        })
    }

    /// Returns the sizes of the trace.
    pub fn sizes(&self) -> Sizes {
        let calls::Sizes { shift, pages, writes } = self.shown.sizes;
        Sizes { shift, pages, writes }
    }

    pub(crate) fn bytes(&self) -> &'a [u8] {
        self.bytes
    }

    pub(crate) fn shown(&self) -> *const Trace {
        &self.shown
    }

    /// Returns a check of the streams of a migration that stops its guest after the first `stop` writes.
    pub fn check(&self, stop: u32) -> Result<OpenCheck<'_>, Refused> {
        OpenCheck::new(self, stop)
    }

    /// Returns such a check of a migration to a destination that has the memory before the tick `base`. A page that is
    /// not written from there to the stop need not come.
    pub fn check_with_base(&self, stop: u32, base: u64) -> Result<OpenCheck<'_>, Refused> {
        let mut check = OpenCheck::new(self, stop)?;
        check.begin_at(base)?;
        Ok(check)
    }

    /// Returns the first byte of memory that is not as the first `count` writes leave it, as a [`Finding::Difference`],
    /// or `None`.
    pub fn difference(&self, count: u32, memory: &[u8]) -> Result<Option<Finding>, Refused> {
        let mut room = room::zeros(self.sizes().page_length())?;
        let mut found = calls::Finding::default();
        // SAFETY: as in `memory_before_into`, for both slices.
        let status = unsafe {
            calls::precopy_trace_differs(
                &self.shown,
                count,
                memory.as_ptr(),
                memory.len(),
                room.as_mut_ptr(),
                room.len(),
                &mut found,
            )
        };
        if Status::of(status) != Status::PageBehind {
            return checked(status).map(|()| None);
        }
        Ok(Some(Finding::Difference {
            offset: found.offset,
            page: found.page,
            wanted: found.wanted,
            missing: (found.missing != 0).then_some((found.missing, found.tick)),
        }))
    }

    /// Returns the number of writes before a tick.
    pub fn writes_before(&self, tick: u64) -> Result<u32, Refused> {
        let mut count = 0;
        // SAFETY: `shown` is as `precopy_trace_open` left it, and what it points to has not changed.
        let status = unsafe { calls::precopy_trace_writes_before(&self.shown, tick, &mut count) };
        checked(status).map(|()| count)
    }

    /// Writes the memory before a tick to the front of a slice, and returns how many bytes it has.
    pub fn memory_before_into(&self, tick: u64, memory: &mut [u8]) -> Result<usize, Refused> {
        let mut needed = 0;
        let (start, length) = (memory.as_mut_ptr(), memory.len());
        // SAFETY: as in `writes_before`, and the slice is there for its length.
        let status = unsafe { calls::precopy_trace_memory_before(&self.shown, tick, start, length, &mut needed) };
        checked_buffer(status, needed)
    }

    /// Returns the memory before a tick: what a migration that stops the guest there must leave.
    pub fn memory_before(&self, tick: u64) -> Result<Vec<u8>, Refused> {
        let mut memory = room::zeros(self.sizes().memory_length())?;
        self.memory_before_into(tick, &mut memory).map(|_| memory)
    }

    /// Returns the version of a page after the first `count` writes: the place of the last of them that is to the page,
    /// or 0.
    pub fn version_after(&self, page: u32, count: u32) -> Result<u32, Refused> {
        let mut version = 0;
        // SAFETY: as in `writes_before`.
        let status = unsafe { calls::precopy_trace_version_after(&self.shown, page, count, &mut version) };
        checked(status).map(|()| version)
    }

    fn versions_into<P>(&self, call: VersionsCall<P>, place: P, versions: &mut [u32]) -> Result<usize, Refused> {
        let mut needed = 0;
        // SAFETY: as in `memory_before_into`.
        let status = unsafe { call(&self.shown, place, versions.as_mut_ptr(), versions.len(), &mut needed) };
        checked_buffer(status, needed)
    }

    fn versions<P>(&self, call: VersionsCall<P>, place: P) -> Result<Vec<u32>, Refused> {
        let mut versions = room::filled(self.sizes().pages() as usize, 0)?;
        self.versions_into(call, place, &mut versions).map(|_| versions)
    }

    /// Writes the versions of all pages after the first `count` writes to the front of a slice, and returns how many
    /// they are.
    pub fn versions_after_into(&self, count: u32, versions: &mut [u32]) -> Result<usize, Refused> {
        self.versions_into(calls::precopy_trace_versions_after, count, versions)
    }

    /// Returns the versions of all pages after the first `count` writes.
    pub fn versions_after(&self, count: u32) -> Result<Vec<u32>, Refused> {
        self.versions(calls::precopy_trace_versions_after, count)
    }

    /// Writes the versions of all pages after the writes before a tick to the front of a slice, and returns how many
    /// they are.
    pub fn versions_before_into(&self, tick: u64, versions: &mut [u32]) -> Result<usize, Refused> {
        self.versions_into(calls::precopy_trace_versions_before, tick, versions)
    }

    /// Returns the versions of all pages after the writes before a tick: those of a right migration that stops the
    /// guest there.
    pub fn versions_before(&self, tick: u64) -> Result<Vec<u32>, Refused> {
        self.versions(calls::precopy_trace_versions_before, tick)
    }

    /// Writes the bytes of a page at a stamp to the front of a slice, and returns how many they are.
    pub fn page_at_into(&self, page: u32, stamp: u32, content: &mut [u8]) -> Result<usize, Refused> {
        let (start, length) = (content.as_mut_ptr(), content.len());
        // SAFETY: as in `memory_before_into`.
        let status = unsafe { calls::precopy_trace_page_at(&self.shown, page, stamp, start, length) };
        checked_buffer(status, self.sizes().page_length())
    }

    /// Returns the bytes of a page at a stamp: as the write to it with this place leaves them, or zeros for 0.
    pub fn page_at(&self, page: u32, stamp: u32) -> Result<Vec<u8>, Refused> {
        let mut content = room::zeros(self.sizes().page_length())?;
        self.page_at_into(page, stamp, &mut content).map(|_| content)
    }
}
