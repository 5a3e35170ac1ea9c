//! Streams of a migration, checked against a trace.

use crate::refusals::{checked, with_record, write_sentence, Refused, NO_RECORD};
use crate::{calls, Status};
use std::fmt;

/// A frame of some streams.
#[derive(Clone, Copy, Debug, PartialEq, Eq)]
pub struct FramePlace {
    /// The stream, from 0.
    pub stream: usize,
    /// The number of the frame in its stream, from 0.
    pub frame: usize,
    /// The byte of its stream at which it begins.
    pub offset: usize,
}

/// What is wrong first in some streams.
#[derive(Clone, Copy, Debug, PartialEq, Eq)]
pub enum Finding {
    /// A frame is wrong. `status` is the cause, `wanted` the stamp that was to be. If the bytes are no frame, `page`,
    /// `stamp` and `wanted` are 0.
    #[allow(missing_docs)]
    Frame {
        status: Status,
        place: FramePlace,
        page: u32,
        stamp: u32,
        wanted: u32,
    },
    /// A page is not at its version at the stop, `wanted`, or never came. `missing` is the place and the tick of the
    /// first write that it lacks.
    #[allow(missing_docs)]
    Page {
        page: u32,
        stamp: Option<u32>,
        wanted: u32,
        missing: Option<(u32, u64)>,
    },
    /// A page that came without a stamp has its bytes at no version of it from `stamp`, at which it had come, or 0, to
    /// `wanted`, that at the stop.
    #[allow(missing_docs)]
    Unstamped { page: u32, stamp: u32, wanted: u32 },
    /// Memory differs from that after some writes, first at its byte `offset`, which is of `page`. `wanted` is the
    /// page's version, and `missing` the place and the tick of the last write to that byte, if any wrote it.
    #[allow(missing_docs)]
    Difference {
        offset: usize,
        page: u32,
        wanted: u32,
        missing: Option<(u32, u64)>,
    },
}

impl Finding {
    fn of(status: Status, found: &calls::Finding) -> Option<Finding> {
        match status {
            Status::PageMissing | Status::PageBehind => Some(Finding::Page {
                page: found.page,
                stamp: (status == Status::PageBehind).then_some(found.stamp),
                wanted: found.wanted,
                missing: (found.missing != 0).then_some((found.missing, found.tick)),
            }),
            Status::NoVersion | Status::AfterStop | Status::Older | Status::OtherBytes => Some(found.frame(status)),
            _ if (Status::FrameShort..=Status::FrameZeros).contains(&status) => Some(found.frame(status)),
            _ => None,
        }
    }

    fn as_c(&self) -> calls::Finding {
        match *self {
            Finding::Frame {
                place,
                page,
                stamp,
                wanted,
                ..
            } => calls::Finding {
                stream: place.stream,
                frame: place.frame,
                offset: place.offset,
                page,
                stamp,
                wanted,
                ..Default::default()
            },
            Finding::Page {
                page,
                stamp,
                wanted,
                missing,
            } => calls::Finding {
                tick: missing.map_or(0, |(_, tick)| tick),
                page,
                stamp: stamp.unwrap_or(0),
                wanted,
                missing: missing.map_or(0, |(place, _)| place),
                ..Default::default()
            },
            // Neither is a sentence of the library.
            Finding::Unstamped { .. } | Finding::Difference { .. } => calls::Finding::default(),
        }
    }

    /// Returns the cause.
    pub fn status(&self) -> Status {
        match *self {
            Finding::Frame { status, .. } => status,
            Finding::Page { stamp: None, .. } => Status::PageMissing,
            Finding::Unstamped { .. } => Status::OtherBytes,
            Finding::Page { .. } | Finding::Difference { .. } => Status::PageBehind,
        }
    }
}

impl calls::Finding {
    fn frame(&self, status: Status) -> Finding {
        Finding::Frame {
            status,
            place: FramePlace {
                stream: self.stream,
                frame: self.frame,
                offset: self.offset,
            },
            page: self.page,
            stamp: self.stamp,
            wanted: self.wanted,
        }
    }
}

/// The line that `tools/check` prints: where it is, and what is wrong.
impl fmt::Display for Finding {
    fn fmt(&self, f: &mut fmt::Formatter<'_>) -> fmt::Result {
        match *self {
            Finding::Unstamped { page, stamp, wanted } => write!(
                f,
                "page {page} without a stamp: its bytes are those of no version from {stamp} to {wanted}"
            ),
            Finding::Difference {
                offset,
                page,
                wanted,
                missing,
            } => {
                write!(
                    f,
                    "byte {offset} of memory: it is not that of page {page} at {wanted}, "
                )?;
                match missing {
                    Some((place, tick)) => write!(f, "which write {place} wrote at tick {tick}"),
                    None => f.write_str("which no write wrote"),
                }
            }
            _ => self.write_by_library(f),
        }
    }
}

impl Finding {
    fn write_by_library(&self, f: &mut fmt::Formatter<'_>) -> fmt::Result {
        let found = self.as_c();
        // SAFETY: the struct is there, and the text for its length; nothing else reaches what is written.
        write_sentence(f, self.status(), |text, length, needed| unsafe {
            calls::precopy_finding_text(self.status().number(), &found, text, length, needed)
        })
    }
}

impl std::error::Error for Finding {}

/// What a call that finds something returns.
pub(crate) fn told(status: u32, found: &calls::Finding, record: u32) -> Result<Option<Finding>, Refused> {
    match Finding::of(Status::of(status), found) {
        Some(finding) => Ok(Some(finding)),
        None => with_record(record, checked(status).map(|()| None)),
    }
}

/// Returns what is wrong first in the streams of a migration that stops its guest after the first `stop` writes of a
/// trace, or `None`. `bytes` are those of all streams, one after the other, and `sizes` is how many each has. Of a tick
/// [`OpenTrace::writes_before`](crate::OpenTrace::writes_before) tells how many writes come before it.
pub fn check_streams(trace: &[u8], stop: u32, bytes: &[u8], sizes: &[usize]) -> Result<Option<Finding>, Refused> {
    let mut found = calls::Finding::default();
    let mut record = NO_RECORD;
    // SAFETY: each slice is there for its length; what is written is this function's.
    let status = unsafe {
        calls::precopy_check_streams(
            trace.as_ptr(),
            trace.len(),
            stop,
            bytes.as_ptr(),
            bytes.len(),
            sizes.as_ptr(),
            sizes.len(),
            &mut found,
            &mut record,
        )
    };
    told(status, &found, record)
}
