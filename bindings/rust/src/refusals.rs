//! Why calls refuse.

use crate::{calls, Status, Taken};
use std::ffi::CStr;
use std::fmt;

/// A call refused, with its status. Its text says what the status means.
#[derive(Clone, Copy, Debug, PartialEq, Eq)]
#[non_exhaustive]
pub enum Refused {
    /// The bytes are not a trace, or no trace has such sizes. `record` is the record that is named, if one is.
    #[allow(missing_docs)]
    Trace { status: Status, record: Option<u32> },
    /// A setting is out of its range, or one that a question makes.
    #[allow(missing_docs)]
    Settings { status: Status },
    /// Bytes begin with no frame, or no frame has such a page or stamp. `taken` is what of a stream was taken before.
    #[allow(missing_docs)]
    Frame { status: Status, taken: Taken },
    /// A slice has fewer elements than `needed`, and nothing was written into it.
    #[allow(missing_docs)]
    ShortBuffer { needed: usize },
    /// The length of a slice is not that of a page, of the memory, of the table of pages, or of all streams.
    #[allow(missing_docs)]
    Length { status: Status },
    /// The guest does not have the page, or the page no such version, or a step ends before it begins.
    #[allow(missing_docs)]
    Place { status: Status },
    /// A question is out of its range, or has too many starts, or the trace is not as it says.
    #[allow(missing_docs)]
    Question { status: Status },
    /// Memory ran out.
    NoMemory,
}

impl Refused {
    /// The refusal of a status that is not 0. What the call said besides is added by its caller.
    fn of(status: Status) -> Refused {
        match status.number() {
            1..=15 => Refused::Trace { status, record: None },
            16 => Refused::NoMemory,
            21..=31 => Refused::Settings { status },
            41..=45 => {
                let taken = Taken::default();
                Refused::Frame { status, taken }
            }
            67..=71 => Refused::Place { status },
            81..=90 => Refused::Question { status },
            _ => Refused::Length { status },
        }
    }

    /// Returns the status.
    pub fn status(&self) -> Status {
        match *self {
            Refused::Trace { status, .. }
            | Refused::Settings { status }
            | Refused::Frame { status, .. }
            | Refused::Place { status }
            | Refused::Question { status }
            | Refused::Length { status } => status,
            Refused::ShortBuffer { .. } => Status::ShortBuffer,
            Refused::NoMemory => Status::NoMemory,
        }
    }
}

/// What the status means.
impl fmt::Display for Status {
    fn fmt(&self, f: &mut fmt::Formatter<'_>) -> fmt::Result {
        // SAFETY: the text is never null, ends with a 0, and stays.
        let text = unsafe { CStr::from_ptr(calls::precopy_strerror(self.number())) };
        f.pad(&text.to_string_lossy())
    }
}

impl fmt::Display for Refused {
    fn fmt(&self, f: &mut fmt::Formatter<'_>) -> fmt::Result {
        let record = match *self {
            Refused::Trace {
                record: Some(record), ..
            } => record,
            // Without a record the text is that of the status.
            _ => return fmt::Display::fmt(&self.status(), f),
        };
        // SAFETY: the text is there for its length, and nothing else reaches what is written.
        write_sentence(f, self.status(), |text, length, needed| unsafe {
            calls::precopy_refusal_text(self.status().number(), record, text, length, needed)
        })
    }
}

/// Writes a sentence about a status that a call writes into a buffer.
pub(crate) fn write_sentence(
    f: &mut fmt::Formatter<'_>,
    about: Status,
    call: impl FnOnce(*mut u8, usize, *mut usize) -> u32,
) -> fmt::Result {
    let (mut text, mut needed) = ([0; calls::TEXT_BOUND], 0);
    let status = call(text.as_mut_ptr(), text.len(), &mut needed);
    match text.get(..needed) {
        Some(sentence) if status == 0 => f.pad(&String::from_utf8_lossy(sentence)),
        _ => fmt::Display::fmt(&about, f),
    }
}

impl std::error::Error for Refused {}

/// Returns an error for a number that is not 0.
pub(crate) fn checked(status: u32) -> Result<(), Refused> {
    match status {
        0 => Ok(()),
        number => Err(Refused::of(Status::of(number))),
    }
}

/// Like [`checked`], of a call that says how long its buffer must be.
pub(crate) fn checked_buffer(status: u32, needed: usize) -> Result<usize, Refused> {
    match Status::of(status) {
        Status::ShortBuffer => Err(Refused::ShortBuffer { needed }),
        _ => checked(status).map(|()| needed),
    }
}

/// No trace has a record of this number.
pub(crate) const NO_RECORD: u32 = u32::MAX;

/// Adds to the refusal of a trace the record that was told, if one was.
pub(crate) fn with_record<T>(told: u32, answer: Result<T, Refused>) -> Result<T, Refused> {
    answer.map_err(|refused| match refused {
        Refused::Trace { status, .. } => Refused::Trace {
            status,
            record: (told != NO_RECORD).then_some(told),
        },
        refused => refused,
    })
}
