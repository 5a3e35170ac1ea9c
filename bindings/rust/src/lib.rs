#![doc = include_str!("../README.md")]
#![warn(missing_docs)]

mod calls;
mod flat;
mod open_check;
mod open_plans;
mod open_trace;
mod places;
mod predictions;
mod recordings;
mod refusals;
mod room;
mod status;
mod streams;

pub use flat::{
    accept, decode_frame, decode_frame_into, encode_frame, encode_frame_into, missing, FlatMemory, Frame, Page, Taken,
};
pub use open_check::OpenCheck;
pub use open_trace::OpenTrace;
pub use places::Write;
pub use predictions::{
    Agreement, Amounts, BestStart, Errors, Forecast, ForecastEnd, LinkShares, Prediction, Question, Starts, Verdict,
};
pub use recordings::Recording;
pub use refusals::Refused;
pub use status::Status;
pub use streams::{check_streams, Finding, FramePlace};

use open_trace::Trace;
use refusals::{checked, checked_buffer, with_record, NO_RECORD};
use std::ffi::CStr;

/// The most rounds that a plan has.
pub const MOST_ROUNDS: usize = 64;

/// Returns the version of the library.
pub fn version() -> &'static str {
    // SAFETY: the text is never null, ends with a 0, and stays.
    let text = unsafe { CStr::from_ptr(calls::precopy_version()) };
    text.to_str().unwrap_or_default()
}

/// The number of the interface that this crate was written for.
pub const ABI: u32 = 6;

/// Returns the number of the library's interface. If it is not [`ABI`], call nothing else.
pub fn abi() -> u32 {
    // SAFETY: the call reads nothing.
    unsafe { calls::precopy_abi() }
}

/// Returns whether each byte is 0.
pub fn is_zero(bytes: &[u8]) -> bool {
    // SAFETY: the slice is there for its length.
    unsafe { calls::precopy_is_zero(bytes.as_ptr(), bytes.len()) }
}

/// The sizes of a trace: pages of `2^shift` bytes, how many pages, and how many writes. They are always in range.
#[derive(Clone, Copy, Debug, PartialEq, Eq)]
pub struct Sizes {
    shift: u32,
    pages: u32,
    writes: u32,
}

impl Sizes {
    /// Returns these sizes, or an error if no trace has them.
    pub fn new(shift: u32, pages: u32, writes: u32) -> Result<Sizes, Refused> {
        let sizes = Sizes { shift, pages, writes };
        // The call tests the sizes first, and no guest has a memory without bytes.
        match accept(&sizes, &[], &mut [], &mut []) {
            Err(refused @ Refused::Trace { .. }) => Err(refused),
            _ => Ok(sizes),
        }
    }

    /// The page shift, 4 to 12.
    pub fn shift(&self) -> u32 {
        self.shift
    }

    /// How many pages the guest has, at least one.
    pub fn pages(&self) -> u32 {
        self.pages
    }

    /// How many writes the trace has.
    pub fn writes(&self) -> u32 {
        self.writes
    }

    /// How many bytes a page has.
    pub fn page_length(&self) -> usize {
        1 << self.shift
    }

    /// How many bytes all pages have: at most 256 MiB.
    pub fn memory_length(&self) -> usize {
        (self.pages as usize) << self.shift
    }

    pub(crate) fn as_c(&self) -> calls::Sizes {
        calls::Sizes {
            shift: self.shift,
            pages: self.pages,
            writes: self.writes,
        }
    }
}

/// The settings of a plan, whose default is what the program `precopy` uses if no option is given. Rates are in pages
/// per 1,000 ticks.
#[derive(Clone, Copy, Debug, PartialEq, Eq)]
pub struct Settings {
    /// The rate of the first round, and the least one.
    pub min: u64,
    /// The greatest rate; that of the final copy.
    pub max: u64,
    /// What is added to a dirtying rate to get the next rate.
    pub increment: u64,
    /// Rounds end after one in which fewer pages were dirtied.
    pub threshold: u64,
    /// The most rounds.
    pub rounds: u64,
    /// The tick at which the first round begins.
    pub start: u64,
    /// Of a report: the ticks of a window.
    pub window: u64,
    /// Of a report: a page written in this many windows is hot.
    pub hot: u64,
    /// The destination begins with the memory before this tick, if there is one.
    pub base: Option<u64>,
    /// Whether a round leaves out pages that are written again before they are sent.
    pub skip: bool,
}

impl Default for Settings {
    fn default() -> Settings {
        Settings {
            min: 1000,
            max: 5000,
            increment: 500,
            threshold: 64,
            rounds: 30,
            start: 0,
            window: 1000,
            hot: 2,
            base: None,
            skip: false,
        }
    }
}

impl Settings {
    /// Returns an error if a setting is out of its range.
    pub fn check(&self) -> Result<(), Refused> {
        // SAFETY: the struct is there, and is that of the header.
        checked(unsafe { calls::precopy_check_settings(&self.as_c()) })
    }

    fn as_c(&self) -> calls::Settings {
        calls::Settings {
            size: std::mem::size_of::<calls::Settings>() as u64,
            min: self.min,
            max: self.max,
            increment: self.increment,
            threshold: self.threshold,
            rounds: self.rounds,
            start: self.start,
            window: self.window,
            hot: self.hot,
            base: self.base.unwrap_or(0),
            has_base: self.base.is_some().into(),
            skip: self.skip.into(),
        }
    }
}

/// Why pre-copying ends. A plan of rounds ends for one of the first three; the others are of predictions by looks.
#[derive(Clone, Copy, Debug, PartialEq, Eq)]
pub enum Reason {
    /// Few pages are left: by rounds, fewer than the threshold were dirtied.
    Few,
    /// The next rate would be above the greatest.
    Fast,
    /// All requested rounds are done.
    Rounds,
    /// 2,000 looks are done.
    Looks,
    /// The trace ends first, while the lists of pages get shorter.
    Cut,
    /// The trace ends first, and the lists of pages do not get shorter.
    Level,
}

impl Reason {
    fn of(number: u64) -> Reason {
        match number {
            0 => Reason::Few,
            1 => Reason::Fast,
            2 => Reason::Rounds,
            3 => Reason::Looks,
            4 => Reason::Cut,
            _ => Reason::Level,
        }
    }
}

/// The sums of a plan.
#[derive(Clone, Copy, Debug, PartialEq, Eq)]
pub struct Sums {
    /// How many rounds there are.
    pub rounds: u64,
    /// Why they end.
    pub reason: Reason,
    /// The tick at which the guest is stopped.
    pub stop: u64,
    /// The downtime, in ticks.
    pub down: u64,
    /// The pages that are sent, over all rounds and after the stop.
    pub total: u64,
}

impl Sums {
    fn of(found: &calls::Sums) -> Sums {
        Sums {
            rounds: found.rounds,
            reason: Reason::of(found.reason),
            stop: found.stop,
            down: found.down,
            total: found.total,
        }
    }
}

/// A round of a plan.
#[repr(C)]
#[derive(Clone, Copy, Debug, Default, PartialEq, Eq)]
pub struct Round {
    /// Its first tick.
    pub from: u64,
    /// The first tick after it.
    pub to: u64,
    /// Its rate, in pages per 1,000 ticks.
    pub rate: u64,
    /// Its number of pages.
    pub pages: u64,
    /// How many of them it sends.
    pub sent: u64,
    /// How many pages are written meanwhile.
    pub dirtied: u64,
}

/// The plans of several cases.
#[derive(Clone, Debug, PartialEq, Eq)]
pub struct Sweep {
    /// The sums of the plan of each case.
    pub sums: Vec<Sums>,
    /// The first case with the least downtime, and of these the first with the fewest pages sent; 0 if there is none.
    pub best: usize,
}

/// Returns the sizes of a trace, or why and at which record its bytes are refused.
pub fn check_trace(trace: &[u8]) -> Result<Sizes, Refused> {
    let mut found = calls::Sizes::default();
    let mut record = NO_RECORD;
    // SAFETY: the slice is there for its length; what is written is this function's.
    let status = unsafe { calls::precopy_check_trace(trace.as_ptr(), trace.len(), &mut found, &mut record) };
    let sizes = checked(status).map(|()| Sizes {
        shift: found.shift,
        pages: found.pages,
        writes: found.writes,
    });
    with_record(record, sizes)
}

/// Returns the sums of the plan of a trace. More about a plan, and more plans, are asked of an [`OpenTrace`].
pub fn plan(trace: &[u8], settings: &Settings) -> Result<Sums, Refused> {
    let mut found = calls::Sums::default();
    let mut record = NO_RECORD;
    // SAFETY: as in `check_trace`.
    let status = unsafe { calls::precopy_plan(trace.as_ptr(), trace.len(), &settings.as_c(), &mut found, &mut record) };
    with_record(record, checked(status).map(|()| Sums::of(&found)))
}

/// Writes the report on a trace to the front of a slice, in ASCII, and returns its length: at most
/// [`longest_report`].
pub fn report_into(trace: &[u8], settings: &Settings, text: &mut [u8]) -> Result<usize, Refused> {
    let mut needed = 0;
    let mut record = NO_RECORD;
    // SAFETY: as in `check_trace`; no other reference reaches the slice that is written.
    let status = unsafe {
        calls::precopy_report(
            trace.as_ptr(),
            trace.len(),
            &settings.as_c(),
            text.as_mut_ptr(),
            text.len(),
            &mut needed,
            &mut record,
        )
    };
    with_record(record, checked_buffer(status, needed))
}

/// At least as many bytes as the report on a trace of this length has: a line for each window with a write and for each
/// hot page, some for the rounds, and three more. A write has at least 16 bytes in a trace.
pub fn longest_report(trace_length: usize) -> usize {
    let writes = (trace_length.saturating_sub(16) / 16).min(1 << 20);
    let [window, hot, other, others] = calls::REPORT_BOUND;
    window * writes + hot * writes.min(1 << 16) + other * others
}

/// Returns the report on a trace, as `precopy report` writes it.
pub fn report(trace: &[u8], settings: &Settings) -> Result<String, Refused> {
    let mut text = room::zeros(longest_report(trace.len()))?;
    let length = report_into(trace, settings, &mut text)?;
    Ok(report_at_front(text, length))
}

/// Returns the report of so many bytes at the front of some text.
fn report_at_front(mut text: Vec<u8>, length: usize) -> String {
    text.truncate(length);
    text.shrink_to_fit();
    String::from_utf8(text).unwrap_or_else(|fault| String::from_utf8_lossy(fault.as_bytes()).into_owned())
}

/// Writes the memory after all writes of a trace to the front of a slice, and returns its length.
pub fn memory_into(trace: &[u8], memory: &mut [u8]) -> Result<usize, Refused> {
    let mut needed = 0;
    let mut record = NO_RECORD;
    // SAFETY: as in `report_into`.
    let status = unsafe {
        calls::precopy_memory(
            trace.as_ptr(),
            trace.len(),
            memory.as_mut_ptr(),
            memory.len(),
            &mut needed,
            &mut record,
        )
    };
    with_record(record, checked_buffer(status, needed))
}

/// Returns the memory after all writes of a trace. [`OpenTrace::memory_before`] returns that before a tick.
pub fn memory(trace: &[u8]) -> Result<Vec<u8>, Refused> {
    let mut found = room::zeros(check_trace(trace)?.memory_length())?;
    memory_into(trace, &mut found).map(|_| found)
}
