//! Plans and reports of a trace that stays open.

use crate::refusals::{checked, checked_buffer, Refused};
use crate::{calls, longest_report, report_at_front, room, OpenTrace, Round, Settings, Sums, Sweep, MOST_ROUNDS};

impl OpenTrace<'_> {
    /// Returns the sums of the plan, as [`plan`](crate::plan) does. Settings out of range are an error.
    pub fn plan(&self, settings: &Settings) -> Result<Sums, Refused> {
        let mut found = calls::Sums::default();
        // SAFETY: the trace is as it was opened, and what is written is this function's.
        let status = unsafe { calls::precopy_trace_plan(self.shown(), &settings.as_c(), &mut found) };
        checked(status).map(|()| Sums::of(&found))
    }

    /// Writes the rounds of the plan to the front of a slice, in order, and returns how many there are: at most
    /// [`MOST_ROUNDS`]. Settings out of range are an error, and so are more rounds than the slice has room for.
    pub fn rounds_into(&self, settings: &Settings, rounds: &mut [Round]) -> Result<usize, Refused> {
        let mut count = 0;
        let (start, length) = (rounds.as_mut_ptr(), rounds.len());
        // SAFETY: as in `plan`; the slice is there for its length, and no other reference reaches it.
        let status = unsafe { calls::precopy_trace_rounds(self.shown(), &settings.as_c(), start, length, &mut count) };
        checked_buffer(status, count)
    }

    /// Returns the rounds of the plan, in order. Settings out of range are an error.
    pub fn rounds(&self, settings: &Settings) -> Result<Vec<Round>, Refused> {
        let mut found = room::filled(MOST_ROUNDS, Round::default())?;
        let count = self.rounds_into(settings, &mut found)?;
        found.truncate(count);
        Ok(found)
    }

    /// Returns the sums of the plan of each case, and which case is the best. The first case that is out of range is an
    /// error.
    pub fn sweep(&self, cases: &[Settings]) -> Result<Sweep, Refused> {
        let mut asked = room::empty(cases.len())?;
        asked.extend(cases.iter().map(Settings::as_c));
        let (mut found, mut best) = (room::filled(cases.len(), calls::Sums::default())?, 0);
        // SAFETY: as in `rounds_into`, for both slices.
        let status = unsafe {
            calls::precopy_trace_sweep(
                self.shown(),
                asked.as_ptr(),
                asked.len(),
                found.as_mut_ptr(),
                found.len(),
                &mut best,
            )
        };
        checked(status)?;
        let mut sums = room::empty(cases.len())?;
        sums.extend(found.iter().map(Sums::of));
        Ok(Sweep { sums, best })
    }

    /// Writes the report to the front of a slice, in ASCII, and returns its length in bytes: at most
    /// [`longest_report`] of the length of the trace. Settings out of range are an error, and so is a slice that is
    /// shorter than the report.
    pub fn report_into(&self, settings: &Settings, text: &mut [u8]) -> Result<usize, Refused> {
        let mut needed = 0;
        let (start, length) = (text.as_mut_ptr(), text.len());
        // SAFETY: as in `rounds_into`.
        let status = unsafe { calls::precopy_trace_report(self.shown(), &settings.as_c(), start, length, &mut needed) };
        checked_buffer(status, needed)
    }

    /// Returns the report, as [`report`](crate::report) does. Settings out of range are an error.
    pub fn report(&self, settings: &Settings) -> Result<String, Refused> {
        let mut text = room::zeros(longest_report(self.bytes().len()))?;
        let length = self.report_into(settings, &mut text)?;
        Ok(report_at_front(text, length))
    }
}
