//! Predictions: what a migration with given limits will be, in time and bytes, and what is enough for its limit.

use crate::open_trace::Trace;
use crate::refusals::{checked, Refused};
use crate::{calls, OpenTrace, Reason};

/// What is asked of a migration: how much it may take, what ticks and pages of the trace stand for, where it begins,
/// and by whose plan it goes. Rates are in bytes a second, times in microseconds. `first`, `increment`, `rounds` and
/// `skip` are of Clark's rounds alone. The default is what `precopy-view predict` asks if no option is given, with
/// pages of 4,096 bytes, of which all were recorded; its link and its downtime are 0.
#[derive(Clone, Copy, Debug, PartialEq, Eq)]
pub struct Question {
    /// What the migration may use of the link.
    pub link: u64,
    /// What its first round may use, if not the whole link.
    pub first: Option<u64>,
    /// The longest downtime.
    pub downtime: u64,
    /// The part of it that goes to other things than pages.
    pub reserve: u64,
    /// The length of a tick.
    pub tick: u64,
    /// The bytes of a page of the trace.
    pub page: u64,
    /// How many of the guest's pages were recorded.
    pub sampled: u64,
    /// How many pages the guest has. If as many were recorded, any equal numbers do.
    pub guest: u64,
    /// What is added to a dirtying rate, in pages per 1,000 ticks, if not a tenth of what the link has above the first
    /// round.
    pub increment: Option<u64>,
    /// The most rounds.
    pub rounds: u64,
    /// The tick at which it begins.
    pub start: u64,
    /// The destination begins with the memory before this tick, if there is one.
    pub base: Option<u64>,
    /// Whether a round leaves out pages that are written again before they are sent.
    pub skip: bool,
    /// Whether it goes by Clark's rounds, and not by a hypervisor's looks.
    pub clark: bool,
}

impl Default for Question {
    fn default() -> Question {
        Question {
            link: 0,
            first: None,
            downtime: 0,
            reserve: 0,
            tick: 1000,
            page: 4096,
            sampled: 1,
            guest: 1,
            increment: None,
            rounds: 30,
            start: 0,
            base: None,
            skip: false,
            clark: false,
        }
    }
}

impl Question {
    fn as_c(&self) -> calls::Question {
        calls::Question {
            size: std::mem::size_of::<calls::Question>() as u64,
            link: self.link,
            first: self.first.unwrap_or(0),
            downtime: self.downtime,
            reserve: self.reserve,
            tick: self.tick,
            page: self.page,
            sampled: self.sampled,
            guest: self.guest,
            increment: self.increment.unwrap_or(0),
            rounds: self.rounds,
            start: self.start,
            base: self.base.unwrap_or(0),
            has_first: self.first.is_some().into(),
            has_increment: self.increment.is_some().into(),
            has_base: self.base.is_some().into(),
            skip: self.skip.into(),
            clark: self.clark.into(),
        }
    }
}

/// Whether something is so.
#[derive(Clone, Copy, Debug, PartialEq, Eq)]
pub enum Verdict {
    /// It is so.
    Yes,
    /// It is not so.
    No,
    /// The trace ends before the migration does.
    Unknown,
    /// Chance, or the start, decides: only an agreement tells it.
    Uncertain,
}

impl Verdict {
    fn of(number: u32) -> Verdict {
        match number {
            0 => Verdict::Yes,
            1 => Verdict::No,
            3 => Verdict::Uncertain,
            _ => Verdict::Unknown,
        }
    }
}

/// Standard errors of a prediction: how far the draw of a sample moves it.
#[derive(Clone, Copy, Debug, PartialEq, Eq)]
pub struct Errors {
    /// Of the bytes.
    pub bytes: u64,
    /// Of the time, in microseconds.
    pub time: u64,
    /// Of the downtime, in microseconds.
    pub downtime: u64,
}

impl Errors {
    fn of(found: &calls::Errors) -> Option<Errors> {
        (found.has_errors != 0).then_some(Errors {
            bytes: found.bytes,
            time: found.time,
            downtime: found.downtime,
        })
    }
}

/// What a migration will be. If the verdicts are unknown, only `recorded` tells something.
#[derive(Clone, Copy, Debug, PartialEq, Eq)]
pub struct Prediction {
    /// How many rounds or looks there are.
    pub rounds: u64,
    /// Why they end.
    pub reason: Reason,
    /// The tick at which the guest is stopped.
    pub stop: u64,
    /// How long the pages that are left take, in ticks.
    pub down: u64,
    /// The pages of the trace that are sent, before the stop and after it.
    pub total: u64,
    /// How many of them are sent after the stop.
    pub left: u64,
    /// From the start until the guest runs again, in microseconds.
    pub time: u64,
    /// How many bytes of the guest are sent.
    pub bytes: u64,
    /// How long the guest stands still, with the reserve, in microseconds.
    pub downtime: u64,
    /// How long the trace goes on after the start, in microseconds.
    pub recorded: u64,
    /// Whether it ends since few pages are left.
    pub converges: Verdict,
    /// Whether the guest is stopped, and for no longer than the limit.
    pub kept: Verdict,
    /// Standard errors, if a part of the guest's pages was sampled, of two pages or more.
    pub errors: Option<Errors>,
}

impl Prediction {
    fn of(found: &calls::Prediction, errors: &calls::Errors) -> Prediction {
        Prediction {
            rounds: found.rounds,
            reason: Reason::of(found.reason),
            stop: found.stop,
            down: found.down,
            total: found.total,
            left: found.left,
            time: found.time,
            bytes: found.bytes,
            downtime: found.downtime,
            recorded: found.recorded,
            converges: Verdict::of(found.converges),
            kept: Verdict::of(found.kept),
            errors: Errors::of(errors),
        }
    }
}

/// How sure a prediction is: in how many draws of a sample's pages, and from how many starts, it is the same.
#[derive(Clone, Copy, Debug, PartialEq, Eq)]
pub struct Agreement {
    /// How often the pages of a sample are drawn again: 20, or 0 if there are no standard errors.
    pub draws: u64,
    /// In how many of these draws the migration ends within the trace.
    pub draws_known: u64,
    /// In how many it converges.
    pub draws_converging: u64,
    /// In how many it keeps the limit.
    pub draws_kept: u64,
    /// From how many of at most 21 starts it ends within the trace.
    pub starts: u64,
    /// From how many it converges.
    pub starts_converging: u64,
    /// From how many it keeps the limit.
    pub starts_kept: u64,
    /// Whether it surely converges.
    pub converges: Verdict,
    /// Whether it surely keeps the limit.
    pub kept: Verdict,
}

impl Agreement {
    fn of(found: &calls::Agreement) -> Agreement {
        Agreement {
            draws: found.draws,
            draws_known: found.draws_known,
            draws_converging: found.draws_converging,
            draws_kept: found.draws_kept,
            starts: found.starts,
            starts_converging: found.starts_converging,
            starts_kept: found.starts_kept,
            converges: Verdict::of(found.converges),
            kept: Verdict::of(found.kept),
        }
    }
}

/// What is enough for the downtime limit of a question, each amount by itself, and to end within the trace.
#[derive(Clone, Copy, Debug, PartialEq, Eq)]
pub struct Amounts {
    /// Whether the limit is kept as it is.
    pub is_kept: bool,
    /// The least link, in bytes a second, if one was found.
    pub link: Option<u64>,
    /// The least downtime, in microseconds, if one was found.
    pub downtime: Option<u64>,
    /// To how many per cent of its speed the guest is slowed, if one was found. If the limit is kept there is none.
    pub speed: Option<u64>,
    /// Whether the migration ends within the trace as it is. If it does, there are no others.
    pub ends: bool,
    /// The least link that ends it within the trace, in bytes a second, whether the limit is then kept or not.
    pub ending_link: Option<u64>,
    /// The latest start that does, back from that of the question.
    pub ending_start: Option<u64>,
}

impl Amounts {
    fn of(found: &calls::Amounts) -> Amounts {
        let given = |has: u32, amount: u64| (has != 0).then_some(amount);
        Amounts {
            is_kept: found.is_kept != 0,
            link: given(found.has_link, found.link),
            downtime: given(found.has_downtime, found.downtime),
            speed: given(found.has_speed, found.speed),
            ends: found.ends != 0,
            ending_link: given(found.has_ending_link, found.ending_link),
            ending_start: given(found.has_ending_start, found.ending_start),
        }
    }
}

/// Why a migration ends whose hypervisor goes on as QEMU does.
#[derive(Clone, Copy, Debug, PartialEq, Eq)]
pub enum ForecastEnd {
    /// Few pages are left, so the guest is stopped.
    FewLeft,
    /// The trace ends first. If the guest were stopped there, the other numbers would hold.
    TraceEnds,
    /// The start is after the trace. The other numbers are 0.
    NotBegun,
}

impl ForecastEnd {
    fn of(number: u32) -> ForecastEnd {
        match number {
            0 => ForecastEnd::FewLeft,
            1 => ForecastEnd::TraceEnds,
            _ => ForecastEnd::NotBegun,
        }
    }
}

/// What a migration comes to if its hypervisor looks at its dirty bitmap again only when few pages are left, as QEMU
/// does.
#[derive(Clone, Copy, Debug, PartialEq, Eq)]
pub struct Forecast {
    /// Why it ends.
    pub end: ForecastEnd,
    /// How many looks there are.
    pub looks: u64,
    /// From the start until the guest runs again, in microseconds.
    pub time: u64,
    /// How many bytes of the guest are sent.
    pub bytes: u64,
    /// How many of them are sent after the stop.
    pub left: u64,
    /// How long the guest stands still, with the reserve, in microseconds.
    pub downtime: u64,
    /// Whether the downtime is within its limit. If the trace ends first, that is unknown.
    pub kept: Verdict,
}

impl Forecast {
    fn of(found: &calls::Forecast) -> Forecast {
        Forecast {
            end: ForecastEnd::of(found.end),
            looks: found.looks,
            time: found.time,
            bytes: found.bytes,
            left: found.left,
            downtime: found.downtime,
            kept: Verdict::of(found.kept),
        }
    }
}

/// Down to which share of its link a migration has the verdict that it has at all of it.
#[derive(Clone, Copy, Debug, PartialEq, Eq)]
pub struct LinkShares {
    /// Whether it converges at all of its link.
    pub converges: Verdict,
    /// The least share from which on each whole per cent has that verdict, from 50 to 100 per cent.
    pub percent: u64,
    /// Whether it converges at one per cent less, where that is tried: down to a half of the link.
    pub below: Option<Verdict>,
}

impl LinkShares {
    fn of(found: &calls::LinkShares) -> LinkShares {
        LinkShares {
            converges: Verdict::of(found.converges),
            percent: found.percent,
            below: (found.below != found.converges).then(|| Verdict::of(found.below)),
        }
    }
}

/// From which starts a migration is tried: that of its question, and then one after the other, at a fixed spacing. The
/// default is at most 201 of them, up to the last tick of the trace.
#[derive(Clone, Copy, Debug, Default, PartialEq, Eq)]
pub struct Starts {
    /// The tick after which there is no start, if not the last of the trace.
    pub to: Option<u64>,
    /// The ticks from one start to the next, if not a 200th of those up to the last start.
    pub every: Option<u64>,
}

impl Starts {
    fn as_c(&self) -> calls::Starts {
        calls::Starts {
            size: std::mem::size_of::<calls::Starts>() as u64,
            to: self.to.unwrap_or(0),
            every: self.every.unwrap_or(0),
            has_to: self.to.is_some().into(),
            has_every: self.every.is_some().into(),
        }
    }
}

/// The best start of a migration, and what it costs from there.
#[derive(Clone, Copy, Debug, PartialEq, Eq)]
pub struct BestStart {
    /// Its tick.
    pub start: u64,
    /// How many rounds or looks there are.
    pub rounds: u64,
    /// From the start until the guest runs again, in microseconds.
    pub time: u64,
    /// How many bytes of the guest are sent.
    pub bytes: u64,
    /// How long the guest stands still, with the reserve, in microseconds.
    pub downtime: u64,
    /// Whether the downtime is within its limit.
    pub kept: Verdict,
    /// Whether it is, and by rounds with two standard errors more.
    pub is_likely: bool,
    /// Standard errors, if a part of the guest's pages was sampled, of two pages or more.
    pub errors: Option<Errors>,
}

impl BestStart {
    fn of(found: &calls::BestStart, errors: &calls::Errors) -> Option<BestStart> {
        let kept = Verdict::of(found.kept);
        (kept != Verdict::Unknown).then(|| BestStart {
            start: found.start,
            rounds: found.rounds,
            time: found.time,
            bytes: found.bytes,
            downtime: found.downtime,
            kept,
            is_likely: found.is_likely != 0,
            errors: Errors::of(errors),
        })
    }
}

/// The form of the calls that write one answer to a question.
type QuestionCall<A> = unsafe extern "C" fn(*const Trace, *const calls::Question, *mut A) -> u32;

impl OpenTrace<'_> {
    /// Returns what the migration of the trace will be with the limits of a question. It is an error if the question is
    /// out of its range, or if the trace has pages of another size than it says, or more than it says were recorded.
    pub fn predict(&self, question: &Question) -> Result<Prediction, Refused> {
        let (mut found, mut errors) = (calls::Prediction::default(), calls::Errors::default());
        // SAFETY: the trace is as it was opened, and what is written is this function's.
        let status = unsafe { calls::precopy_trace_predict(self.shown(), &question.as_c(), &mut found, &mut errors) };
        checked(status).map(|()| Prediction::of(&found, &errors))
    }

    fn answer<A: Default>(&self, call: QuestionCall<A>, question: &Question) -> Result<A, Refused> {
        let mut found = A::default();
        // SAFETY: as in `predict`; only calls of the library come here.
        let status = unsafe { call(self.shown(), &question.as_c(), &mut found) };
        checked(status).map(|()| found)
    }

    /// Returns how sure the verdicts on the migration of the trace with the limits of a question are. Its errors are
    /// those of [`predict`](OpenTrace::predict).
    pub fn agreement(&self, question: &Question) -> Result<Agreement, Refused> {
        let found = self.answer(calls::precopy_trace_agreement, question)?;
        Ok(Agreement::of(&found))
    }

    /// Returns whether the migration of the trace keeps the limit of a question, and the least amounts that do: up from
    /// what is asked if it does not, and else down from it; and what ends it within the trace if it does not. Its
    /// errors are those of [`predict`](OpenTrace::predict).
    pub fn enough(&self, question: &Question) -> Result<Amounts, Refused> {
        let found = self.answer(calls::precopy_trace_enough, question)?;
        Ok(Amounts::of(&found))
    }

    /// Returns what the migration of the trace comes to like QEMU, with the limits of a question. Its errors are those
    /// of [`predict`](OpenTrace::predict).
    pub fn forecast(&self, question: &Question) -> Result<Forecast, Refused> {
        let found = self.answer(calls::precopy_trace_forecast, question)?;
        Ok(Forecast::of(&found))
    }

    /// Returns down to which share of its link the migration of the trace has the verdict that it has at all of it. Its
    /// errors are those of [`predict`](OpenTrace::predict).
    pub fn link_shares(&self, question: &Question) -> Result<LinkShares, Refused> {
        let found = self.answer(calls::precopy_trace_link_shares, question)?;
        Ok(LinkShares::of(&found))
    }

    /// Returns the best start of the migration of the trace, or none if it ends within the trace from no start. A start
    /// that is likely to keep the limit of the question is better than one that is not. Its errors are those of
    /// [`predict`](OpenTrace::predict), more than 4,096 starts, and a start at tick 2^40 or later.
    pub fn best_start(&self, question: &Question, starts: &Starts) -> Result<Option<BestStart>, Refused> {
        let (mut found, mut errors) = (calls::BestStart::default(), calls::Errors::default());
        let (asked, tried) = (question.as_c(), starts.as_c());
        // SAFETY: as in `predict`.
        let status = unsafe { calls::precopy_trace_best_start(self.shown(), &asked, &tried, &mut found, &mut errors) };
        checked(status).map(|()| BestStart::of(&found, &errors))
    }
}
