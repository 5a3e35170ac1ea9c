"""A plain model of what `precopy-view` and the library say of a migration: questions in time and bytes, the settings
that they make, refusals, predictions, starts, reports and sweeps. Plans are made page by page, by
python/precopy_dev/models; all else is what docs/COMMANDS.md says. It shares no code with the programs."""

from dataclasses import dataclass
from fractions import Fraction
from typing import NamedTuple, Optional

from checks.lib import remedy_model, share_model
from checks.lib.amount_texts import error_text, moment_text, rate_word, size_text, time_text, time_word
from checks.lib.host_words import host_lines, hosts_member
from checks.lib.look_model import Forecast, forecast, look_lines, look_member
from checks.lib.traces import Trace
from precopy_dev.models import agreements, courses, redrawn, remedies, shares
from precopy_dev.models.courses import Course, Manner, Record

# Why a plan ends, and what helps if that bounds no downtime.
UNBOUNDED = ", so nothing bounds the downtime"
GOES_ON = "; a hypervisor goes on, and takes longer"
REASONS = {
    "few": ("", "", ""),
    "fast": ("; the guest writes faster than the link sends", UNBOUNDED, "give more of the link"),
    "rounds": ("; all rounds that are allowed are done", UNBOUNDED, "allow more rounds"),
    "looks": ("; 2,000 looks are done", GOES_ON, "give more of the link"),
    "cut": ("; the trace ends first", GOES_ON, "give more of the link"),
    "level": ("; the trace ends first, and the lists did not get shorter", GOES_ON, "give more of the link"),
}
ERRORS = ("sent_bytes", "time_seconds", "down_seconds")
STATUSES = {"yes": 0, "no": 3, "unknown": 4, "uncertain": 5}


# ---- Words.


def seconds(micros: int) -> Fraction:
    return Fraction(micros, 1_000_000)


# ---- Questions.


@dataclass(frozen=True)
class Question:
    """Rates in bytes a second, times in microseconds, a page in bytes, the start and the base in ticks. A plan goes by
    Clark's rounds, or by a hypervisor's looks, which know no rate of a first round, increment, rounds or skipping."""

    link: int
    first: Optional[int]
    downtime: int
    reserve: int
    tick: int
    page: int
    sampled: int
    guest: int
    increment: Optional[int]
    rounds: int
    start: int
    base: Optional[int]
    skip: bool
    clark: bool = False

    def manner(self) -> Manner:
        return Manner.ROUNDS if self.clark else Manner.LOOKS

    def millis_for_pages(self) -> int:
        return (self.downtime - self.reserve) // 1_000

    def units(self) -> list[str]:
        return [f"--tick={self.tick}us", f"--page={self.page}", f"--sampled={self.sampled}/{self.guest}"]

    def limits(self) -> list[str]:
        """What the migration may take, as options of precopy-view."""
        first = [] if self.first is None else [f"--first={rate_word(self.first)}"]
        times = [f"--downtime={self.downtime}us", f"--reserve={self.reserve}us"]
        return [f"--link={rate_word(self.link)}", *first, *times, *self.units()]

    def plan(self) -> list[str]:
        """The other options of a plan, but for the one that says by whom it is."""
        given = {"start": self.start, "base": self.base}
        return [*self.pace(), *(f"--{name}={it}" for name, it in given.items() if it is not None)]

    def pace(self) -> list[str]:
        """The options that are of Clark's rounds alone, but for the rate of the first one."""
        given = {"rounds": self.rounds if self.clark else None, "inc": self.increment}
        return [f"--{name}={it}" for name, it in given.items() if it is not None] + ["--skip"] * self.skip

    def words(self) -> list[str]:
        """The options of a command that knows both plans."""
        return [*self.words_of_rounds(), *["--clark"] * self.clark]

    def words_of_rounds(self) -> list[str]:
        """The options of a command that knows only Clark's rounds."""
        return [*self.limits(), *self.plan()]

    def rate(self, size: int) -> int:
        """Pages in 1,000 ticks."""
        return remedies.rate(self.scale(), size)

    def rates(self) -> tuple[int, int]:
        """The greatest rate, and that of the first round."""
        return self.rate(self.link), self.rate(self.link if self.first is None else self.first)

    def threshold(self) -> int:
        return (self.downtime - self.reserve) // self.tick * self.rates()[0] // 1000 + 1

    def bytes_of(self, pages: int) -> int:
        return pages * self.page * self.guest // self.sampled

    def most_bytes(self, rate: int) -> int:
        """The most bytes a second that make no more than a rate."""
        return ((rate + 1) * 1000 * self.page * self.guest - 1) // (self.tick * self.sampled)

    def limit_refusal(self) -> Optional["Refusal"]:
        """Which limit is refused, what was asked, and the nearest."""
        (most, least), one = self.rates(), -(-1000 * self.page * self.guest // (self.tick * self.sampled))
        if not 1 <= most <= 1_000_000:
            nearest = min(max(self.link, one), self.most_bytes(1_000_000))
            return _refused(84, "link", rate_word, self.link, "not 1 to 1,000,000 pages per 1,000 ticks", nearest)
        if not 1 <= least <= most:
            nearest = min(max(self.first, one), self.most_bytes(most))
            return _refused(85, "first", rate_word, self.first, "not 1 page per 1,000 ticks to --link", nearest)
        if self.reserve > self.downtime:
            return _refused(86, "reserve", time_word, self.reserve, "longer than --downtime", self.downtime, "most")
        if self.threshold() > 65_536:
            ticks = (1000 * 65_536 - 1) // most + 1
            longest = self.reserve + ticks * self.tick - 1
            return _refused(87, "downtime", time_word, self.downtime, OVER_THE_LINK, longest, "most")
        return None

    def setting_refusal(self) -> Optional["Refusal"]:
        is_late = self.base is not None and self.base > self.start
        wrong = ((3, (self.increment or 0) > 1_000_000), (5, not 1 <= self.rounds <= 64))
        wrong += ((8, self.start >= 1 << 40), (10, is_late))
        return next((Refusal(20 + number, 2, f"settings S{number}") for number, holds in wrong if holds), None)

    def refusal(self, trace: Trace, by_library: bool = False) -> Optional["Refusal"]:
        """Why the question about a trace is refused, if it is. The library tests limits before other settings."""
        tests = (self.limit_refusal, self.setting_refusal)
        if told := next(filter(None, (test() for test in (tests if by_library else tests[::-1]))), None):
            return told
        if self.page != trace.size:
            return Refusal(88, 1, f"a page of the trace has {trace.size} bytes; say so by --page")
        if self.guest > self.sampled < trace.pages:
            return Refusal(89, 1, f"the trace has {trace.pages} pages, more than --sampled says")
        return None

    def settings(self) -> redrawn.Settings | None:
        """The settings that the limits make, if they are in range."""
        return remedies.settings(self.trial())

    def scale(self) -> redrawn.Scale:
        return redrawn.Scale(self.tick, self.page, self.sampled, self.guest)

    def has_errors(self) -> bool:
        """Whether standard errors are counted: of a part of the guest, of two pages or more."""
        return 2 <= self.sampled < self.guest and self.sampled <= 65_536

    def trial(self) -> remedies.Trial:
        """The same as a migration whose limits are changed. A hypervisor has no first round."""
        limits = remedies.Limits(self.link, self.downtime, self.first if self.clark else None, self.reserve)
        others = remedies.Others(self.rounds, self.start, self.skip, self.base, self.increment)
        return remedies.Trial(self.scale(), limits, others, self.manner())

    def course(self, record: Record, start: int) -> Course:
        """What the plan comes to that begins at a tick."""
        return record.course(self.settings()._replace(start=start), self.scale(), self.manner())

    def errors(self, trace: Trace, start: int) -> tuple[int, int, int]:
        """The standard errors of bytes, time and downtime from a start."""
        return courses.errors(trace.guest, self.settings()._replace(start=start), self.scale(), self.manner())

    def is_kept(self, plan: Course) -> bool:
        """Whether a plan keeps the limit."""
        return remedies.is_kept(self.trial(), plan)

    def cost(self, start: int, plan: Course | redrawn.Outcome) -> tuple[int, int, int]:
        """The time and the downtime of a plan, and what it sends."""
        down = plan.down * self.tick + self.reserve
        return (plan.stop - start) * self.tick + down, down, self.bytes_of(plan.total)


OVER_THE_LINK = "more than 65,535 pages go over the link"


class Refusal(NamedTuple):
    """The library's status, and the status and the words of precopy-view."""

    number: int
    status: int
    told: str

    def of_view(self) -> list:
        return [self.status, "", f"precopy-view: {self.told}\n"]


def _refused(number, name, word, asked, why, nearest, which="nearest") -> Refusal:
    return Refusal(number, 2, f"--{name} {word(asked)}: {why}; the {which} is {word(nearest)}")


# ---- Predictions.


class Answer(NamedTuple):
    """What is predicted: times in microseconds. Errors are of bytes, time and downtime, if there are any. `converges`
    and `kept` are of the plan alone."""

    converges: str
    kept: str
    why: str
    rounds: int
    time: int
    sent: int
    downtime: int
    left: int
    recorded: int
    errors: Optional[tuple[int, int, int]]
    agreement: agreements.Agreement
    sure_converges: str
    sure_kept: str
    share: shares.LinkShare
    forecast: Optional[Forecast]
    enough: remedies.Remedies
    plan: Course

    def is_sure(self) -> bool:
        return self.sure_converges == self.sure_kept == "yes"


def answer_of(asked: Question, trace: Trace) -> Optional[Answer]:
    """The answer to a question about a trace, or None if it is refused."""
    if asked.refusal(trace):
        return None
    plan = asked.course(trace.record, asked.start)
    time, down, sent = asked.cost(asked.start, plan)
    is_late = plan.stop > trace.last
    has_errors = not is_late and asked.has_errors()
    trial = asked.trial()
    agreement = agreements.agreement(trace.guest, trial)
    return Answer(
        trace.record.verdict(plan),
        "unknown" if is_late else "yes" if asked.is_kept(plan) else "no",
        courses.word_of(plan, asked.manner()),
        plan.steps,
        time,
        sent,
        down,
        trace.record.left(asked.settings(), asked.scale(), asked.manner()),
        max(0, trace.last - asked.start) * asked.tick,
        asked.errors(trace, asked.start) if has_errors else None,
        agreement,
        agreements.converges(trace.guest, trial, agreement),
        agreements.kept(trace.guest, trial, agreement),
        shares.link_share(trace.guest, trial),
        forecast(asked, trace),
        remedies.remedies(trace.guest, trial),
        plan,
    )


def agreement_words(found: agreements.Agreement, name: str) -> str:
    """In how many draws, if pages were sampled, and from how many starts something is so."""
    draws = "," if found.draws is None else f", in {getattr(found.draws, name)} of {found.draws.whole} redraws and"
    return f"{draws} from {getattr(found.starts, name)} of {found.starts.whole} starts"


def draws_member(found: agreements.Agreement) -> dict:
    """The answers of the draws, if pages were sampled."""
    if found.draws is None:
        return {}
    return {"redraws": dict(zip(("count", "known", "converging", "kept"), found.draws))}


def lines_of(asked: Question, told: Answer) -> list[str]:
    """The first lines of `precopy-view predict`."""
    if told.kept == "unknown":
        return [
            "converges: unknown, the trace ends before the migration does; record longer",
            f"total time: more than {time_text(told.recorded)}",
        ]
    ends, consequence, help = REASONS[told.why]
    ends = f"{ends}; {asked.manner().value}: {told.rounds}"
    down = f"{time_text(told.downtime)}, limit: {time_text(asked.downtime)}"
    lines = [
        f"converges: {told.sure_converges}{agreement_words(told.agreement, 'converging')}{ends}",
        f"total time: {time_text(told.time)}",
        f"sent: {size_text(told.sent)}",
        f"downtime: {down}, kept: {told.sure_kept}{agreement_words(told.agreement, 'kept')}",
    ]
    if told.errors:
        sent, time, down = told.errors
        lines.append(f"standard errors: sent {size_text(sent)}, time {error_text(time)}, downtime {error_text(down)}")
        is_close = told.downtime + 2 * down > asked.downtime and asked.manner() is Manner.ROUNDS
        if told.kept == "yes" and is_close:
            lines.append("warning: the limit is kept by less than two standard errors")
    lines += ["warning: fewer than 100 pages decided the stop; chance moves it"] * (told.left < 100)
    warning = f"warning: the plan ends with `{told.why}`{consequence}; {help}"
    return lines + [warning] * (told.why != "few")


def lines_until_hosts(asked: Question, told: Answer, trace: Trace) -> list[str]:
    """The lines of `precopy-view predict`, but for words of a live run and for hypervisors."""
    ranges = [*look_lines(asked, trace), *Starts(asked, trace).lines(), *share_model.share_lines(told.share)]
    return [*lines_of(asked, told), *ranges, *remedy_model.enough_lines(told.enough, told.is_sure())]


def all_lines(asked: Question, told: Answer, trace: Trace) -> list[str]:
    """All lines of `precopy-view predict`. No live run performs a plan of looks."""
    live = [live_line(asked.settings())] if asked.clark else []
    return [*lines_until_hosts(asked, told, trace), *live, *host_lines(asked.link, asked.millis_for_pages())]


def units_member(asked: Question) -> dict:
    scale = {"page_bytes": asked.page, "sampled_pages": asked.sampled, "guest_pages": asked.guest}
    return {"tick_seconds": seconds(asked.tick), **scale}


def errors_member(errors: tuple[int, int, int]) -> dict:
    sent, time, down = errors
    return dict(zip(ERRORS, (sent, seconds(time), seconds(down))))


def document_of(asked: Question, told: Answer, trace: Trace) -> dict:
    """The document of `precopy-view json predict`, with times as fractions of a second."""
    settings = asked.settings()
    first = {} if asked.first is None else {"first_bytes": asked.first}
    base = {} if asked.base is None else {"base": asked.base}
    times = {"down_seconds": seconds(asked.downtime), "reserve_seconds": seconds(asked.reserve)}
    document = {
        "units": units_member(asked),
        "limits": {"link_bytes": asked.link, **first, **times},
        "settings": {
            "min": settings.least,
            "max": settings.greatest,
            "inc": settings.increment,
            "threshold": settings.threshold,
            "limit": settings.rounds,
            "skip": settings.skip,
            "start": settings.start,
            **base,
        },
        "plan": asked.manner().value,
        "converges": told.sure_converges,
        "kept": told.sure_kept,
        "recorded_seconds": seconds(told.recorded),
        **look_member(asked, trace),
        **draws_member(told.agreement),
        **Starts(asked, trace).member(),
        **share_model.share_member(told.share),
        "enough": remedy_model.enough_member(told.enough, told.is_sure()),
        "hosts": hosts_member(asked.link, asked.millis_for_pages()),
    }
    if told.kept == "unknown":
        return document
    migration = {
        "why": told.why,
        asked.manner().value: told.rounds,
        "time_seconds": seconds(told.time),
        "sent_bytes": told.sent,
        "down_seconds": seconds(told.downtime),
        "left_pages": told.left,
    }
    if told.errors:
        migration["errors"] = errors_member(told.errors)
    return {**document, "migration": migration}


class Starts:
    """What a migration costs from each of at most 21 starts."""

    def __init__(self, asked: Question, trace: Trace):
        first = asked.base or 0
        last = max(first, trace.last)
        ticks = range(first, last + 1, max(1, -(-(last - first) // 20)))
        costs = [Cost.of(asked, trace, tick) for tick in ticks]
        self.count, self.known = len(ticks), [cost for cost in costs if cost.is_known]
        self.converging = sum(cost.plan.ending == "few" for cost in self.known)
        self.kept = sum(cost.is_kept for cost in self.known)

    def spans(self):
        """The least and the greatest bytes, time and downtime."""
        return [(min(all_of), max(all_of)) for all_of in zip(*(it.prices() for it in self.known))]

    def lines(self) -> list[str]:
        if not self.known:
            return []
        sent, time, down = self.spans()
        words = [
            f"{text(low)} to {text(high)}"
            for text, (low, high) in zip((size_text, time_text, time_text), (sent, time, down))
        ]
        counts = f"starts: {self.count}, known: {len(self.known)}, converging: {self.converging}"
        return [
            f"{counts}, limit kept: {self.kept}",
            f"over known starts: sent {words[0]}, time {words[1]}, downtime {words[2]}",
        ]

    def member(self) -> dict:
        if not self.known:
            return {}
        ends = zip(("least", "greatest"), zip(*self.spans()))
        costs = {
            name: {"time_seconds": seconds(time), "sent_bytes": sent, "down_seconds": seconds(down)}
            for name, (sent, time, down) in ends
        }
        counts = {"count": self.count, "known": len(self.known), "converging": self.converging, "kept": self.kept}
        return {"starts": {**counts, **costs}}


# ---- Starts.


class Cost(NamedTuple):
    """What a migration from a start costs, and the standard errors of bytes, time and downtime, if they are counted."""

    start: int
    plan: Course
    manner: Manner
    time: int
    sent: int
    down: int
    is_kept: bool
    is_known: bool
    errors: Optional[tuple[int, int, int]] = None

    @staticmethod
    def of(asked: Question, trace: Trace, start: int) -> "Cost":
        plan = asked.course(trace.record, start)
        time, down, sent = asked.cost(start, plan)
        is_known = plan.stop <= trace.last
        return Cost(start, plan, asked.manner(), time, sent, down, asked.is_kept(plan), is_known)

    def prices(self) -> tuple[int, int, int]:
        return self.sent, self.time, self.down

    def rated(self, asked: Question, trace: Trace) -> "Cost":
        """The same with its errors, if a part of the guest was sampled."""
        if not asked.has_errors():
            return self
        return self._replace(errors=asked.errors(trace, self.start))

    def likely(self) -> int:
        """The downtime with two standard errors."""
        return self.down + (2 * self.errors[2] if self.errors else 0)

    def is_likely(self, limit: int) -> bool:
        """Whether the limit is kept, and by Clark's rounds with two standard errors. A hypervisor stops the guest only
        when what is left fits it."""
        return self.is_kept and (self.manner is Manner.LOOKS or self.likely() <= limit)

    def preference(self, limit: int) -> tuple[int, int, int]:
        """The numbers by which the least of some starts is the best, and the greatest the worst: by how much the limit
        is likely to be missed counts first."""
        return 0 if self.is_likely(limit) else self.likely(), self.sent, self.time

    def verdict(self) -> str:
        return "unknown" if not self.is_known else "yes" if self.is_kept else "no"

    def row(self, tick: int) -> str:
        mark = {"unknown": "unknown", "yes": "kept", "no": "not kept"}[self.verdict()]
        cells = [str(self.start), moment_text(self.start * tick), time_text(self.time), size_text(self.sent)]
        return "".join(f" {cell:>13}" for cell in [*cells, time_text(self.down)]) + f"  {mark}"

    def member(self, tick: int) -> dict:
        return {
            "start": self.start,
            "start_seconds": seconds(self.start * tick),
            self.manner.value: self.plan.steps,
            "time_seconds": seconds(self.time),
            "sent_bytes": self.sent,
            "down_seconds": seconds(self.down),
            "kept": self.verdict(),
            **({"errors": errors_member(self.errors)} if self.errors else {}),
        }

    def downtime(self) -> str:
        """The downtime in words, with its error."""
        return time_text(self.down) + (f" +- {error_text(self.errors[2])}" if self.errors else "")

    def choice(self, name: str, asked: Question) -> str:
        mark = "kept" if self.is_kept else "not kept"
        is_doubtful = self.is_kept and not self.is_likely(asked.downtime)
        mark += " by less than two standard errors" if is_doubtful else ""
        costs = f"time {time_text(self.time)}, sent {size_text(self.sent)}, downtime {self.downtime()}, {mark}"
        return f"{name} {moment_text(self.start * asked.tick)}, --start {self.start}: {costs}"


def chosen(costs: list[Cost], asked: Question, trace: Trace) -> tuple[Optional[Cost], Optional[Cost]]:
    """The best start of those that are known, with their errors, and the worst without."""
    within = [cost for cost in costs if cost.is_known]
    rated = [cost.rated(asked, trace) for cost in within]
    best = min(rated, key=lambda cost: cost.preference(asked.downtime), default=None)
    return best, max(within, key=lambda cost: cost.preference(asked.downtime), default=None)


# ---- Reports and sweeps, in ticks and pages.


def windows_of(trace: Trace, length: int, hot: int) -> tuple[list[dict], dict]:
    """The windows of a trace in which something is written, and the pages that are written in so many of them."""
    pages: dict[int, set] = {}
    counts: dict[int, int] = {}
    for tick, page in trace.writes:
        pages.setdefault(tick // length, set()).add(page)
        counts[tick // length] = counts.get(tick // length, 0) + 1
    seen, rows, times = set(), [], [0] * trace.pages
    for number, written in sorted(pages.items()):
        again = len(written & pages.get(number - 1, set()))
        sizes = {"writes": counts[number], "pages": len(written), "again": again, "fresh": len(written - seen)}
        rows.append({"window": number, **sizes})
        seen |= written
        for page in written:
            times[page] += 1
    return rows, {"windows": hot, "pages": [page for page, count in enumerate(times) if count >= hot]}


def report_of(trace: Trace, settings: redrawn.Settings, length: int = 1_000, hot: int = 2) -> dict:
    """The facts of a report."""
    windows, hot_pages = windows_of(trace, length, hot)
    rounds, reason = redrawn.rounds(trace.guest, settings)
    plan = redrawn.planned(trace.guest, settings)
    names = ("from", "to", "rate", "pages", "sent", "dirtied")
    return {
        "trace": {"pages": trace.pages, "size": trace.size, "writes": len(trace.records)},
        "windows": windows,
        "hot": hot_pages,
        "rounds": [{"round": number, **dict(zip(names, it))} for number, it in enumerate(rounds)],
        "stop": {"why": reason, "at": plan.stop, "pages": plan.left, "down": plan.down, "total": plan.total},
    }


def case_of(number: int, settings: redrawn.Settings, plan: redrawn.Outcome) -> dict:
    """The facts of a case of a sweep."""
    least, most, inc, threshold, rounds = settings[:5]
    asked = {"min": least, "max": most, "inc": inc, "threshold": threshold, "limit": rounds, "skip": settings.skip}
    ends = {"stop": plan.reason, "at": plan.stop, "down": plan.down, "total": plan.total}
    return {"case": number, **asked, "rounds": plan.rounds, **ends}


def sweep_of(trace: Trace, cases: list[redrawn.Settings]) -> dict:
    """The facts of a sweep."""
    found = [case_of(number, it, redrawn.planned(trace.guest, it)) for number, it in enumerate(cases)]
    best = min(found, key=lambda case: (case["down"], case["total"], case["case"]))["case"]
    return {"cases": found, "best": best}


def options_of(settings: redrawn.Settings) -> list[str]:
    """Settings as options of precopy."""
    names = {"least": "min", "greatest": "max", "increment": "inc"}
    given = {names.get(name, name): it for name, it in settings._asdict().items() if name != "skip" and it is not None}
    return [f"--{name}={it}" for name, it in given.items()] + ["--skip"] * settings.skip


def live_line(settings: redrawn.Settings) -> str:
    return " ".join(["precopy live", *options_of(settings)]).replace("=", " ")


def case_word(settings: redrawn.Settings) -> str:
    """Settings as a case of a sweep, without the start and the base."""
    return ",".join(map(str, [*settings[:5], int(settings.skip)]))
