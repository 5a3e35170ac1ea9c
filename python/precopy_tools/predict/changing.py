"""Plans over a link whose bandwidth changes while a guest migrates.

By its clock such a link has one rate (`link_clock`). So `precopy-view` is asked about the recording by that clock, at
the greatest bandwidth, and the times of its answer are turned back. How many pages may be left is one number: those
that the lowest bandwidth sends within the downtime limit, so at each of them the limit is kept.
"""

from collections.abc import Iterable
from typing import NamedTuple

from precopy_tools.formats import traces
from precopy_tools.predict import plans
from precopy_tools.predict.forecast import Forecast, Link, encoded
from precopy_tools.predict.link_clock import Change, ChangingLink
from precopy_tools.quantities import micros_of
from precopy_tools.words import whole_rate

# At the greatest bandwidth the limit of the downtime has so many ticks, unless the lowest rate would be below this.
LEAST_LIMIT, ROUGH_RATE = 4, 100
# What is told of a plan over one rate, and not over several.
OF_ONE_RATE = ("enough", "hosts")


class Step(NamedTuple):
    """From so many microseconds after the first look on, a link has so many bytes a second."""

    micros: int
    bandwidth: float


class Steps(NamedTuple):
    """A link by its steps, of which the first is from the first look on, and the limit of a downtime in seconds. The
    steps have no more than the greatest bandwidth, and no less than the lowest."""

    steps: tuple[Step, ...]
    downtime: float
    greatest: float
    lowest: float

    def times(self, factor: float) -> "Steps":
        """A link with so many times as much."""
        steps = tuple(step._replace(bandwidth=step.bandwidth * factor) for step in self.steps)
        return Steps(steps, self.downtime, self.greatest * factor, self.lowest * factor)


def link_of(steps: Iterable[Step], downtime: float) -> Steps | Link:
    """A link of these steps; if there is one step, a link that does not change."""
    steps = tuple(steps)
    found = [step.bandwidth for step in steps]
    return Link(found[0], downtime) if len(found) == 1 else Steps(steps, downtime, max(found), min(found))


class Question:
    """The question about one recording over a link whose bandwidth changes, by a hypervisor's looks."""

    def __init__(self, forecast: Forecast, asked: Steps):
        self.forecast, self.asked = forecast, asked
        self.factor = self._factor()
        scale = forecast.scale(self.factor)
        self.tick = scale.tick
        plans.limits(asked.lowest, asked.downtime, scale)
        rates = (Change(step.micros // self.tick, scale.whole_rate(step.bandwidth)) for step in asked.steps)
        self.link = ChangingLink(scale.whole_rate(asked.greatest), tuple(rates))
        self.limits = plans.limits(asked.greatest, self._limit(scale.whole_rate(asked.lowest)), scale)
        if why := self.link.refusal():
            raise plans.Failed(f"a link that changes is refused: {why}")
        self.start = forecast.start // self.factor

    def _factor(self) -> int:
        """By how much ticks are made longer: for the lowest bandwidth, if a plan can have the greatest then, and the
        limit at that one has ticks enough. For one bandwidth it is that of a link that does not change."""
        fitting = self.forecast.fitting(self.asked.downtime)
        if self.asked.lowest < self.asked.greatest:
            fitting = [factor for factor in fitting if self._is_fine(self.forecast.scale(factor))] or fitting[:1]
        return self.forecast.longer(self.asked.lowest, fitting)

    def _is_fine(self, scale: plans.Scale) -> bool:
        """Whether ticks are short enough for the limit at the greatest bandwidth, unless the lowest rate is small."""
        lowest, greatest = whole_rate(self.asked.lowest), whole_rate(self.asked.greatest)
        has_limit = micros_of(self.asked.downtime) * lowest >= LEAST_LIMIT * scale.tick * greatest
        return greatest <= scale.most() and (has_limit or scale.whole_rate(lowest) <= ROUGH_RATE)

    def _limit(self, lowest: int) -> float:
        """The limit of the downtime at the greatest rate, in seconds of whole ticks."""
        ticks = micros_of(self.asked.downtime) * lowest // (self.link.rate * self.tick)
        return max(1, ticks) * self.tick / 1e6

    def last(self) -> int:
        """The tick of the last look."""
        return self.forecast.last(self.factor)

    def text(self) -> bytes:
        """The trace by the clock of the link, as that of a forecast."""
        ticks = (tick // self.factor for tick, _ in self.forecast.writes)
        pages = (page for _, page in self.forecast.writes)
        writes, last = list(dict.fromkeys(zip(self.link.clocks(ticks), pages))), self.link.clock(self.last())
        if len(writes) < traces.Limits().writes and (not writes or writes[-1][0] < last):
            writes.append((last, 0))
        return encoded(self.forecast.sample.trace_pages, writes, self.forecast.page_size)

    def told(self) -> dict:
        """What `precopy-view json predict` tells, in real times. What is of one rate alone is left out, and so are the
        times over all starts: by the clock of a link a time is another one from each."""
        warm = [] if self.forecast.base is None else ["--base", "0"]
        words = [*self.limits, *warm, "--start", str(self.link.clock(self.start))]
        told = plans.document(self.forecast.program, ["predict", *words], self.text())
        if told["settings"]["max"] != self.link.rate:
            raise plans.Failed(f"{self.forecast.program} plans at rate {told['settings']['max']}, not {self.link.rate}")
        found = {name: value for name, value in told.items() if name not in OF_ONE_RATE}
        found["limits"] = {**told["limits"], "down_seconds": self.asked.downtime}
        found["settings"] = {**told["settings"], "start": self.start}
        found["recorded_seconds"] = max(0, self.last() - self.start) * self.tick / 1e6
        if "starts" in told:
            counts = ("count", "known", "converging", "kept")
            found["starts"] = {name: told["starts"][name] for name in counts}
        if "migration" in told:
            found["migration"] = self.turned_back(told["migration"])
            is_over = found["migration"]["down_seconds"] > self.asked.downtime
            found["kept"] = "no" if is_over else told["kept"]
        return found

    def turned_back(self, migration: dict) -> dict:
        """A migration by the clock in real times: its stop is the first tick at which the clock shows that of the plan,
        and its downtime the ticks from there on in which the link sends what is left."""
        link, down = self.link, micros_of(migration["down_seconds"])
        end = link.clock(self.start) * self.tick + micros_of(migration["time_seconds"])
        stop = link.tick_of((end - down) // self.tick)
        down = link.when_sent(link.sent_before(stop) + 1000 * migration["left_pages"]) - stop
        times = {"time_seconds": stop - self.start + down, "down_seconds": down}
        found = {**migration, **{name: ticks * self.tick / 1e6 for name, ticks in times.items()}}
        if errors := migration.get("errors"):
            found["errors"] = {**errors, **{name: self.error(end, errors[name]) for name in times}}
        return found

    def error(self, end: int, error: float) -> float:
        """The standard error of a time that ends at these microseconds of the clock, in real seconds: by how much at
        most one of the clock's moves the end, forwards or back."""
        fine = self.link._replace(changes=tuple(Change(self.tick * tick, rate) for tick, rate in self.link.changes))
        by_clock = micros_of(error)
        before, now, after = (fine.tick_of(max(0, moment)) for moment in (end - by_clock, end, end + by_clock))
        return max(after - now, now - before) / 1e6
