"""Plans of a migration: the settings of `precopy report`, the limits of `precopy-view`, and what they answer."""

import json
import math
import re
import subprocess
from fractions import Fraction
from typing import NamedTuple

from precopy_tools.quantities import micros_of
from precopy_tools.record.memory import PAGE
from precopy_tools.words import given_rate, whole_rate

# Bytes in the smallest unit of a link, and the most pages in 1,000 ticks.
LEAST_LINK, MOST_RATE = 125, 1_000_000
MOST_THRESHOLD = 65_536
ROUNDS = 64
# Why plans end that stop the guest. A plan of looks may end since it has no look left, or since its trace ends.
STOPS = ("few", "fast", "rounds")
STOP = re.compile(r"^stop (\w+) at (\d+) pages (\d+) down (\d+) total (\d+)$", re.M)


class Failed(Exception):
    """The program refuses a trace or settings, or does not answer."""


class NoRate(Failed):
    """A link is less or more than a plan of the trace can have."""


class Settings(NamedTuple):
    """One rate throughout, as QEMU sends: pages per 1,000 ticks, and pages that fit the downtime limit, plus 1."""

    rate: int
    threshold: int

    def words(self, start: int) -> list[str]:
        rate = str(self.rate)
        rates = ["--min", rate, "--max", rate, "--inc", "0"]
        return ["--start", str(start), "--threshold", str(self.threshold), *rates]


def settings_of(bandwidth: float, downtime: float, tick: float, weight: float = 1.0) -> Settings:
    """The settings for bytes a second and a limit in seconds, if a page of the trace stands for `weight` pages. Both
    times are whole microseconds, so that no division loses a page."""
    rate = round(Fraction(bandwidth) * micros_of(tick) / (1000 * PAGE) / Fraction(weight))
    return Settings(rate, min(MOST_THRESHOLD, micros_of(downtime) * rate // (1000 * micros_of(tick)) + 1))


class Plan(NamedTuple):
    why: str
    tick: int
    last: int
    down: int
    sent: int
    rounds: int

    def seconds(self, start: int, tick: float) -> float:
        """The time of the whole migration, with the stop-and-copy."""
        return (self.tick - start + self.down) * tick


def report(program: str, trace: bytes, settings: Settings, start: int) -> Plan:
    """What `precopy report` plans of a trace."""
    command = [program, "report", *settings.words(start), "--rounds", str(ROUNDS), "--window", str(1 << 40)]
    done = subprocess.run(command, input=trace, capture_output=True)
    text = done.stdout.decode()
    stop = STOP.search(text)
    if done.returncode or not stop:
        raise Failed(f"{' '.join(command)}: {done.stderr.decode(errors='replace').strip()}")
    tick, last, down, sent = (int(word) for word in stop.groups()[1:])
    return Plan(stop[1], tick, last, down, sent, len(re.findall(r"^round ", text, re.M)))


class Scale(NamedTuple):
    """What a trace stands for: the length of a tick in microseconds, bytes of a page, pages sampled of the guest's."""

    tick: int
    page: int
    sampled: int
    guest: int

    def rate(self, bandwidth: float) -> float:
        """Pages of the trace in 1,000 ticks, for bytes a second."""
        return bandwidth * self.tick * self.sampled / (1000 * self.page * self.guest)

    def whole_rate(self, bandwidth: float) -> int:
        """The same in whole pages, rounded down, as precopy-view has it."""
        return whole_rate(bandwidth) * self.tick * self.sampled // (1000 * self.page * self.guest)

    def most(self) -> int:
        """The most bytes a second that a plan can have, in the unit of a link."""
        return MOST_RATE * 1000 * self.page * self.guest // (self.tick * self.sampled) // LEAST_LINK * LEAST_LINK


def limits(bandwidth: float, downtime: float, scale: Scale) -> list[str]:
    """The words of precopy-view for limits in bytes a second and seconds."""
    if bandwidth < LEAST_LINK:
        raise NoRate(f"a link of {bandwidth:,.0f} bytes a second has less than 1 Kbit")
    rate = int(scale.rate(bandwidth))
    if not 1 <= rate <= MOST_RATE:
        slow = "slow" if rate < 1 else "fast"
        told = f"{scale.rate(bandwidth):.3g} pages of it in 1,000 ticks, and a plan has 1 to {MOST_RATE:,}"
        raise NoRate(f"a link of {bandwidth:,.0f} bytes a second is too {slow} for this sample: {told}")
    # A threshold above all pages of a trace is refused, and one of all of them says the same.
    most = (1000 * MOST_THRESHOLD - 1) // rate * scale.tick
    words = ["--link", given_rate(bandwidth), "--downtime", f"{min(round(1e6 * downtime), most)}us"]
    return [
        *words,
        "--tick",
        f"{scale.tick}us",
        "--page",
        str(scale.page),
        "--sampled",
        f"{scale.sampled}/{scale.guest}",
    ]


def answered(program: str, command: list[str], trace: bytes) -> tuple[int, str]:
    """The status, which is 3 to 5 if no limit is known to be kept, and what the program prints."""
    done = subprocess.run([program, *command], input=trace, capture_output=True)
    if done.returncode not in (0, 3, 4, 5):
        raise Failed(f"{' '.join([program, *command])}: {done.stderr.decode(errors='replace').strip()}")
    return done.returncode, done.stdout.decode()


def document(program: str, command: list[str], trace: bytes) -> dict:
    """The JSON document that the program answers."""
    _, text = answered(program, ["json", *command], trace)
    try:
        return json.loads(text)
    except ValueError as fault:
        raise Failed(f"{program} json {command[0]} answers no JSON: {text[:80]!r}") from fault


def end_of_first_round(start: int, pages: int, rate: int) -> int:
    return start + math.ceil(1000 * pages / rate)
