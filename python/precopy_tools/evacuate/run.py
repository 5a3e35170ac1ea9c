"""Performs a schedule: begins each guest when its slot and its group are free, and watches all that move.

After a failure or its window no other guest begins, and those under way end as they do. After SIGINT or SIGTERM they
are told to stay. One thread decides. Others ask the monitors, one for each guest, so that one that hangs holds up
nobody for long.
"""

import argparse
import concurrent.futures
import math
import sys
import time
from collections.abc import Callable

from precopy_tools import version
from precopy_tools.evacuate import movers as host_movers
from precopy_tools.evacuate import sharing
from precopy_tools.evacuate.lines import Step
from precopy_tools.evacuate.movers import Look
from precopy_tools.evacuate.outcome import LOST, Moved, Outcome
from precopy_tools.evacuate.texts import gigabits
from precopy_tools.evacuate.ways import Way
from precopy_tools.qemu import qmp
from precopy_tools.quantities import micros_of, moment_text, size_text, time_text
from precopy_tools.record.looking import Stopping

LOOK = 0.2
# So long all monitors together are waited for. What one answers later is taken with a later look.
SOON = 0.5
# Where nobody looks at a terminal, a line for each guest comes this often.
EVERY = 5.0
# A guest is cancelled after so many times what was planned, and so many seconds more.
TIMES, MORE = 3, 30.0
# How long the rate is that is shown.
WINDOW = 2.0
# Why a guest was not begun, unless its window had ended.
STOPPED = "no other guest began after a failure or a signal"


class Unready(Exception):
    """Nothing was begun; the text says why."""

    def __init__(self, text: str, status: int = 1):
        super().__init__(text)
        self.status = status


class Moving:
    """The move of one guest: waiting, then under way, then over."""

    def __init__(self, step: Step, mover, patience: float | None):
        self.step, self.mover, self.name = step, mover, step.move.guest.name
        self.closes = step.closes or math.inf
        self.patience = patience or TIMES * step.move.cost.time / 1e6 + MORE
        self.seen, self.begun, self.ended = Look("waiting"), 0.0, 0.0
        self.sent: list[tuple[float, int]] = []
        self.is_late = self.is_to_stay = self.is_told = False
        self.share = self.told = self.said = int(step.move.cost.share)  # what it is to have, was told, and is said
        self.threads = concurrent.futures.ThreadPoolExecutor(1)
        self.asked: concurrent.futures.Future | None = None

    @property
    def is_under_way(self) -> bool:
        return self.seen.state == "moving"

    @property
    def is_watched(self) -> bool:
        """Whether it has begun, and its end is not told yet."""
        return self.seen.state != "waiting" and not self.is_told

    def begin(self) -> None:
        self.begun, self.seen = time.monotonic(), Look("moving")
        self._ask(self._begin)
        self.wait()

    def _begin(self) -> Look:
        """Begins if nothing stands against it; the window may end while that is asked."""
        why = self.mover.why_not()
        try:
            if not why:
                host_movers.expect_open(self.closes)
                self.mover.begin(self.closes)
        except qmp.Fault as fault:
            why = str(fault)
        return Look("failed" if why else "moving", why=why)

    def take(self) -> bool:
        """Has it go on with the share that it is to have, or begin with it. Returns whether it does."""
        if not self.is_under_way:
            self._take(self.share)
        elif self.is_free() and self.is_under_way:
            self._ask(self._take, self.share)
            self.wait()
        return self.told == self.share

    def _take(self, share: int) -> None:
        if self.mover.take(share):
            self.told = share

    def look(self) -> bool:
        """Has a thread look once, if the look before is over. What takes too long is told to stay. Returns whether it
        looks anew."""
        is_asked = self.is_free() and self.is_under_way
        if is_asked:
            self.is_late = self.is_late or time.monotonic() - self.begun > self.patience
            self._ask(self._look, self.is_late or self.is_to_stay)
        return is_asked

    def _look(self, is_to_stay: bool) -> Look:
        seen = self.mover.look()
        if is_to_stay and seen.state == "moving":
            self.mover.cancel()
        return seen

    def _ask(self, question: Callable, *words) -> None:
        """Has a thread ask the monitor. There is one question at a time."""
        self.asked = self.threads.submit(question, *words)

    def wait(self) -> None:
        """Until the question is answered, but not long."""
        concurrent.futures.wait([self.asked] if self.asked else [], SOON)
        self.is_free()

    def is_free(self) -> bool:
        """Whether no question is open. What one has shown is taken."""
        if self.asked is None:
            return True
        if not self.asked.done():
            return False
        seen, self.asked = self.asked.result(), None
        if seen is not None:
            self._take_in(seen)
        return True

    def _take_in(self, seen: Look) -> None:
        self.seen, now = seen, time.monotonic()
        recent = [each for each in self.sent if each[0] > now - WINDOW]
        self.sent = (recent or self.sent[-1:]) + [(now, seen.sent)]
        if not self.is_under_way:
            self.ended = now
            self.threads.shutdown(wait=False)
            self.mover.end()  # Others may want its monitor.

    def rate(self) -> int:
        """Bytes a second, of the last seconds."""
        (first, before), (last, after) = self.sent[0], self.sent[-1]
        return int((after - before) / (last - first)) if last > first else 0

    def line(self, begun: float) -> str:
        """How far it is, with what was planned beside it."""
        cost, rate = self.step.move.cost, self.rate() if self.sent else 0
        left = f", about {time_text(1_000_000 * self.seen.left // rate // 1000 * 1000)}" if rate > 0 else ""
        return (
            f"{self.name}: {moment_text(micros_of(time.monotonic() - begun) // 1000 * 1000)}, "
            f"{size_text(self.seen.sent)} of {size_text(cost.sent)} planned, {size_text(rate)} a second, "
            f"{size_text(self.seen.left)} left{left}; planned until {moment_text(self.step.move.end)}"
        )

    def moved(self, begun: float, stopped: str) -> Moved:
        """What is told of it in the end; `stopped` says why it has not begun, if it has not."""
        state, why = self.seen.state, self.seen.why
        if state == "waiting":
            return Moved(self.step.move, "not begun", why=stopped)
        if state == "cancelled" and self.is_late:
            why = f"it took more than {time_text(micros_of(self.patience))}, and was cancelled"
        elif state == "cancelled":
            why = "it was cancelled"
        where = "" if state == "moved" else self.mover.whereabouts()
        times = (micros_of(max(0.0, each - begun)) for each in (self.begun, self.ended))
        return Moved(self.step.move, state, *times, self.seen.sent, self.seen.downtime, why, where)


class Run:
    """All moves of a schedule."""

    def __init__(self, moves: list[Moving], stopping: Stopping, opens: float, link: int = 0):
        """Times count from when the schedule opens, in Unix seconds; 0 is now. Those that move share a link of so many
        bytes a second; if it is 0, their shares stay."""
        self.moves, self.stopping, self.link = moves, stopping, link
        self.by_number = {move.step.number: move for move in moves}
        self.begun = time.monotonic() + max(0.0, opens - time.time())
        self.shown, self.lines = 0.0, 0
        self.why = ""  # why no other guest begins

    def perform(self) -> None:
        while self._begin_due() or any(move.is_watched for move in self.moves) or self._holds():
            self.stopping.sleep(time.monotonic() + LOOK)
            if self.stopping.by:
                self._cancel()
                time.sleep(LOOK)
            self._look()
            self._show()

    def _look(self) -> None:
        """Looks at all that move, and takes what is answered soon."""
        watched = [move for move in self.moves if move.is_watched]
        asked = [move for move in watched if move.look()]
        concurrent.futures.wait([move.asked for move in asked], SOON)
        for move in watched:
            move.is_free()
            self._tell_end(move)

    def _cancel(self) -> None:
        """Has all that move be told to stay, with the next look."""
        if not all(move.is_to_stay for move in self.moves):
            self._print(f"{self.stopping.by}: no other guest begins, and those that move are told to stay")
        self.why = self.why or STOPPED
        for move in self.moves:
            move.is_to_stay = True

    def _stop(self, told: str, why: str = STOPPED) -> None:
        """No other guest begins, which is told once."""
        if not self.why:
            self.why = why
            self._print(told)

    def _is_next(self, move: Moving) -> bool:
        """Whether a guest waits for no other one."""
        before = [self.by_number[number] for number in (move.step.of_slot, move.step.of_group) if number]
        return move.seen.state == "waiting" and all(each.seen.state == "moved" for each in before)

    def _is_due(self, move: Moving) -> bool:
        return self._is_next(move) and time.time() >= move.step.not_before

    def _holds(self) -> bool:
        """Whether a guest waits for its time alone."""
        return not self.why and any(self._is_next(move) for move in self.moves)

    def _share(self, due: list[Moving]) -> None:
        """Makes the shares of those that move, and of those that are due, anew. Lower ones are told first, and greater
        ones only if all of these are taken: what a monitor does not take is told again with the next look."""
        moving = [move for move in self.moves if move.is_under_way]
        most = [move.step.move.cost.most_share for move in (*moving, *due)]
        for move, share in zip((*moving, *due), sharing.fair(self.link, most)):
            move.share = share if move in due else sharing.following(move.share, share)
        are_lower = all([move.take() for move in moving if move.share < move.told])
        for move in (*due, *(each for each in moving if are_lower and each.share > each.told)):
            move.take()
        for move in moving:
            self._tell_share(move)
            self._tell_end(move)

    def _tell_share(self, move: Moving) -> None:
        if move.said != move.told:
            move.said = move.told
            self._print(f"{move.name} goes on with {gigabits(move.said)} Gbit/s")

    def _begin_due(self) -> bool:
        """Begins what is due, and shares the link if it is shared. Returns whether something was begun."""
        is_begun = False
        if any(move.seen.state == "waiting" and time.time() >= move.closes for move in self.moves):
            self._stop("the window has ended: no other guest begins", "the window had ended")
        may_begin = not self.why and not self.stopping.by
        due = [move for move in self.moves if may_begin and self._is_due(move)]
        if self.link:
            self._share(due)
        for move in due:
            if not self.why and not self.stopping.by:
                self._print(f"{move.name} begins")
                move.said = move.told
                move.begin()
                self._tell_end(move)
                is_begun = True
        return is_begun

    def _tell_end(self, move: Moving) -> None:
        if move.is_under_way or move.is_told:
            return
        move.is_told = True
        if move.seen.state == "moved":
            self._print(f"{move.name} has moved")
            return
        state, why = move.seen.state, move.seen.why
        told = LOST if state == "lost" else f" has not moved, {state}{': ' if why else ''}"
        self._print(f"{move.name}{told}{why}")
        self._stop("no other guest begins")

    def _print(self, line: str) -> None:
        self._erase()
        print(line, flush=True)

    def _erase(self) -> None:
        if self.lines:
            print(f"\033[{self.lines}A\033[J", end="")
            self.lines = 0

    def _show(self) -> None:
        """A line for each guest under way: always the newest on a terminal, and else some of them."""
        is_terminal, now = sys.stdout.isatty(), time.monotonic()
        if not is_terminal and now - self.shown < EVERY:
            return
        self.shown = now
        self._erase()
        lines = [move.line(self.begun) for move in self.moves if move.is_under_way]
        print("".join(f"{line}\n" for line in lines), end="", flush=True)
        self.lines = len(lines) if is_terminal else 0

    def outcome(self) -> Outcome:
        """What came of it. A run that is stopped before it opens has taken no time."""
        taken = max(0.0, time.monotonic() - self.begun)
        return Outcome([move.moved(self.begun, self.why) for move in self.moves], micros_of(taken))


def expect_ready(options: argparse.Namespace, steps: list[Step], ways: dict[str, Way], status: int) -> None:
    """Everything that a run needs is there, and no guest moves already; or Unready, and nothing was begun."""
    if status and not options.force:
        raise Unready("the schedule is not sure to keep all limits, or lacks guests: --force performs it", status)
    for step in steps:
        name, way = step.move.guest.name, ways[step.move.guest.name]
        if not way.to:
            raise Unready(f"{name} has no destination: --to, or `to` in the settings", 2)
        if options.lines == "qmp" and not way.monitor:
            raise Unready(f"{name} has no monitor: --monitor, or `monitor` in the settings", 2)
    found = []
    for step in steps:
        mover = host_movers.MOVERS[options.lines](step, ways[step.move.guest.name])
        if why := mover.why_not():
            found.append(f"{step.move.guest.name}: {why}")
        mover.end()
    if found:
        raise Unready("\n".join(["nothing was begun", *found]))


def performed(
    options: argparse.Namespace, steps: list[Step], ways: dict[str, Way], opens: float, link: int = 0
) -> Outcome:
    """Performs the schedule, which opens at a time in Unix seconds, and prints what was beside what was planned. Those
    that move share a link, if there is one."""
    kind = host_movers.MOVERS[options.lines]
    moves = [Moving(step, kind(step, ways[step.move.guest.name]), options.patience) for step in steps]
    run = Run(moves, Stopping(), opens, link)
    for move in moves:
        if move.step.not_before > time.time():
            print(f"{move.name} begins {move.step.when}", flush=True)
    try:
        run.perform()
        outcome = run.outcome()
    finally:
        for move in moves:
            move.mover.end()
    print("\n".join(["", *outcome.lines()]), flush=True)
    for line in outcome.faults():
        version.complain("evacuate", line)
    return outcome
