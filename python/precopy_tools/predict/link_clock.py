"""A link whose rate changes, and its clock, in whole numbers, as the proved crate `link_clock` defines them.

The clock goes on by a tick in a tick at the link's full rate, and by less at lower ones. By that clock the link has one
rate, so a plan over it is the plan at that rate of a trace whose ticks are the clock's.
"""

from collections.abc import Iterable, Iterator
from typing import NamedTuple

MOST_RATE, LAST_TICK = 1_000_000, 1 << 40


class Change(NamedTuple):
    """A tick from which on a link has another rate, in pages per 1,000 ticks."""

    tick: int
    rate: int


class Piece(NamedTuple):
    """A part of the time, up to the next one: its first tick, its rate, and thousandths of a page sent before it."""

    tick: int
    rate: int
    sent: int


class ChangingLink(NamedTuple):
    """The rate of a link until it changes, which is the greatest one, and its changes in order. Of changes at one tick
    the last one counts."""

    rate: int
    changes: tuple[Change, ...] = ()

    def refusal(self) -> str | None:
        """What the link is refused for: its rate, or the first change that it may not have, counted from 0."""
        if not 1 <= self.rate <= MOST_RATE:
            return "rate"
        before = 0
        for number, change in enumerate(self.changes):
            if not (before <= change.tick <= LAST_TICK and 1 <= change.rate <= self.rate):
                return f"change {number}"
            before = change.tick
        return None

    def pieces(self) -> list[Piece]:
        found = [Piece(0, self.rate, 0)]
        for change in self.changes:
            last = found[-1]
            found.append(Piece(change.tick, change.rate, last.sent + last.rate * (change.tick - last.tick)))
        return found

    def sent_before(self, tick: int) -> int:
        """How many thousandths of a page are sent before a tick."""
        piece = next(piece for piece in reversed(self.pieces()) if piece.tick <= tick)
        return piece.sent + piece.rate * (tick - piece.tick)

    def clock(self, tick: int) -> int:
        """What the clock shows at a tick."""
        return self.sent_before(tick) // self.rate

    def clocks(self, ticks: Iterable[int]) -> Iterator[int]:
        """What the clock shows at ticks that do not fall."""
        later = iter([*self.pieces()[1:], None])
        piece, following = Piece(0, self.rate, 0), next(later)
        for tick in ticks:
            while following and following.tick <= tick:
                piece, following = following, next(later)
            yield (piece.sent + piece.rate * (tick - piece.tick)) // self.rate

    def when_sent(self, amount: int) -> int:
        """The first tick by which so many thousandths of a page are sent."""
        piece = next((piece for piece in reversed(self.pieces()) if piece.sent < amount), Piece(0, 1, amount))
        return piece.tick - (piece.sent - amount) // piece.rate

    def tick_of(self, clock: int) -> int:
        """The first tick at which the clock shows no less than this."""
        return self.when_sent(self.rate * clock)
