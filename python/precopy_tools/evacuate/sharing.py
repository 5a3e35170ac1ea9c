"""How guests that move at once share a link: evenly at each moment, but for those that take less."""

from collections.abc import Sequence
from typing import NamedTuple


class Share(NamedTuple):
    """From so many microseconds after its start on, a guest has so many bytes a second."""

    micros: int
    bandwidth: int


def fair(link: int, most: Sequence[int]) -> list[int]:
    """The shares of guests of which each takes at most so many bytes a second: what one leaves goes to the others, and
    these have equal ones."""
    left = link
    for place, least in enumerate(sorted(most)):
        level = left // (len(most) - place)
        if least >= level:
            return [min(each, level) for each in most]
        left -= least
    return list(most)


def following(now: int, fair_now: int) -> int:
    """The share of a guest after others have begun or ended: a lower one at once, and a greater one if it is at least a
    tenth more. So a hundred guests do not change theirs each time that one ends."""
    return fair_now if fair_now < now or 10 * fair_now >= 11 * now else now
