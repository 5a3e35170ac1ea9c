"""What each round of a plan does with which pages, and the file that the page's map saves of it: a plain model, page by
page, as crates/migration_model/specs/Rounds.antt defines rounds."""

from typing import NamedTuple, Optional

from precopy_dev.models.redrawn import is_written


class Asked(NamedTuple):
    """Of a plan the greatest rate, whether pages are skipped, and the tick of the copy; ticks are milliseconds."""

    greatest: int
    skip: bool
    base: Optional[int]


class Turn(NamedTuple):
    page: int
    tick: int
    is_sent: bool


class RoundPages(NamedTuple):
    name: str
    turns: list[Turn]
    dirtied: set[int]


def turns_of(guest, pages, first, rate, may_skip):
    """The turns of pages in a round: each is when those before it that are sent have taken their time."""
    sent, turns = 0, []
    for page in pages:
        tick = first + 1_000 * sent // rate
        is_sent = not (may_skip and is_written(guest[page], first, tick))
        turns.append(Turn(page, tick, is_sent))
        sent += is_sent
    return turns


def rounds_by_page(guest, asked, rounds):
    """The rounds of a guest, given by the ticks at which each page is written; last the copy after the stop. Of a round
    the first tick, the end and the rate are known."""
    start, found = rounds[0][0], []
    pages = [page for page, ticks in enumerate(guest) if asked.base is None or is_written(ticks, asked.base, start)]
    for number, (first, end, rate) in enumerate(rounds):
        turns = turns_of(guest, pages, first, rate, asked.skip and number > 0)
        pages = [page for page, ticks in enumerate(guest) if is_written(ticks, first, end)]
        found.append(RoundPages(str(number), turns, set(pages)))
    found.append(RoundPages("stop", turns_of(guest, pages, rounds[-1][1], asked.greatest, False), set()))
    return found


def map_rows(found, count, rows):
    """The lines of the file that the map saves: of each round those rows of pages of which it has one, or dirties one.
    Turns are in microseconds since the start."""
    start, lines = found[0].turns[0].tick if found[0].turns else 0, []
    for name, turns, dirtied in found:
        for row in range(rows):
            first, last = (-(-(row + more) * count // rows) for more in (0, 1))
            mine = [turn for turn in turns if first <= turn.page < last]
            sent = [turn.page for turn in mine if turn.is_sent]
            written = sum(page in dirtied for page in range(first, last))
            again = sum(page in dirtied for page in sent)
            ticks = [1_000 * (mine[at].tick - start) for at in (0, -1)] if mine else ["", ""]
            counts = [len(mine), len(sent), again, len(mine) - len(sent), written]
            if mine or written:
                lines.append(",".join(map(str, [name, first, last - 1, *counts, *ticks])))
    return lines
