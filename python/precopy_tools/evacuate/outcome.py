"""What a run of a schedule did, beside what was planned: for each guest, and for the whole."""

from typing import NamedTuple

from precopy_tools.evacuate.schedules import Placed
from precopy_tools.quantities import decimal, moment_text, size_text, time_text

NOT_ALL = 5
LOST = ": not known whether it has moved: "
FAULTS = {"not begun": " has not begun", "lost": LOST}


class Moved(NamedTuple):
    """A guest: what was planned, how it ended (moved, failed, cancelled, lost or not begun), when it began and ended in
    microseconds from the first command on, the bytes that were sent, the downtime, why it did not move, and where it is
    then. libvirt does not always tell the downtime."""

    planned: Placed
    state: str
    start: int = 0
    end: int = 0
    sent: int = 0
    downtime: int | None = None
    why: str = ""
    where: str = ""

    @property
    def is_moved(self) -> bool:
        return self.state == "moved"

    def document(self) -> dict:
        """As docs/evacuation.schema.json has it."""
        told = {"guest": self.planned.guest.name, "state": self.state}
        if self.state != "not begun":
            told |= {"start_seconds": self.start / 1e6, "end_seconds": self.end / 1e6, "sent_bytes": self.sent}
        if self.downtime is not None:
            told["down_seconds"] = self.downtime / 1e6
        if not self.is_moved:
            told |= {"why": self.why, "where": self.where}
        return told


def short(micros: int) -> str:
    """A moment in seconds with three digits after the point."""
    return moment_text(micros // 1000 * 1000)


def apart(planned: int, real: int) -> str:
    """By how many per cent a plan is above what was."""
    if not real:
        return "-"
    tenths = round(1000 * (planned - real) / real)
    return f"{'-' if tenths < 0 else '+'}{decimal(abs(tenths), 10, 1)} %"


class Outcome(NamedTuple):
    """All guests, in the order of the schedule, and how long the whole took."""

    moves: list[Moved]
    time: int

    def status(self) -> int:
        return 0 if all(move.is_moved for move in self.moves) else NOT_ALL

    def title(self) -> str:
        """How many have moved, and how long the whole took, beside what was planned."""
        moved = sum(move.is_moved for move in self.moves)
        planned = max(move.planned.end for move in self.moves)
        counted = f"{moved} of {len(self.moves)} guests have moved"
        return f"{counted}, in {time_text(self.time)}; planned {time_text(planned)}"

    def faults(self) -> list[str]:
        """A line for each guest that has not moved, or of which that is not known."""
        return [
            f"{move.planned.guest.name}{FAULTS.get(move.state, ' has not moved: ')}"
            + "; ".join(filter(None, (move.where and move.why, move.where)))
            for move in self.moves
            if not move.is_moved
        ]

    def lines(self) -> list[str]:
        """A table: what was planned, what was, and by how much the plan is above that."""
        width = max(len("guest"), len("the whole"), *(len(move.planned.guest.name) for move in self.moves))
        heads = ("planned", "taken", "off", "planned", "sent", "off", "planned", "downtime")
        lines = [f"{'guest':<{width}}" + "".join(f"{head:>13}" for head in heads) + "  state"]
        lines += [f"{move.planned.guest.name:<{width}}{self._cells(move)}  {move.state}" for move in self.moves]
        done = [move for move in self.moves if move.is_moved]
        if len(done) == len(self.moves):
            planned, sent = max(move.planned.end for move in done), sum(move.planned.cost.sent for move in done)
            real = sum(move.sent for move in done)
            cells = (short(planned), short(self.time), apart(planned, self.time))
            cells += (size_text(sent), size_text(real), apart(sent, real))
            lines.append(f"{'the whole':<{width}}" + "".join(f"{cell:>13}" for cell in cells))
        else:
            lines.append(self.title().partition(";")[0])
        return lines

    @staticmethod
    def _cells(move: Moved) -> str:
        cost = move.planned.cost
        cells = [short(cost.time), "-", "-", size_text(cost.sent), "-", "-", time_text(cost.downtime), "-"]
        if move.state != "not begun":
            cells[1], cells[4] = short(move.end - move.start), size_text(move.sent)
        if move.is_moved:
            cells[2], cells[5] = apart(cost.time, move.end - move.start), apart(cost.sent, move.sent)
            cells[7] = "-" if move.downtime is None else time_text(move.downtime)
        return "".join(f"{cell:>13}" for cell in cells)

    def document(self) -> dict:
        return {
            "time_seconds": self.time / 1e6,
            "is_complete": self.status() == 0,
            "guests": [move.document() for move in self.moves],
        }
