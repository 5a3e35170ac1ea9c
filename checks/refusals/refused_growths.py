"""Which growths were refused, as checks/refusals/refuse.c reports it, and after which of them the output may still
come."""

import bisect
import re
import subprocess
from collections import Counter

from checks.refusals.threads import PIECES, saver_of


class Growth:
    """A growth that the program asked for: its size, whether it moves an older room, the place that asked, and the
    functions."""

    def __init__(self, numbers, functions):
        self.size, self.moves, *addresses = numbers
        self.place = addresses[0]
        self.callers = [functions.at(address) for address in addresses if address]

    def __str__(self):
        return f"{self.size} bytes for {' in '.join(self.callers[:3])}"


class Functions:
    """The names of a program's functions, by address. If there are no names, all are unknown."""

    def __init__(self, program):
        done = subprocess.run(["nm", "-n", program], stdout=subprocess.PIPE, stderr=subprocess.DEVNULL)
        lines = [line.split(" ", 2) for line in done.stdout.decode("utf-8", "replace").splitlines()]
        found = [(int(line[0], 16), line[2]) for line in lines if line[0] and line[1] in "tTwW"]
        self.starts, self.names = [start for start, _ in found], [name for _, name in found]

    def at(self, address):
        # A call may be a function's last instruction, and its return address the next one's first.
        place = bisect.bisect_right(self.starts, address - 1)
        return self.names[place - 1] if place else "?"


GROWING = re.compile(r"std_alloc::vec::Vec::grow_amortized\b.*")
# Where the characters of a word are gathered, to look for a word like one that the command line does not have.
LIKENING = re.compile(r"strsim::.*|clap::parser::suggestions::.*")


def is_hint(run):
    """Whether what was refused is room for all items of a list at once, and what was granted next, room for one more.

    `Vec::from_iter` asks for room for as many items as an iterator says that it may have. That may be too much, so
    if it is refused, it asks for room for one more, as a list grows then. If that is refused, it ends."""
    first, again = run.refused, run.again
    if not first or not again or again.size > first.size or again.moves != first.moves:
        return False
    allocating, growing, gathering = (*first.callers[:3], "", "", "")[:3]
    if again.callers[:3] != [allocating, growing, gathering] or not GROWING.fullmatch(growing):
        return False
    if allocating != ("rattle_realloc" if first.moves else "rattle_alloc"):
        return False
    return bool(LIKENING.fullmatch(gathering))


def is_for_pieces(job, run):
    """Whether what was refused first, with all after it, is room to start a thread that makes memory that is written:
    after that nothing is asked for but what starts such threads."""
    return bool(run.refused) and PIECES in job.savers and saver_of(run.function) == PIECES


# What starts the threads of a live run, as the compiler leaves it: the receivers, and those of a round and of the stop.
# Each list of their handles grows as lists do, first to four, and a handle is an address. A round's list of sent pages,
# of a page and a stamp each, grows alike.
RECEIVERS = re.compile(r"live_engine::migration::migrate\b.*")
ROUND = re.compile(r"(?:live_engine::rounds::Migration::run_round|live_engine::stop_and_copy|stop_copy::copying)\b.*")
FOUR = 4 * 8


def told_of_live(run, memory, thread):
    """The lines that a live run may tell of one refused growth: those of `thread` if it was room to start a thread, or
    for its handle; else those of `memory`."""
    if run.function:
        return thread
    if not run.refused or not run.refused.callers:
        return memory
    allocating, growing, asking = (*run.refused.callers[:3], "", "")[:3]
    # Room for a thread is asked of the C library in place, also of one that no run has started so far.
    if not allocating.startswith("rattle_"):
        return thread
    if run.refused.size != FOUR or not GROWING.fullmatch(growing):
        return memory
    return thread if RECEIVERS.fullmatch(asking) else [*memory, *thread] if ROUND.fullmatch(asking) else memory


AGAIN, SAVED = "asked again", "done by the caller"


class Harmless:
    """Tells which growths of a job may be refused and the output come all the same, and from how many places."""

    def __init__(self, job):
        self.job = job
        self.places = {AGAIN: {}, SAVED: {}}

    def kind(self, run):
        """Why the whole output may come, or None. For words that are refused there is one place that gathers
        characters."""
        if is_hint(run):
            kind, most, place = AGAIN, int(self.job.status == 2), run.refused.callers[2]
        elif (saver := saver_of(run.function)) in self.job.savers:
            kind, most, place = SAVED, len(self.job.savers), saver
        else:
            return None
        self.places[kind].setdefault(place, Counter())[str(run.refused)] += 1
        return kind if len(self.places[kind]) <= most else None

    def told(self):
        found = [(kind, told) for kind, places in self.places.items() for told in places.values()]
        return [f"{kind}, {count} times: {growth}" for kind, told in found for growth, count in sorted(told.items())]
