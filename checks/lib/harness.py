"""How a check runs: its words and its seed, the commands that it runs, its cases, and its last line."""

import argparse
import contextlib
import inspect
import itertools
import os
import random
import resource
import select
import subprocess
import sys
import tempfile
import time
import traceback
from collections.abc import Callable, Iterable, Iterator
from concurrent.futures import ThreadPoolExecutor
from dataclasses import dataclass

from checks.lib.tally import OF_THREAD, SKIPPED, Failure, Late, LeftOut, Tally, draw_now, drawn_from, expect, left_out
from precopy_dev.tree import TOP, program

SECONDS = 120
SEED = "CHECKS_SEED"
# The file of a check that has the draws with which one of its cases failed once.
KEPT = "failed_seeds.tsv"


# ---- Commands.


@dataclass
class Run:
    """What came of a command: its status (of a signal its number below 0, of one that did not end None), its output and
    its standard error."""

    status: int | None
    output: bytes
    faults: bytes

    def ended(self) -> str:
        return "did not end" if self.status is None else f"status {self.status}"

    def __str__(self) -> str:
        told = f"{len(self.output)} bytes of output {self.output[:80]!r}, standard error {self.faults[:300]!r}"
        return f"{self.ended()}, {told}"


def run(command: list[str], text: bytes = b"", seconds: float = SECONDS, **how) -> Run:
    """Runs a command over a text, or over a file if there is a `stdin`."""
    given = {} if "stdin" in how else {"input": text}
    how = {"stdout": subprocess.PIPE, "stderr": subprocess.PIPE, "timeout": seconds, **given, **how}
    try:
        done = subprocess.run(command, **how)
        return Run(done.returncode, done.stdout or b"", done.stderr or b"")
    except subprocess.TimeoutExpired as late:
        return Run(None, late.stdout or b"", late.stderr or b"")


def waited(holds: Callable[[], object], seconds: float, rest: float = 0.02):
    """Waits until something holds, for so long at most. Returns what it was last."""
    end = time.monotonic() + seconds
    while not (found := holds()) and time.monotonic() < end:
        time.sleep(rest)
    return found


@contextlib.contextmanager
def closed_pipe() -> Iterator[int]:
    """A pipe to write to, whose reader is gone. A run that is being started beside this one may hold the reader for a
    moment."""
    reader, writer = os.pipe()
    os.close(reader)
    poll = select.poll()
    poll.register(writer, 0)
    poll.poll(1000 * SECONDS)
    yield writer
    os.close(writer)


def all_files_held() -> list[int]:
    """Opens as many files as this process may then have open, which are few, and returns them."""
    resource.setrlimit(resource.RLIMIT_NOFILE, (64, 64))
    held = []
    with contextlib.suppress(OSError):
        while True:
            held.append(os.open(os.devnull, os.O_RDONLY))
    return held


# ---- Seeds.


def seed() -> int:
    """What this run draws from. It is drawn at first, and told."""
    if SEED not in os.environ:
        os.environ[SEED] = str(random.SystemRandom().randrange(1 << 32))
        print(f"seed {os.environ[SEED]}", flush=True)
    return int(os.environ[SEED])


class Draw(random.Random):
    """Random numbers of one case: the number, the kind and the seed tell what it draws, whatever else is drawn."""

    def __init__(self, kind: str, number: int, of_seed: int):
        super().__init__(f"{kind} {number} {of_seed}")
        self.kind, self.number, self.seed_of_run = kind, number, of_seed

    def __str__(self) -> str:
        return f"{self.kind} {self.number} of seed {self.seed_of_run}"

    def __reduce__(self):
        return Draw, (self.kind, self.number, self.seed_of_run)

    @property
    def line(self) -> str:
        return f"{self.kind}\t{self.number}\t{self.seed_of_run}"


# The lines of the draws that this run took.
DRAWN: set[str] = set()


def folder_of_check() -> str:
    return os.path.dirname(sys.argv[0])


def kept_lines() -> list[str]:
    """The lines of the draws with which a case of this check failed once, each of which has a reason behind it."""
    path = os.path.join(folder_of_check(), KEPT)
    if not os.path.exists(path):
        return []
    with open(path, encoding="utf-8") as file:
        rows = [line.rstrip("\n").split("\t") for line in file if not line.startswith("#")]
    expect(all(len(row) == 4 and row[3] for row in rows), f"{path}: a kind, a number, a seed and a reason, by tabs")
    return ["\t".join(row[:3]) for row in rows]


def drawn(kind: str, numbers: Iterable[int]) -> Iterator[Draw]:
    """The draws of the cases of a kind that have these numbers. Before them come those that failed once. Of a case that
    fails in the loop over them the draw is told, so the loop has no break."""
    kept = [line.split("\t")[1:] for line in kept_lines() if line.startswith(f"{kind}\t")]
    for number, of_seed in itertools.chain(kept, ((number, seed()) for number in numbers)):
        draw = Draw(kind, int(number), int(of_seed))
        DRAWN.add(draw.line)
        OF_THREAD.draw = draw
        yield draw
    OF_THREAD.draw = None


def draws(name: str) -> Draw:
    """Random numbers of a case of run_cases. It is tried once more with each draw of this name that failed once."""
    OF_THREAD.draw = draw = Draw(name, 0, OF_THREAD.seeds[name] if name in OF_THREAD.seeds else seed())
    OF_THREAD.names.add(name)
    DRAWN.add(draw.line)
    return draw


def tell_failed_draws(tally: Tally) -> None:
    """Says which lines keep the draws with which cases failed."""
    kept, name = kept_lines(), os.path.basename(folder_of_check())
    for line in dict.fromkeys(tally.failed_draws):
        if line not in kept:
            print(f"  KEEP it as a case by a line of checks/{name}/{KEPT}: {line}\tWHY", flush=True)


def expect_all_drawn() -> None:
    left = [line for line in kept_lines() if line not in DRAWN]
    expect(not left, f"{KEPT}: nothing is drawn by {left}")


# ---- Cases.


def is_case(it, module: str) -> bool:
    if not inspect.isfunction(it) or it.__module__ != module:
        return False
    words = list(inspect.signature(it).parameters.values())
    names, others = tuple(word.name for word in words[:2]), words[2:]
    is_free = all(word.default is not word.empty or word.kind is word.VAR_POSITIONAL for word in others)
    return (
        names[:1] in (("program",), ("programs",), ("_",)) and names[1:] in (("folder",), ("_",), ("__",)) and is_free
    )


def cases_of(module: str) -> list:
    """The cases of a module, in their order: its functions of the program or programs and of a folder of their own. One
    that does not use one of them names it _ or __."""
    return [it for it in vars(sys.modules[module]).values() if is_case(it, module)]


def outcome(case, words: tuple) -> Failure | None:
    """What is wrong with a case in a folder of its own, or why it is left out; None if it passes. It is tried again
    with the draws that failed once, if it has draws of their names."""
    OF_THREAD.names, OF_THREAD.seeds = set(), {}
    wrong = outcome_of_one(case, words)
    for name, _, of_seed in (line.split("\t") for line in kept_lines()):
        if name in OF_THREAD.names and not wrong:
            OF_THREAD.seeds = {name: int(of_seed)}
            wrong = outcome_of_one(case, words)
    return wrong


def outcome_of_one(case, words: tuple) -> Failure | None:
    """The same, by the draws of OF_THREAD.seeds, or of this run."""
    with tempfile.TemporaryDirectory() as folder, drawn_from(None):
        try:
            case(*words, folder)
        except Exception as fault:
            wrong = fault if isinstance(fault, Failure) else Failure(traceback.format_exc())
            wrong.draw = draw_now()
            return wrong
    return None


def run_cases(tally: Tally, cases, *words, at_once: int = 1, only=None) -> None:
    """Runs cases, which are functions of these words and of a folder. One in which something was late beside others is
    tried once more, alone: if it passes then, both outputs are told."""
    cases = [case for case in cases if not only or case.__name__ in only]
    again = []

    def add(case, wrong, is_last):
        if isinstance(wrong, LeftOut):
            left_out(case.__name__, wrong)
        elif isinstance(wrong, Late) and not is_last:
            again.append((case, wrong))
        else:
            tally.add(wrong is None, f"{case.__name__}: {wrong}", wrong and wrong.draw, isinstance(wrong, Late))

    with ThreadPoolExecutor(at_once) as pool:
        for case, wrong in zip(cases, pool.map(lambda case: outcome(case, words), cases)):
            add(case, wrong, False)
    for case, wrong in again:
        begun, second = time.monotonic(), outcome(case, words)
        add(case, second, True)
        if second is None:
            tally.flaky.append(case.__name__)
            took = time.monotonic() - begun
            print(f"  FLAKY {case.__name__}: it failed: {wrong}\n    and passed alone, in {took:.0f} s", flush=True)


# ---- A check.


def arguments(doc: str, programs: tuple[str, ...], more) -> argparse.Namespace:
    name = f"checks/run {os.path.basename(os.path.dirname(sys.argv[0]))}"
    parser = argparse.ArgumentParser(prog=name, description=doc, formatter_class=argparse.RawDescriptionHelpFormatter)
    parser.add_argument("--seed", type=int, metavar="N", help="what is drawn is drawn from it, as an earlier run told")
    parser.add_argument("--only", action="append", metavar="CASE", help="a case of a check whose cases have names")
    if more:
        more(parser)
    for name in programs:
        default = program(name)
        parser.add_argument(name, metavar=name.upper(), nargs="?", default=default, help=os.path.relpath(default, TOP))
    given = parser.parse_args()
    for name in programs:
        setattr(given, name, os.path.abspath(getattr(given, name)))
    return given


def main(check, doc: str, *programs: str, more=None) -> int:
    """Runs check(tally, given) with what the words say. Programs are those of crates: each is given by its path, or is
    the built one. The last line has the counts; the status is 0 if something was tried, or left out, and all held."""
    given, tally = arguments(doc, programs, more), Tally()
    if given.seed is not None:
        os.environ[SEED] = str(given.seed)
    missing = [name for name in programs if not os.access(getattr(given, name), os.X_OK)]
    for name in missing:
        tally.add(False, f"there is no program {getattr(given, name)}; dev/build {name} builds it")
    if not missing:
        try:
            check(tally, given)
            # What is left out may be what has such draws.
            if kept_lines() and not given.only and not SKIPPED:
                tally.tries("draws that failed once", expect_all_drawn)
        except Exception:
            tally.add(False, traceback.format_exc())
    tell_failed_draws(tally)
    good = not tally.failed and (tally.passed or "skipped" in str(tally))
    if tally.flaky:
        print(f"{len(tally.flaky)} flaky: {', '.join(tally.flaky)}")
    print(tally, flush=True)
    return 0 if good else 1


def run_main(check, doc: str, *programs: str, more=None) -> None:
    sys.exit(main(check, doc, *programs, more=more))


__all__ = [
    "Draw",
    "Failure",
    "LeftOut",
    "Run",
    "Tally",
    "cases_of",
    "closed_pipe",
    "drawn",
    "draws",
    "expect",
    "left_out",
    "run",
    "run_cases",
    "run_main",
    "seed",
    "waited",
]
