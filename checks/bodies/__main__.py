"""Tries the tests: they pass on this code, and on a wrong body that only tests refuse exactly those fail that it names.

    checks/run bodies [--list] [--seconds N] [--seed N] [--today] [WORD ...]

A wrong body of crates/NAME/wrong-bodies (CONTRIBUTING.md) that tests refuse has lines 'tests: CRATE TEST ..', which
name the tests of one crate that fail on it. A test that does not end within N seconds, 40 if none are given, fails.
WORD picks the bodies whose names contain it; if none is given, all are tried. Of these --today takes one, which the
seed tells, but none of LONG. Nothing is proved, and nothing in this folder changes: the tests run in a copy elsewhere.
The tests of a crate are a case, and so is a body.
"""

import re
import shutil
import subprocess
import tempfile

from checks.lib.harness import Draw, Failure, expect, run_main, seed
from precopy_dev.edits.files import TESTS, TOP, BadEdit, crates, read_edits, text_of
from precopy_dev.files import write_file

SECONDS = 40
# How many of its last lines are shown if the tests did not run.
SHOWN = 12
# Bodies on which six tests or more wait in vain, so that they take longer than others: the gate's time stays as it is.
LONG = "live_run_in_sequence"


def read_bodies(words):
    """Returns the bodies whose names contain a word, or all if there is none, in order of their tests' crates."""

    def stop(name, why):
        raise Failure(f"{name}: {why}")

    bodies = [edit for crate in crates() for edit in read_edits(crate, stop) if edit.kind == TESTS]
    chosen = [body for body in bodies if not words or any(word in str(body) for word in words)]
    return sorted(chosen, key=lambda body: (body.tested, str(body)))


def of_today(bodies):
    """One of the bodies, by the seed."""
    fit = [body for body in bodies if not body.name.startswith(LONG)]
    expect(fit, "there is no such body")
    body = Draw("body of a day", 0, seed()).choice(fit)
    print(f"of {len(bodies)} bodies today's is {body}", flush=True)
    return [body]


def copy_sources(room):
    """Copies what the tests are compiled from."""
    for name in ("crates.txt", "HANDLES"):
        shutil.copy2(f"{TOP}/{name}", room)
    skip = shutil.ignore_patterns("out", "must-fail")
    shutil.copytree(f"{TOP}/crates", f"{room}/crates", ignore=skip)


def run_tests(room, crate, seconds):
    """Runs all tests of a crate unproved. Returns the names of those that passed, and of those that failed."""
    words = ["rt", "try", "--test", "--seconds", str(seconds)]
    pipes = {"stdout": subprocess.PIPE, "stderr": subprocess.STDOUT, "text": True, "errors": "replace"}
    told = subprocess.run(words, cwd=f"{room}/crates/{crate}", **pipes).stdout
    found = dict(re.findall(r"^test (\S+) \.\.\. (ok|FAILED)$", told, re.M))
    counts = re.search(r"^test result: .*?(\d+) passed; (\d+) failed;", told, re.M)
    if not counts or len(found) != int(counts[1]) + int(counts[2]):
        raise Failure("\n    ".join(["the tests did not run:", *told.splitlines()[-SHOWN:]]))
    passed = {name for name, ended in found.items() if ended == "ok"}
    return passed, {*found} - passed


def try_unchanged(room, crate, bodies, seconds):
    """Wants all tests of a crate to pass on the code as it is, and each test that a body names to be one of them."""
    passed, failed = run_tests(room, crate, seconds)
    if failed:
        raise Failure(f"fail without a wrong body: {' '.join(sorted(failed))}")
    for body in bodies:
        if body.tests - passed:
            raise Failure(f"{body} names tests that are not there: {' '.join(sorted(body.tests - passed))}")
    return f"all {len(passed)} tests pass"


def write(room, texts):
    for path, text in texts.items():
        write_file(text, f"{room}/{path}")


def try_body(room, body, seconds):
    """Puts a body in place, wants exactly the tests that it names to fail, and puts the code back."""
    try:
        wrong = body.put_in(room)
    except BadEdit as bad:
        raise Failure(str(bad)) from None
    right = {path: text_of(room, path) for path in wrong}
    try:
        write(room, wrong)
        passed, failed = run_tests(room, body.tested, seconds)
    finally:
        write(room, right)
    if failed != body.tests:
        told = [f"{name} passes" for name in sorted(body.tests & passed)]
        told += [f"{name} fails too" for name in sorted(failed - body.tests)]
        raise Failure(", ".join(told))
    return f"fails {len(failed)} of {len(failed) + len(passed)} tests of {body.tested}, as it must"


def tried(tally, name, work, *words):
    """Does a piece of work, which is a case. Returns whether it passed."""
    failed = tally.failed
    with tally.case(name) as case:
        print(f"{name}: {work(*words)}", flush=True)
        case.add(True, name)
    return tally.failed == failed


def try_bodies(tally, bodies, seconds):
    """Tries the bodies, crate by crate of their tests, each crate first without any."""
    with tempfile.TemporaryDirectory(prefix="bodies-") as room:
        copy_sources(room)
        for crate in sorted({body.tested for body in bodies}):
            here = [body for body in bodies if body.tested == crate]
            if not tried(tally, crate, try_unchanged, room, crate, here, seconds):
                tally.add(False, f"{' '.join(map(str, here))}: not tried")
                continue
            for body in here:
                tried(tally, str(body), try_body, room, body, seconds)


def more(parser):
    parser.add_argument("--list", action="store_true", help="name the bodies and the tests that fail on them")
    parser.add_argument("--seconds", type=int, default=SECONDS, help=f"how long a test may take; {SECONDS}")
    parser.add_argument("--today", action="store_true", help="one of the bodies, by the seed")
    parser.add_argument("word", nargs="*", help="a part of the name of a body")


def check(tally, given):
    bodies = read_bodies(given.word)
    if given.today:
        bodies = of_today(bodies)
    if given.list:
        for body in bodies:
            print(f"{body}: {body.tested}: {' '.join(sorted(body.tests))}")
        tally.add(bodies, "there is no such body")
        return
    expect(shutil.which("rt"), "the toolchain's command rt is not on the path")
    try_bodies(tally, bodies, given.seconds)


if __name__ == "__main__":
    run_main(check, __doc__, more=more)
