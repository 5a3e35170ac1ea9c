"""Cases of checks/harness about what is counted and told."""

import os
import re
import shutil
import sys

from checks.harness.small import small_check
from checks.lib.harness import Run, cases_of, expect, run
from checks.lib.tally import LATE, LeftOut, need
from checks.recording import known_pages
from precopy_dev.files import write_file
from precopy_dev.tree import TOP


def expect_told(done: Run, status: int, last: str, *told: str) -> None:
    text = done.output.decode()
    expect(
        done.status == status and text.splitlines()[-1:] == [last], f"{last!r}, status {status} wanted: {done}\n{text}"
    )
    for each in told:
        expect(each in text, f"{each!r} is not told: {text}")


def counts(_, folder):
    body = 'def check(tally, given):\n    tally.add(True, "one")\n    tally.add({}, "two")\n'
    expect_told(small_check(folder, body.format(True)), 0, "2 passed, 0 failed")
    expect_told(small_check(folder, body.format(False)), 1, "1 passed, 1 failed", "  FAILED two\n")


def nothing_tried(_, folder):
    """A check and a case that try nothing fail."""
    expect_told(small_check(folder, "def check(tally, given):\n    pass\n"), 1, "0 passed, 0 failed")
    body = 'def check(tally, given):\n    tally.add(True, "one")\n    with tally.case("two"):\n        pass\n'
    expect_told(small_check(folder, body), 1, "1 passed, 1 failed", "  FAILED two: nothing was tried")


def several_expectations(_, folder):
    """A case of several expectations is one case, and each that does not hold is told."""
    body = """\
def check(tally, given):
    with tally.case("a case") as case:
        for number in range(5):
            case.add(number % 2, f"number {number}")
"""
    done = small_check(folder, body)
    expect_told(done, 1, "0 passed, 1 failed", "  FAILED a case: number 0\n    number 2\n    number 4\n")


EXCEPTIONS = (
    "def check(tally, given):\n    1 / 0\n",
    'def check(tally, given):\n    with tally.case("a case") as case:\n        case.add(True, "")\n        1 / 0\n',
    'def check(tally, given):\n    tally.tries("a case", lambda: 1 / 0)\n',
    "def a_case(_, folder):\n    1 / 0\n\n\ndef check(tally, given):\n    run_cases(tally, [a_case], None)\n",
)


def exceptions(_, folder):
    """One that nobody expects fails its case, with its trace."""
    for body in EXCEPTIONS:
        told = "Traceback (most recent call last):", "ZeroDivisionError"
        expect_told(small_check(folder, body), 1, "0 passed, 1 failed", "  FAILED ", *told)


def cases_left_out(_, folder):
    """What cannot be tried is counted, with its reason, and is no failure."""
    body = """\
def a_case(_, folder):
    raise LeftOut("there is no\\nsuch tool")


def check(tally, given):
    run_cases(tally, [a_case], None)
    with tally.case("another"):
        raise LeftOut("nor this")
    left_out("a third", "nor that")
"""
    told = "a_case: there is no such tool", "another: nor this", "a third: nor that"
    done = small_check(folder, body)
    expect_told(done, 0, "0 passed, 0 failed, 3 skipped", *(f"  SKIPPED {each}\n" for each in told))


def tried_again(_, folder):
    """Only what is late is tried again, once; if it is in time then, that is told with both outputs."""
    body = """\
tries = []


def a_case(_, folder):
    tries.append(1)
    {}


def check(tally, given):
    run_cases(tally, [a_case], None)
    print(len(tries), "tries")
"""
    done = small_check(folder, body.format('expect_in_time(len(tries) > 1, "it was late")'))
    told = "1 flaky: a_case\n", "FLAKY a_case: it failed: it was late\n    and passed alone, in ", "2 tries\n"
    expect_told(done, 0, "1 passed, 0 failed", *told)
    done = small_check(folder, body.format('expect_in_time(False, "it was late")'))
    expect_told(done, 1, "0 passed, 1 failed", f"  FAILED a_case: it was late\n    {LATE}\n", "2 tries\n")
    done = small_check(folder, body.format('expect(len(tries) > 1, "it is wrong")'))
    expect_told(done, 1, "0 passed, 1 failed", "  FAILED a_case: it is wrong\n", "1 tries\n")
    expect(not re.search(b"flaky|FLAKY|late", done.output), f"{done}")


def late_in_part(_, folder):
    """A case is late if nothing else is wrong with it."""
    body = """\
def check(tally, given):
    with tally.case("a case") as case:
        case.add({}, "it is wrong")
        expect_in_time(False, "it was late")
"""
    done = small_check(folder, body.format(True))
    expect_told(done, 1, "0 passed, 1 failed", f"  FAILED a case: it was late\n    {LATE}\n")
    done = small_check(folder, body.format(False))
    expect_told(done, 1, "0 passed, 1 failed", "  FAILED a case: it is wrong\n    it was late\n")
    expect(LATE not in done.output.decode(), f"{done}")


# Checks of which little can be tried without some tools: their words, and how much they try and leave out.
PROGRAM = [sys.executable]
WITHOUT_TOOLS = (("baselines", PROGRAM, 0, 1), ("qemu", PROGRAM, 0, 1), ("lint", [], 2, 7))
FEW_TOOLS = ("sh", "dirname", "readlink", "git", "env")


def expect_left_out(name, words, tried, count, reason, **how):
    """A check that can be tried only in part says how much of it is not, and why."""
    done = run([os.path.join(TOP, "checks", "run"), name, *words], **how)
    expect_told(done, 0, f"{tried} passed, 0 failed, {count} skipped")
    reasons = re.findall(rb"^  SKIPPED .*: " + reason + rb"$", done.output, re.M)
    expect(len(reasons) == count, f"{name}: {done.output}")


def few_tools(folder):
    """An environment with few tools, into which none can be installed."""
    os.symlink(sys.executable, os.path.join(folder, "python3"))
    for name in FEW_TOOLS:
        os.symlink(shutil.which(name), os.path.join(folder, name))
    return {**os.environ, "PATH": folder}


def need_built(*path):
    """Leaves the case out where what a check would build first is not built."""
    if not os.path.exists(os.path.join(TOP, *path)):
        raise LeftOut(f"{os.path.join(*path)} is not built here")


def without_tools(_, folder):
    environment = few_tools(folder)
    for name, words, tried, count in WITHOUT_TOOLS:
        expect_left_out(
            name, words, tried, count, rb"there is no [\w-]+, and .* could not be installed", env=environment
        )


def without_browsers(_, folder):
    need_built("out", "browser_planner.wasm")
    reason = rb"there is no (?:node with 64-bit memory|[\w-]+, and .* could not be installed)"
    expect_left_out("page", PROGRAM, 9, 4, reason, env=few_tools(folder))


def without_userfaultfd(_, __):
    """Where the kernel does not have the system call."""
    need_built("out", "library", "libprecopy.a")
    need("cc", "make")
    reason = rb"sender: status 3, sender: pages cannot be watched .*: Function not implemented"
    expect_left_out("sending", PROGRAM, 5, 2, reason, preexec_fn=lambda: known_pages.filtered(known_pages.IS_NONE))


def of_another_tree(_, folder):
    """A check that is run in another tree takes nothing from there."""
    os.makedirs(os.path.join(folder, "checks"))
    write_file('raise SystemExit("another tree")\n', folder, "checks", "__init__.py")
    done = run([os.path.join(TOP, "checks", "run"), "words", "--help"], cwd=folder)
    expect(done.status == 0 and done.output.startswith(b"usage: checks/run words "), f"{done}")


# Stands for apt-get: whether it can update is its status, and it installs nothing.
NO_PACKAGES = """\
#!/bin/sh
[ "$4" != update ] || exit {}
exit 1
"""


def tools_that_are_not_installed(_, folder):
    """A tool that is not installed fails its case where packages can be had; elsewhere the case is left out."""
    if os.geteuid() != 0:
        raise LeftOut("only root installs packages")
    body = """\
from checks.lib.tally import need


def a_case(_, folder):
    need("valgrind")


def check(tally, given):
    run_cases(tally, [a_case], None)
"""
    path = os.path.join(folder, "apt-get")
    for status, ends, last, told in (
        (0, 1, "0 passed, 1 failed", "  FAILED a_case: apt-get works, and does not install valgrind\n"),
        (100, 0, "0 passed, 0 failed, 1 skipped", "  SKIPPED a_case: there is no valgrind, and valgrind could not be"),
    ):
        write_file(NO_PACKAGES.format(status), path)
        os.chmod(path, 0o755)
        expect_told(small_check(folder, body, PATH=folder), ends, last, told)


CASES = cases_of(__name__)
