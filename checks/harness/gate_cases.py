"""Cases of checks/harness about the gate: what .ci/run makes of what its steps say, and of their statuses."""

import datetime
import os
import shutil

from checks.lib.harness import SEED, Run, cases_of, expect, run
from checks.lib.tally import LATE
from precopy_dev.files import write_file
from precopy_dev.tree import TOP

# Says what a case wants of a step, or that it passed; when the page is tried again, what is wanted of that.
STEP = """\
#!/bin/sh
name=$1
case $* in *--only*) name=${name}_elsewhere ;; esac
echo "drawn from $CHECKS_SEED"
[ -f "said/$name" ] || { echo "1 passed, 0 failed"; exit 0; }
cat "said/$name"
status=$(cat "said/$name.status")
[ "$name" != page ] || [ ! -f said/again ] || { mv said/again said/page; mv said/again.status said/page.status; }
exit "$status"
"""
WELL = "#!/bin/sh\nexit 0\n"


def gate(folder: str, *words: str, **said: tuple[int, str]) -> Run:
    """Runs the gate with steps that have a status and say something."""
    top = os.path.join(folder, "tree")
    shutil.rmtree(top, ignore_errors=True)
    scripts = {
        "checks/run": STEP,
        "dev/measured": STEP.replace("$1", "gate"),
        "dev/build": WELL,
        "dev/page-module": WELL,
    }
    for path, text in scripts.items():
        put(os.path.join(top, path), text)
    put(os.path.join(top, "Makefile"), "lib:\n\ttrue\n")
    put(os.path.join(top, ".ci", "run"), "")
    shutil.copy(os.path.join(TOP, ".ci", "run"), os.path.join(top, ".ci", "run"))
    for name, (status, text) in said.items():
        put(os.path.join(top, "said", name), text)
        put(os.path.join(top, "said", f"{name}.status"), f"{status}")
    environment = {name: value for name, value in os.environ.items() if name != SEED}
    return run([os.path.join(top, ".ci", "run"), *words], env=environment)


def put(path: str, text: str) -> None:
    os.makedirs(os.path.dirname(path), exist_ok=True)
    write_file(text, path)
    os.chmod(path, 0o755)


def counts_of(done: Run) -> list[int]:
    """What the last line says passed, failed, and was left out."""
    last = done.output.decode().splitlines()[-1]
    words = last.split()
    expect(words[1::2] == ["passed,", "failed,", "skipped"], f"the last line is {last!r}: {done}")
    return [int(word) for word in words[::2]]


def expect_gate(done: Run, status: int, *counts: int, told: tuple[str, ...] = ()) -> None:
    expect(
        done.status == status and counts_of(done) == list(counts), f"{counts}, status {status} wanted: {done.output}"
    )
    for each in told:
        expect(each in done.output.decode(), f"{each!r} is not told: {done.output.decode()}")


def all_passed(folder: str) -> int:
    """How many steps the gate has, each of which says that a case passed."""
    done = gate(folder)
    count = counts_of(done)[0]
    expect(count > 15 and done.status == 0, f"{done.output}")
    expect_gate(done, 0, count, 0, 0)
    return count


def failures(_, folder):
    """Whatever a step says, it fails if its status is not 0, and if it says a failure, or no count at all."""
    others = all_passed(folder) - 1
    for name in ("view", "load", "edits"):
        expect_gate(gate(folder, **{name: (1, "5 passed, 2 failed\n")}), 1, others + 5, 2, 0, told=(f"{name} failed:",))
        expect_gate(gate(folder, **{name: (0, "5 passed, 2 failed\n")}), 1, others + 5, 2, 0, told=(f"{name} failed:",))
        expect_gate(gate(folder, **{name: (1, "5 passed, 0 failed\n")}), 1, others + 5, 1, 0, told=(f"{name} failed:",))
        expect_gate(gate(folder, **{name: (0, "well\n")}), 1, others, 1, 0, told=(f"{name} failed:",))
    expect(gate(folder, gate=(3, "1 passed, 4 failed\n")).status == 3, "the status of the test command")
    done = gate(folder, gate=(0, "well\n"))
    expect(done.status == 1, f"a test command that tries nothing: {done.output}")


LATE_PAGE = f"  FAILED a button: it is slow\n    {LATE}\n5 passed, 1 failed\n"


def a_page_again(_, folder):
    """The page is tried once more, alone, if all that failed was late; what was wrong is not."""
    again = b"checks/page is tried once more, alone\n"
    done = gate(folder, page=(1, LATE_PAGE))
    expect(done.status == 1 and done.output.count(again) == 1, f"{done.output}")
    for wrong in ("  FAILED a button: it is wrong\n", "Killed\n"):
        done = gate(folder, page=(1, wrong + LATE_PAGE if wrong[:2] == "  " else wrong))
        expect(done.status == 1 and again not in done.output, f"{done.output}")


def a_page_that_was_late(_, folder):
    """That it passed when it was tried again is told with what failed, and counted."""
    others = all_passed(folder) - 1
    done = gate(folder, page=(1, LATE_PAGE), again=(0, "6 passed, 0 failed\n"))
    told = "  FAILED a button: it is slow\n", "FLAKY page: it failed, as shown above, and passed alone\n", "\n1 flaky\n"
    expect_gate(done, 0, others + 6, 0, 0, told=told)


def left_out_and_flaky(_, folder):
    """What was left out is counted, and told again with its reason, as is what passed when it was tried again."""
    others = all_passed(folder) - 2
    said = {"view": (0, "  SKIPPED a case: no tool\n0 passed, 0 failed, 2 skipped\n")}
    said |= {"load": (0, "  FLAKY a run: it was late\n1 flaky: a run\n3 passed, 0 failed\n")}
    told = "SKIPPED view: a case: no tool\n", "FLAKY load: a run: it was late\n1 flaky\n"
    done = gate(folder, **said)
    expect_gate(done, 0, others + 3, 0, 2, told=told)
    expect(
        done.output.index(told[1].encode()) > done.output.rindex(b"checks/"), f"it is not told at last: {done.output}"
    )
    done = gate(folder, "--all", **said)
    expect_gate(done, 1, others + 3, 0, 2, told=("with --all nothing may be left out",))


def today() -> str:
    return f"{datetime.datetime.now(datetime.timezone.utc):%Y%m%d}"


def seeds(_, folder):
    """The gate tells its seed first, which is the day, or is given. Each step has it."""
    before, done = today(), gate(folder)
    days = dict.fromkeys([before, today()])
    for told, wanted in ((done, days), (gate(folder, "--seed", "7"), ["7"])):
        first, *lines = told.output.decode().splitlines()
        expect(first in [f"seed {seed}" for seed in wanted], f"the first line is {first!r}")
        drawn = [line for line in lines if line.startswith("drawn from ")]
        expect(drawn == [first.replace("seed", "drawn from")] * counts_of(told)[0], f"{first}, and {drawn}")


def words(_, folder):
    done = gate(folder, "--none")
    expect(done.status == 2 and b"there is no option --none" in done.faults, f"{done}")


CASES = cases_of(__name__)
