"""Compares what precopy writes with what two other programs in Rust write, over small traces of every kind.

    checks/run baselines [PRECOPY]

bench/README.md tells of them. It needs cargo, but no network. An output that was compared is a case;
there must be at least 600.
"""

import os
import re

from checks.lib.harness import run, run_main
from checks.lib.tally import left_out, why_not
from precopy_dev.tree import TOP

SECONDS, LEAST = 1200, 600


def check(tally, given):
    if why := why_not("cargo"):
        left_out("the outputs of two other programs", why)
        return
    done = run([os.path.join(TOP, "bench", "run"), "--quick", "--program", given.precopy], seconds=SECONDS)
    told = (done.output + done.faults).decode(errors="replace")
    equal = re.search(r"^\.*([0-9]+) outputs compared and equal, 0 faults$", told, re.M)
    if done.status == 0 and equal and int(equal[1]) >= LEAST:
        tally.passed += int(equal[1])
    else:
        tally.add(False, "\n".join([f"bench/run: {done.ended()}", *told.splitlines()[-40:]]))


if __name__ == "__main__":
    run_main(check, __doc__, "precopy")
