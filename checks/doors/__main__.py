"""Tries what a user touches first: the scripts that build and run, what is installed, the packages.

    checks/run doors [--only PART] [PRECOPY [PRECOPY_VIEW]]

The parts are build, edits, launchers, install, words, completions and packages. What needs a command that is missing,
and that apt-get cannot install, is left out. What a user can call, start, install or ask is a case.
"""

import os
import tempfile
import traceback

from checks.doors import build, completions, install, launchers, packages
from checks.lib.harness import Tally, run_main
from precopy_dev.tree import TOP

PARTS = {
    "build": build.check,
    "edits": install.check_edits,
    "launchers": launchers.check,
    "install": install.check,
    "words": install.check_words,
    "completions": completions.check,
    "packages": packages.check,
}
NEED_PROGRAMS = {"install", "words", "completions", "packages"}


def check(tally, given):
    parts = [part for part in PARTS if not given.only or part in given.only]
    if not parts:
        tally.add(False, f"there is no part {given.only}, of {list(PARTS)}")
    page = os.path.join(TOP, "out", "browser_planner.wasm")
    if not NEED_PROGRAMS.isdisjoint(parts):
        if not os.path.isfile(page):
            tally.add(False, f"there is no {page}; make all page builds it")
            return
        # What is built counts as built from the sources as they are.
        for path in (given.precopy, given.precopy_view, page):
            os.utime(path)
    for part in parts:
        counts = Tally()
        try:
            with tempfile.TemporaryDirectory(prefix="doors-") as folder:
                PARTS[part](counts, folder)
        except Exception:
            counts.add(False, f"{part}: {traceback.format_exc()}")
        print(f"{part}: {counts.passed} passed, {counts.failed} failed", flush=True)
        tally.add_all(counts)


if __name__ == "__main__":
    run_main(check, __doc__, "precopy", "precopy_view")
