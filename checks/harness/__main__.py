"""Tries what all checks share: how they count, tell, leave out, try again and draw, and how the gate adds them up.

    checks/run harness [--only CASE]

Small checks are written, of which it is known what must be told of them. .ci/run runs in a tree in which all that it
calls is a script that says what the case wants.
"""

from checks.harness import draw_cases, gate_cases, tally_cases
from checks.lib.harness import run_cases, run_main


def check(tally, given):
    run_cases(tally, (*tally_cases.CASES, *draw_cases.CASES, *gate_cases.CASES), None, only=given.only)


if __name__ == "__main__":
    run_main(check, __doc__)
