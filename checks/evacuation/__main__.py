"""Compares tools/evacuate and the built program precopy-schedule with a plain model.

    checks/run evacuation [--seed N] [--only CASE] [PRECOPY_SCHEDULE [PRECOPY_VIEW]]

500 random tables of plans are given to precopy-schedule, and each byte of its answer is that of the model; tables that
are none are refused by their line. The costs of 500 random sets of guests, with records that the check writes, are
those of a plain planner, at each share. Whole runs of the tool are read back: table, JSON by its schema, picture and
lines. Of 120 random hosts whose guests share a link by those that move, each begin and end is that of a model that goes
by what happens one after the other. Records and settings that it must refuse have their words and status, while the
others are planned. 100 guests have their answer within 5 seconds.
"""

from checks.evacuation import calm_cases, cases, ending_cases, fluid_cases, moving_cases, silent_cases
from checks.lib.harness import run_cases, run_main


def check(tally, given):
    programs = cases.Programs(given.precopy_schedule, given.precopy_view)
    modules = (cases, moving_cases, silent_cases, calm_cases, ending_cases, fluid_cases)
    found = [case for module in modules for case in module.CASES]
    run_cases(tally, found, programs, only=given.only)


if __name__ == "__main__":
    run_main(check, __doc__, "precopy_schedule", "precopy_view")
