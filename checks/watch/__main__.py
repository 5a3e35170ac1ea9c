"""Watches stand-ins for QEMU by tools/watch, and looks at what it records, predicts and tells Prometheus.

    checks/run watch [--seed N] [--only CASE] [PRECOPY_VIEW]

The guests are those of checks/recording, whose writes are known. Where Debian's prometheus and node exporter are, they
read what is told, and every expression of the alerts and of the dashboard is asked. It takes half a minute.
"""

from checks.lib.harness import run_cases, run_main
from checks.watch import exporter_cases, guest_cases, word_cases

CASES = [*guest_cases.CASES, *exporter_cases.CASES, *word_cases.CASES]
AT_ONCE = 4


def check(tally, given):
    run_cases(tally, CASES, given.precopy_view, at_once=AT_ONCE, only=given.only)


if __name__ == "__main__":
    run_main(check, __doc__, "precopy_view")
