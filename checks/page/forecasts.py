"""What the planner's page says of a plan like QEMU, beside checks/lib/look_model.py."""

from checks.lib.look_model import look_lines
from checks.lib.migration_model import Question
from checks.lib.tally import expect
from checks.lib.traces import Trace
from checks.page.cases import example

# Settings of the example of gzip: the link as a word and in bytes a second, the share of its first round, the limit in
# microseconds, the start and the copy. Migrations like QEMU end within the trace, after it, and begin after it.
SETTINGS = [
    ("8MiB", 8 << 20, 100, 4_000, 400, None),
    ("2MB", 2_000_000, 40, 4_000, 400, None),
    ("600KB", 600_000, 100, 1_000, 400, None),
    ("5KB", 5_000, 100, 4_000, 0, None),
    ("8MiB", 8 << 20, 100, 4_000, 400, 100),
    ("8MiB", 8 << 20, 100, 4_000, 999_999, None),
]


def line_of(question: Question, trace: Trace) -> str:
    """The page's line, which begins with a capital letter; nothing if the migration begins after the trace."""
    return "".join(line[0].upper() + line[1:] for line in look_lines(question, trace))


def told(page) -> str:
    page.browser.wait("isTold('like-qemu')", 20)
    return page.browser.value("textOf('like-qemu')").replace("\u00a0", " ")


def check_forecasts(page):
    """The line on a plan like QEMU is that of a plain model, for each end that such a plan may have."""
    trace, ends = Trace.at(example("gzip.pcwt")), set()
    for word, link, first, downtime, start, base in SETTINGS:
        fragment = f"trace=gzip&link={word}&first={first}&downtime={downtime}us&reserve=0us&start={start}"
        page.ask(f"{fragment}&tick=1ms&sample=all&rounds=30&skip=0&base={'none' if base is None else base}")
        scale = (1_000, trace.size, trace.pages, trace.pages)
        asked = Question(link, None, downtime, 0, *scale, None, 30, start, base, False, clark=True)
        wanted, found = line_of(asked, trace), told(page)
        expect(found == wanted, f"{fragment}: {found!r} in place of {wanted!r}")
        ends.add("none" if not wanted else "cut" if "ends first" in wanted else "few")
    expect(ends == {"none", "cut", "few"}, f"only {ends}")
