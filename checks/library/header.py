"""Trials of include/precopy.h for checks/library: its example, its version, and what it lets a compiler tell."""

import dataclasses
import os
import re

from checks.lib.library_runs import LIBRARY, is_done, program_says, run
from checks.lib.traces import EXAMPLES
from precopy_dev.files import read_bytes, write_file
from precopy_dev.tree import TOP, read
from precopy_tools import version

HEADER = "include/precopy.h"
WARNINGS = ["-Wall", "-Wextra", "-pedantic", "-Werror"]
AROUND = """\
#include <precopy.h>
#include <stdio.h>

int main(void) {{
    static uint8_t trace[1 << 20];
    size_t trace_length = fread(trace, 1, sizeof trace, stdin);
    {}
}}
"""
# Numbers of writes at which the bound of a report's length bends.
EDGES = [1, 2, (1 << 16) - 1, 1 << 16, (1 << 16) + 1, (1 << 20) - 1, 1 << 20, (1 << 20) + 1, 1 << 24]
# Programs that misuse the library, and the warning that tells of it. The first is right.
CALL = "#include <precopy.h>\nvoid f(const struct precopy_settings *it, size_t *page) {{ {} }}\n"
MISUSES = [
    ("if (precopy_check_settings(it) || precopy_missing(NULL, 0, page)) *page = 0;", None),
    ("(void)page; precopy_check_settings(it);", b"unused-result"),
    ("(void)it; precopy_missing(NULL, 0, page);", b"unused-result"),
    ("(void)it; (void)page; precopy_is_zero(NULL, 0);", b"unused-result"),
    ("(void)it; if (precopy_check_settings(NULL)) *page = 0;", b"nonnull"),
    ("(void)it; (void)page; if (precopy_missing(NULL, 0, NULL)) return;", b"nonnull"),
    ("(void)it; size_t n; if (precopy_memory(NULL, 0, NULL, 0, &n, NULL)) *page = n;", b"nonnull"),
    ("(void)it; if (precopy_memory(NULL, 0, NULL, 0, NULL, NULL)) *page = 0;", b"nonnull"),
    ("(void)page; struct precopy_sums sums; if (precopy_trace_plan(NULL, it, &sums)) return;", b"nonnull"),
]


def check_example(tally, folder):
    """The example at the head, over a trace and over none."""
    lines = re.findall(r"^ \*     (.*)$", read(HEADER).partition("What holds")[0], re.M)
    path, built = write_file(AROUND.format("\n    ".join(lines)), folder, "head.c"), os.path.join(folder, "head")
    done = run("cc", "-std=c99", *WARNINGS, f"-I{TOP}/include", "-o", built, path, f"{LIBRARY}/libprecopy.a")
    if is_done(tally, done, "the example at the head of precopy.h is compiled"):
        done = run(built, input=read_bytes(TOP, "examples/gzip.pcwt"))
        tally.add(done.stdout == b"the guest stands still for 5 ticks\n", f"the example at the head prints {done}")
        done = run(built, input=b"none")
        tally.add(done.stderr.startswith(b"trace E1: ") and not done.stdout, f"the example at the head refuses {done}")


def check_version(tally):
    first, second, third = map(int, version.VERSION.split("."))
    told = re.search(r"^#define PRECOPY_VERSION_NUMBER (\d+)$", read(HEADER), re.M)
    good = told and int(told[1]) == first * 10_000 + second * 100 + third
    tally.add(good, f"the version of precopy.h is {told and told[1]}, and that of the tools {version.VERSION}")


def defaults_of(name):
    """The members of a struct of the header, with the numbers that its constant of defaults gives them."""
    header = read(HEADER)
    members = re.findall(r"^    \w+ (\w+);", re.search(rf"struct precopy_{name} {{\n(.*?)\n}};", header, re.S)[1], re.M)
    constant = re.search(rf"define PRECOPY_{name.upper()}_DEFAULT\s*\\?\s*{{sizeof\([^)]*\), ([\d, ]+)}}", header)[1]
    return dict(zip(members[1:], map(int, constant.split(", ")), strict=True))


def check_defaults(tally, program):
    """The defaults in Python are those of the header, and settings without options are those of the program."""
    import precopy  # noqa: PLC0415

    for name, made in (("settings", precopy.Settings()), ("question", precopy.Question(link=0, downtime=0))):
        wanted = defaults_of(name)
        for member in wanted.keys() & {field.name for field in dataclasses.fields(made)}:
            found, is_there = getattr(made, member), wanted.get(f"has_{member}", 1)
            good = found == wanted[member] if is_there else found is None
            tally.add(good, f"in Python the {member} of {name} is {found} without a word, and {wanted} in C")
    for path in EXAMPLES:
        trace = read_bytes(path)
        found, wanted = precopy.report(trace, precopy.Settings()), program_says(program, ["report"], trace)
        tally.add(found.encode() == wanted, f"in Python a report without settings is {found}, not {wanted!r:.500}")


def check_bound(tally, folder):
    """The bound of a report's length is that of Python, and a constant where the length of the trace is one."""
    import precopy  # noqa: PLC0415

    lengths = [0, 1, 15, 16, 31, 32, 47, 48, 1000, *(16 * count + 16 + more for count in EDGES for more in (-1, 0, 1))]
    body = "static uint8_t text[PRECOPY_REPORT_BOUND(1000)];\n    static const size_t lengths[] = {%s};\n    "
    body += 'for (size_t i = 0; i < %d; i++)\n        printf("%%zu\\n", PRECOPY_REPORT_BOUND(lengths[i]));\n    '
    body += "return fread(trace, 1, trace_length, stdin) || sizeof text != PRECOPY_REPORT_BOUND((size_t)1000);"
    path = write_file(AROUND.format(body % (", ".join(map(str, lengths)), len(lengths))), folder, "bound.c")
    built = os.path.join(folder, "bound")
    done = run("cc", "-std=c99", *WARNINGS, f"-I{TOP}/include", "-o", built, path, f"{LIBRARY}/libprecopy.a")
    if is_done(tally, done, "the bound of a report's length is compiled"):
        done = run(built)
        wanted = [precopy._plans.longest_report(length) for length in lengths]
        found = [int(it) for it in done.stdout.split()]
        tally.add(done.returncode == 0 and found == wanted, f"bounds of reports: {found}, and in Python {wanted}")


def check_warnings(tally, folder):
    """A compiler tells of an answer that nobody looks at, and of a null where none may be."""
    for language, suffix in (("c", "c"), ("c++", "cpp")):
        for body, wanted in MISUSES:
            path = write_file(CALL.format(body), folder, f"misuse.{suffix}")
            words = ["-x", language, "-O1", *WARNINGS, f"-I{TOP}/include", "-c", "-o", os.devnull, path]
            done = run("cc", *words)
            good = wanted in done.stderr and done.returncode if wanted else done.returncode == 0
            tally.add(good, f"as {language}, {body}: {done.stderr.decode()}")
