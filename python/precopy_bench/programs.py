"""What must be there before anything is measured: the other programs, the traces, and a setting of the C library; and
the options that say where they are."""

import argparse
import os
import re
import subprocess
import sys
import tempfile

from precopy_bench import jobs as work
from precopy_bench.measuring import Fault
from precopy_dev.files import read_json
from precopy_dev.packaging import launcher
from precopy_dev.tree import TOP
from precopy_dev.words import parser_of

# Where traces are, if nothing else is said.
TRACES = os.path.join(tempfile.gettempdir(), "precopy-bench")


def at_least_1(word):
    if not word.isdecimal() or int(word) < 1:
        raise argparse.ArgumentTypeError("it has to be at least 1")
    return int(word)


def pattern(word):
    try:
        return re.compile(word)
    except re.error as fault:
        raise argparse.ArgumentTypeError(f"it is no regular expression: {fault}") from fault


def timing_parser(name, doc, runs, row, crate="precopy"):
    """The options of a command that times the program of a crate over traces, in runs of rows such as `row`."""
    parser, program = parser_of(f"bench/{name}", doc), os.path.join(TOP, "crates", crate, "out", crate)
    add = parser.add_argument
    add("-n", type=at_least_1, default=runs, metavar="RUNS", help=f"measured runs of each program, {runs} by default")
    add("--only", type=pattern, default="", metavar="REGEX", help=f"matched against a row's name, as '^{row}'")
    add("--program", default=program, metavar="PATH", help=f"{crate}, as it is built by default")
    add("--traces", default=TRACES, metavar="DIR", help=f"where traces are, {TRACES} by default")
    add("--json", metavar="PATH", help="write the figures for bench/summary, too")
    return parser


def sampling_parser(name, doc, names, samples, told):
    """The options of a command that draws pages of traces; how many samples there are is the option `samples`."""
    parser = parser_of(f"bench/{name}", doc)
    add = parser.add_argument
    add("names", nargs="*", metavar="NAME", default=names, help=f"traces of bench/workloads{told}")
    add("--traces", default=TRACES, metavar="DIR", help=f"where they go, {TRACES} by default")
    add(f"--{samples}", type=int, default=200, metavar="N", help="samples of each case (200)")
    add("--sampled", type=int, default=1024, metavar="M", help="pages of a sample (1024)")
    return parser


def large_pages():
    """The setting of the C library by which ./precopy runs the program."""
    return os.environ.get("GLIBC_TUNABLES", launcher.large_pages())


def built():
    """Builds the other programs, and returns where they are."""
    manifest = os.path.join(TOP, "bench", "baselines", "Cargo.toml")
    target = os.path.join(TOP, "bench", "baselines", "target")
    words = ["cargo", "build", "--quiet", "--release", "--offline", "--manifest-path", manifest, "--target-dir", target]
    try:
        subprocess.run(words, check=True, stdout=sys.stderr)
    except (OSError, subprocess.CalledProcessError) as fault:
        raise Fault(f"the other programs cannot be built: {fault}") from fault
    return {name: os.path.join(target, "release", name) for name in ("fast", "plain")}


def made(names, folder):
    """Makes the traces that are missing, and returns their sizes."""
    words = [os.path.join(TOP, "bench", "workloads"), "--traces", folder, *names]
    if names and subprocess.run(words, stdout=sys.stderr).returncode:
        raise Fault("the traces cannot be made")
    place, manifest = os.path.join(folder, "manifest.json"), {}
    if os.path.exists(place):
        manifest = read_json(place)
    fields = ("page_size", "pages", "writes", "last_tick", "bytes")
    path = os.path.join(folder, "{}.pcwt")
    return {name: work.Trace(name, path.format(name), *(it[key] for key in fields)) for name, it in manifest.items()}
