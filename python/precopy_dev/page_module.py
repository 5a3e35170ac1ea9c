"""Proves and builds the planner's module for a web page.

    dev/page-module [--if-needed] [--proved] FILE

It writes the WebAssembly module of crates/browser_planner to FILE. The toolchain proves the crate for the target wasm64
and builds it with no memory of its own: the module imports nothing, and the page lends all that it works in.

With --if-needed nothing is done if no source is newer than FILE. The libraries below are proved first, by dev/build,
if they are not yet; --proved is for a tree that `rt ci` has just passed, as in dev/build. The status is 0 if the
module is written, 1 if not, and 2 if the words are refused or the toolchain is not the one that this script was written
for.
"""
import contextlib
import glob
import os
import subprocess
import sys
import tempfile

from precopy_dev import library
from precopy_dev.tree import TOP
from precopy_dev.words import parser_of

CRATE = os.path.join(TOP, "crates", "browser_planner")
TARGET = "wasm64-unknown-unknown"


def say(text):
    print(f"page-module: {text}", file=sys.stderr, flush=True)


def is_current(file):
    """Returns whether no source is newer than the module."""
    sources = [os.path.join(TOP, "crates.txt")]
    for pattern in ("src", "src/*", "src/*/*.rt", "specs/*.antt", "specs/*/*.antt"):
        sources += glob.glob(os.path.join(glob.escape(TOP), "crates", "*", pattern))
    return os.path.isfile(file) and all(os.stat(it).st_mtime_ns <= os.stat(file).st_mtime_ns for it in sources)


def build_below(crate, proved):
    """Proves and builds the libraries below the crate that are not built as their sources stand."""
    if all(each.is_built() for each in crate.below()):
        return 0
    words = [os.path.join(TOP, "dev", "build"), "--below", *["--proved"] * proved, "browser_planner"]
    return subprocess.run(words, stdin=subprocess.DEVNULL, check=False).returncode


def build_module(rtlib, crate, file):
    """Proves and builds the crate for the target, and links the module. To keep what is proved for a later run would
    take a seventh longer."""
    parts = ["--target", TARGET, "--toolchain", f"{rtlib.KIT}/toolchain"]
    with tempfile.TemporaryDirectory() as room:
        archive, module = f"{room}/browser_planner.a", f"{room}/browser_planner.wasm"
        jobs = str(min(4, len(os.sched_getaffinity(0))))
        words = [*crate.words(["--jobs", jobs]), *parts, "--backend", "llvm", "-o", archive]
        status = crate.call(rtlib.RATTLE, "build", *words)
        status = status or crate.call(f"{rtlib.KIT}/bin/rattle-link", *parts, "-o", module, archive)
        if status == 0:
            os.makedirs(os.path.dirname(file), exist_ok=True)
            with open(module, "rb") as made, open(file, "wb") as written:
                written.write(made.read())
    return status


def main():
    parser = parser_of("page-module", __doc__)
    parser.add_argument("--if-needed", action="store_true", help="do nothing if no source is newer")
    parser.add_argument("--proved", action="store_true", help="take the libraries that rt ci left")
    parser.add_argument("file", metavar="FILE", help="where to write the module")
    asked = parser.parse_args()
    if asked.if_needed and is_current(asked.file):
        return 0
    try:
        rtlib = library.toolchain()
        if not hasattr(rtlib, "KIT") or not hasattr(rtlib.Crate, "below"):
            raise library.Differs("has no KIT or no Crate.below in its module rtlib")
    except library.Differs as difference:
        say(f"the Rattle toolchain here {difference}: README.md names the one that fits")
        return 2
    crate = rtlib.Crate(CRATE, rtlib.root_above(CRATE), {})
    if status := build_below(crate, asked.proved):
        return status
    with contextlib.redirect_stdout(sys.stderr):
        if build_module(rtlib, crate, os.path.abspath(asked.file)):
            say("the module could not be built")
            return 1
    return 0


if __name__ == "__main__":
    sys.exit(main())
