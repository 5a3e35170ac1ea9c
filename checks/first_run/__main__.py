"""Runs each command of a first run in a tree in which nothing was built before.

    checks/run first_run [--all] [--only WORD]

The tree is a copy of the sources. Of what is built it has only what `rt ci` has proved, the libraries, and not a
program; so a command that builds a program does so for the first time. With --all each command begins with the
libraries alone. Without, it has all but what it is there to build, and one command is tried, in turn by the day, or
those that contain WORD. There is no terminal and no input, and the home folder is empty. A command is a case.
"""

import datetime
import os
import shutil
import subprocess
import tempfile
import time
from typing import NamedTuple

from checks.lib.harness import run_main
from checks.lib.tally import need
from precopy_dev.tree import TOP

SECONDS = 3 * 3600
# What a build leaves, by the crate or the name of the part.
BUILT = {
    "precopy": "crates/precopy/out",
    "precopy_view": "crates/precopy_view/out",
    "precopy_schedule": "crates/precopy_schedule/out",
    "precopy_c": "crates/precopy_c/out",
    "library": "out/library",
    "page": "out/browser_planner.wasm",
}
BUG = "examples/left_out.py examples/gzip.pcwt --mended"
PLAN = "cc -Iinclude examples/c/plan.c out/library/libprecopy.a -o plan && ./plan 500 4000 10 < examples/gzip.pcwt"
RUST = "cargo run --offline --manifest-path examples/rust/Cargo.toml < examples/gzip.pcwt"
THIN = "tools/thin examples/guests/mid.light.pcwt quarter.light.pcwt --one-in 4 --start 1000"
EVACUATE = "tools/evacuate examples/guests/sqlite.light.pcwt --link 10Gbit"
CHECK = "tools/check examples/a.pcwt examples/a.stream --tick 2000"

# The tools that some of a command's words need.
NEEDED = {"make": ("make",), "lib": ("cc",), "install-lib": ("cc",), "cc": ("cc",), "cargo": ("cargo", "cc")}
NEEDED |= {"deb": ("dh", "dh_python3")}


class FirstRun(NamedTuple):
    """A command, the parts that it is there to build, and what must be there afterwards."""

    words: str
    builds: tuple[str, ...]
    leaves: str


COMMANDS = (
    FirstRun("./precopy image < examples/gzip.pcwt > memory", ("precopy",), "memory"),
    FirstRun("./precopy-view --help > help", ("precopy_view",), "help"),
    FirstRun("make deb", ("precopy_schedule",), "out/*.deb"),
    FirstRun("make dist", ("precopy_schedule",), "out/*.tar.gz"),
    FirstRun("make", ("precopy_schedule",), "crates/precopy_schedule/out/precopy_schedule"),
    FirstRun("make install DESTDIR=installed PREFIX=/usr", ("precopy_schedule",), "installed/usr/bin/precopy-evacuate"),
    FirstRun("make lib", ("precopy_c", "library"), "out/library/libprecopy.so.*"),
    FirstRun("make install-lib DESTDIR=installed PREFIX=/usr", ("library",), "installed/usr/include/precopy.h"),
    FirstRun("make page", ("page",), "out/precopy.html"),
    FirstRun("make js", ("page",), "out/js/planner.wasm"),
    FirstRun("make docs", (), "docs/INDEX.md"),
    FirstRun(f"make lib && {PLAN} > said", ("library",), "said"),
    FirstRun("make lib && cargo test --offline --manifest-path bindings/rust/Cargo.toml && touch done", (), "done"),
    FirstRun("make lib && python3 -m venv of && of/bin/pip install ./bindings/python && touch done", (), "done"),
    FirstRun(f"make lib && PYTHONPATH=bindings/python {BUG} > said", ("library",), "said"),
    FirstRun(f"make lib && {RUST} > said", ("library",), "said"),
    FirstRun(f"make lib && {CHECK} > said; [ $? -eq 3 ]", ("library",), "said"),
    FirstRun("make page && tools/page > said", ("page",), "said"),
    FirstRun("tools/export examples/gzip.pcwt said", (), "said"),
    FirstRun("tools/export examples/a.pcwt said && tools/import said made.pcwt", (), "made.pcwt"),
    FirstRun("tools/release --after 100 examples/gzip.pcwt released.pcwt", (), "released.pcwt"),
    FirstRun(THIN, (), "quarter.light.pcwt"),
    FirstRun("make && tools/predict examples/guests/mid.light.pcwt --link 1Gbit > said; [ $? -le 3 ]", (), "said"),
    FirstRun(f"make && {EVACUATE} > said", ("precopy_schedule",), "said"),
)


def copy_tree(folder, without):
    """The sources as git has them, with the proved libraries, and what is built but for some parts."""
    listed = subprocess.run(["git", "ls-files", "-z"], cwd=TOP, capture_output=True, text=True, check=True).stdout
    for path in listed.rstrip("\0").split("\0"):
        if os.path.isfile(os.path.join(TOP, path)):
            os.makedirs(os.path.dirname(os.path.join(folder, path)), exist_ok=True)
            shutil.copy2(os.path.join(TOP, path), os.path.join(folder, path))
    crates = os.listdir(os.path.join(TOP, "crates"))
    kept = [f"crates/{crate}/out/rlib" for crate in crates] + [
        path for part, path in BUILT.items() if part not in without
    ]
    for path in kept:
        source, to = os.path.join(TOP, path), os.path.join(folder, path)
        if os.path.isdir(source):
            shutil.copytree(source, to, copy_function=shutil.copy2, dirs_exist_ok=True)
        elif os.path.isfile(source):
            os.makedirs(os.path.dirname(to), exist_ok=True)
            shutil.copy2(source, to)


def run(command, folder, home):
    """The status of a command, and the end of what it says."""
    # A cargo that rustup installed finds its toolchain in the home of who installed it.
    rustup = {"RUSTUP_HOME": os.environ.get("RUSTUP_HOME", os.path.expanduser("~/.rustup"))}
    environment = {**os.environ, **rustup, "HOME": home, "XDG_CACHE_HOME": f"{home}/cache"}
    environment.pop("PYTHONPATH", None)
    how = {
        "stdin": subprocess.DEVNULL,
        "stdout": subprocess.PIPE,
        "stderr": subprocess.STDOUT,
        "start_new_session": True,
    }
    done = subprocess.run(["sh", "-c", command], cwd=folder, env=environment, timeout=SECONDS, text=True, **how)
    return done.returncode, done.stdout[-2000:]


def try_first(case, first, without):
    with tempfile.TemporaryDirectory(prefix="first-run-") as room:
        folder, home = os.path.join(room, "tree"), os.path.join(room, "home")
        os.makedirs(home)
        copy_tree(folder, without)
        begun = time.monotonic()
        status, said = run(first.words, folder, home)
        there = subprocess.run(["sh", "-c", f"ls {first.leaves}"], cwd=folder, capture_output=True).returncode == 0
        print(f"{first.words}: status {status}, {time.monotonic() - begun:.0f} s", flush=True)
        case.add(status == 0 and there, f"status {status}, {first.leaves} there: {there}\n{said}")


def mark_proved(case):
    """Lets what `rt ci` has just proved count as built: the libraries below each part that a command builds."""
    for name in ("precopy", "precopy_view", "precopy_schedule", "precopy_c", "browser_planner"):
        done = subprocess.run([os.path.join(TOP, "dev", "build"), "--below", "--proved", name], capture_output=True)
        case.add(done.returncode == 0, f"the libraries below {name}: {done.stderr.decode()[-1000:]}")


def check(tally, given):
    with tally.case("the libraries are proved") as case:
        mark_proved(case)
    of_today = COMMANDS[datetime.date.today().toordinal() % len(COMMANDS)]
    chosen = [it for it in COMMANDS if any(word in it.words for word in given.only or ())] or [of_today]
    for first in COMMANDS if given.all else chosen:
        with tally.case(first.words) as case:
            need(*(tool for word in first.words.split() for tool in NEEDED.get(word, ())))
            try_first(case, first, set(BUILT) if given.all else set(first.builds))


def more(parser):
    parser.add_argument("--all", action="store_true", help="each command, with nothing but the libraries")


if __name__ == "__main__":
    run_main(check, __doc__, more=more)
