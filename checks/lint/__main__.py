"""Reads scripts, C and Rust by the linters that Debian has, each with the settings at the top of the tree.

    checks/run lint

The tools are those of TOOLS. One that is missing and cannot be installed is left out. A tool is a case. One more says
that no line outside of crates/ has more than 120 columns, in whatever language, and one that REUSE.toml gives each file
a license whose text is in LICENSES/.
"""

import fnmatch
import os
import re
import subprocess
from collections.abc import Callable, Iterator

import tomllib

from checks.lib.harness import run_main
from checks.lib.tally import has
from precopy_dev.tree import TOP

# Headers whose layout is by hand: a line for each status and field, with what it means.
BY_HAND = ("include/precopy.h", "packaging/status_texts.h")
# Of the first two a row, or a question, is one line by its format, and the others are no text. Of crates/ `rt fmt` sees
# to it.
WIDE = ("crates.txt", ".dashboard.json", ".tsv", ".lock", ".pcwt", ".png", ".stream")
COLUMNS = 120
SHELL = re.compile(rb"#!.*\b(?:sh|bash)\n")


def sources() -> list[str]:
    listed = subprocess.run(["git", "ls-files"], cwd=TOP, capture_output=True, text=True, check=True)
    return [path for path in listed.stdout.splitlines() if os.path.isfile(os.path.join(TOP, path))]


def ending(*ends: str) -> Callable[[], list[str]]:
    return lambda: [path for path in sources() if path.endswith(ends) and path not in BY_HAND]


def shell_scripts() -> Iterator[str]:
    for path in sources():
        with open(os.path.join(TOP, path), "rb") as file:
            if SHELL.match(file.readline(100)):
                yield path


def texts() -> list[str]:
    left_out = ("crates/", "web/", "bench/baselines/Cargo.lock")
    ends = (".py", ".md", ".c", ".h", ".toml", ".1", ".json")
    return [path for path in sources() if path.endswith(ends) and not path.startswith(left_out)]


def rust() -> list[str]:
    return [path for path in sources() if path.endswith(".rs") and not path.startswith("bench/")]


# A command, Debian's package of it, the words before the files, and the files.
TOOLS = (
    ("flake8", "flake8", [], ending(".py")),
    ("black", "black", ["--check", "--quiet", "--diff"], ending(".py")),
    ("isort", "isort", ["--check-only", "--diff"], ending(".py")),
    ("shellcheck", "shellcheck", ["-x"], shell_scripts),
    ("codespell", "codespell", [], texts),
    ("clang-format", "clang-format", ["--dry-run", "--Werror"], ending(".c", ".h")),
    ("rustfmt", "rustfmt", ["--check"], rust),
)


def too_wide() -> Iterator[str]:
    for path in sources():
        if not path.endswith(WIDE) and not path.startswith("crates/"):
            with open(os.path.join(TOP, path), encoding="utf-8") as file:
                for number, line in enumerate(file, 1):
                    if len(line.rstrip("\n").expandtabs()) > COLUMNS:
                        yield f"{path}:{number}"


def without_license() -> list[str]:
    with open(os.path.join(TOP, "REUSE.toml"), "rb") as file:
        rows = tomllib.load(file)["annotations"]
    texts = os.listdir(os.path.join(TOP, "LICENSES"))
    known = [row["path"] for row in rows if f"{row['SPDX-License-Identifier']}.txt" in texts]
    return [path for path in sources() if not any(fnmatch.fnmatch(path, each) for each in known)]


def check(tally, _) -> None:
    wide, free = list(too_wide()), without_license()
    tally.add(not wide, f"lines of more than {COLUMNS} columns: {', '.join(wide)}")
    tally.add(not free, f"files without a license: {', '.join(free[:9])}")
    for command, package, words, files in TOOLS:
        if has(command, package, "its rules"):
            done = subprocess.run([command, *words, *files()], cwd=TOP, capture_output=True, text=True)
            told = (done.stdout + done.stderr)[-3000:]
            tally.add(done.returncode == 0, f"{command}:\n{told}")


if __name__ == "__main__":
    run_main(check, __doc__)
