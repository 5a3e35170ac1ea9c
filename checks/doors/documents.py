"""Trials of the installed documents: each of their commands, with what is installed, and the names that they have."""

import os
import re
import shutil
import subprocess

from checks.lib import pages
from precopy_dev.files import read_text
from precopy_dev.packaging import documents
from precopy_dev.tree import read

SECONDS = 120
# What a command begins with that is not run here: it needs a running guest, or GNU parallel.
LEFT_OUT = ("precopy-compare-qemu", "precopy-record", "parallel", "export ")
OF_SOURCES = re.compile(r"(?<![\w/.])\./precopy|(?<![\w/.-])tools/[a-z]|`make ")


def pages_below(folder):
    """The installed documents that are not for builders: their paths in the folder, and their texts."""
    for at, _, names in sorted(os.walk(folder)):
        for name in sorted(names):
            path = os.path.relpath(os.path.join(at, name), folder)
            if name.endswith(".md") and path not in documents.OF_BUILDERS:
                yield path, read_text(at, name)


def names(tally, folder):
    """No document that a user reads names what only the sources have, and each other name stands for one in them."""
    sources = [read(path) for path, _ in pages_below(folder)]
    for name in documents.RENAMED:
        told = f"python/precopy_dev/packaging/documents.py has a name for {name!r} of no page"
        tally.add(any(name in text for text in sources), told)
    for path, text in pages_below(folder):
        wrong = [line for line in text.split("\n") if OF_SOURCES.search(line)]
        tally.add(not wrong, f"the installed {path} says: {wrong}")


def commands(tally, folder, run):
    """All commands and blocks of Python of a page, one after another, by run(page, words), and what they print."""
    count = 0
    for path, text in pages_below(folder):
        steps = [step for step in pages.steps(text) if not (step[0] == "command" and step[1].startswith(LEFT_OUT))]
        if not steps:
            continue
        with tally.case(f"the commands of the installed {path}") as case:
            for kind, words, wanted in steps:
                status, printed = run(path, ["python3", "-c", words] if kind == "python" else ["sh", "-c", words])
                agrees = kind == "python" or pages.agrees(wanted, printed)
                good = agrees and (pages.is_due(status, words, printed) if kind == "command" else status == 0)
                case.add(good, f"{words}\nstatus {status}\n{printed}")
        count += len(steps)
    tally.add(count > 30, f"the installed documents have {count} commands")


def runner(folder, prefix):
    """Runs commands of each page in a copy of the documents, with nothing of the sources on the way."""
    shared = os.path.join(prefix, "share", "doc", "precopy")
    environment = {"PATH": f"{prefix}/bin:/usr/bin:/bin", "LC_ALL": "C.UTF-8", "LD_LIBRARY_PATH": f"{prefix}/lib"}
    environment["PYTHONPATH"] = "bindings/python"

    def run(page, words):
        place = os.path.join(folder, page.replace("/", "-"))
        if not os.path.isdir(place):
            shutil.copytree(shared, place)
        done = subprocess.run(
            words,
            cwd=place,
            env=environment,
            stdin=subprocess.DEVNULL,
            stdout=subprocess.PIPE,
            stderr=subprocess.STDOUT,
            timeout=SECONDS,
        )
        return done.returncode, done.stdout.decode(errors="replace")

    return run


def check(tally, folder, prefix):
    """The documents of an installation below a prefix."""
    shared = os.path.join(prefix, "share", "doc", "precopy")
    names(tally, shared)
    commands(tally, shared, runner(os.path.join(folder, "documents"), prefix))
    tally.add("<title>" in read_text(shared, "precopy.html"), "the installed precopy.html is no page")
