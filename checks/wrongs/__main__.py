"""Plants faults into the product, and looks whether its checks see them.

    checks/run wrongs [--all] [--check CHECK ..] [--only WORD ..] [--list]

checks/wrongs/faults.tsv has them. Some are wrong programs round the built ones (checks/wrongs/wrong.c), or the library
with a wrong call (checks/wrongs/wrong_library.c), others are edits of the sources. The last two are tried in a copy of
the tree that uses what is built. The check runs until its first failure, which must tell of what is wrong. Without
words some faults are tried, in turn by the day. With right programs the checks of the wrongs of refusals pass, by the
wrongs NOTHING and CALL_NOTHING, which a day has not. A fault is a case.
"""

import collections
import contextlib
import datetime
import json
import os
import re
import shutil
import signal
import subprocess
import sys
import tempfile
import time

from checks.lib.harness import run_main
from checks.lib.tally import LeftOut, expect, need
from checks.wrongs.faults import Fault, read
from precopy_dev import tree
from precopy_dev.files import read_text, write_file

HERE = os.path.join(tree.TOP, "checks", "wrongs")
SECONDS, OF_A_DAY, LEAST = 900, 8, 3
# The wrongs with which nothing is wrong, so that the checks pass.
RIGHT = [
    Fault(check, "", "", program, name, "", "", "")
    for check, program, name in (("refusals", "precopy", "NOTHING"), ("refused_calls", "refused_calls", "CALL_NOTHING"))
]
FAULTS = read()
# The checks that take words where others have names of cases.
WITH_WORDS = ("edits", "bodies")
# What of the tree a copy has as links: nothing of it is edited.
LINKED = ("crates", "out", "target", ".git")


def in_turn(faults):
    """The faults in an order in which those of one check are far from each other."""
    rank, seen = {}, {}
    for fault in faults:
        rank[fault] = seen[fault.check] = seen.get(fault.check, 0) + 1
    return sorted(faults, key=rank.get)


def of_today():
    faults = in_turn(FAULTS)
    first = datetime.date.today().toordinal() * OF_A_DAY
    return [faults[number % len(faults)] for number in range(first, first + OF_A_DAY)]


# ---- A wrong product.


def compiled(fault, folder):
    """A wrong program round a built one."""
    need("cc")
    to, program = os.path.join(folder, f"wrong_{fault.where}"), tree.program(fault.where)
    expect(os.access(program, os.X_OK), f"there is no program {program}; dev/build {fault.where} builds it")
    texts = {"PROGRAM": program, "WHEN": fault.when, "OLD": fault.old, "NEW": fault.new}
    defined = [f"-D{name}={json.dumps(text)}" for name, text in texts.items()]
    words = ["cc", "-O2", "-Wno-unused-result", *defined, f"-DWRONG={fault.name}", "-o", to, f"{HERE}/wrong.c"]
    done = subprocess.run(words, capture_output=True, text=True)
    expect(done.returncode == 0, f"checks/wrongs/wrong.c is not compiled: {done.stderr[-600:]}")
    return to


def copied(folder, path=""):
    """A copy of the tree, that uses what is built, and in which a file with this path can be edited."""
    top = os.path.join(folder, "tree")
    copy_files(tree.TOP, top, LINKED)
    if path.startswith("crates/"):
        crate = os.path.dirname(path).split("/")[1]
        os.unlink(os.path.join(top, "crates"))
        crates = os.path.join(tree.TOP, "crates")
        copy_files(crates, os.path.join(top, "crates"), os.listdir(crates))
        os.unlink(os.path.join(top, "crates", crate))
        copy_files(os.path.join(crates, crate), os.path.join(top, "crates", crate), ("out",))
    return top


def copy_files(folder, to, linked):
    """Copies what is in a folder, but for some names, for which there are links."""
    os.makedirs(to)
    for name in os.listdir(folder):
        source, copy = os.path.join(folder, name), os.path.join(to, name)
        if name in linked:
            os.symlink(source, copy)
        elif os.path.isdir(source):
            shutil.copytree(source, copy, symlinks=True, ignore=shutil.ignore_patterns("__pycache__", "target"))
        else:
            shutil.copy2(source, copy)


def text_of(fault):
    """The text of the file that a fault edits."""
    text = read_text(tree.TOP, fault.where)
    expect(text.count(fault.old) == 1, f"{fault.old!r} stands {text.count(fault.old)} times in {fault.where}")
    return text


def edited(fault, folder):
    """A copy of the tree with one text changed."""
    top = copied(folder, fault.where)
    path = os.path.join(top, fault.where)
    text = text_of(fault)
    write_file(text.replace(fault.old, fault.new), path)
    return top


# Makes both forms of the library in the tree of the folder where it runs.
PACK = (
    "import sys; from precopy_dev.packaging import library; "
    "library.pack(sys.argv[1], sys.argv[2], 'packaging/library.map')"
)


def with_wrong_library(fault, folder):
    """A copy of the tree whose library has a wrong call."""
    need("cc", "nm")
    top, room = copied(folder), os.path.join(folder, "objects")
    os.unlink(os.path.join(top, "out"))
    os.makedirs(os.path.join(top, "out", "library"))
    os.makedirs(room)
    for name in set(os.listdir(os.path.join(tree.TOP, "out"))) - {"library"}:
        os.symlink(os.path.join(tree.TOP, "out", name), os.path.join(top, "out", name))
    defined = [f"-DWRONG={fault.name}", f"-DOLD={json.dumps(fault.old)}"]
    right, wrong = f"precopy_{fault.when}", ["-O1", "-fPIC", f"-I{tree.TOP}/include", *defined]
    for words in (
        ["ar", "x", os.path.join(tree.TOP, "out", "library", "libprecopy.a")],
        ["objcopy", "--redefine-sym", f"{right}=right_{fault.when}", "precopy.o"],
        ["cc", *wrong, "-c", f"{HERE}/wrong_library.c", "-o", "wrong.o"],
        ["ld", "-r", "-o", "whole.o", "precopy.o", "wrong.o"],
        ["objcopy", "--wildcard", "--keep-global-symbol=precopy_*", "whole.o"],
    ):
        expect_done(words, room)
    expect_done([sys.executable, "-B", "-c", PACK, room, os.path.join(room, "whole.o")], top)
    return top


def expect_done(words, folder):
    environment = {**os.environ, "PYTHONPATH": os.path.join(folder, "python")}
    done = subprocess.run(words, cwd=folder, env=environment, capture_output=True, text=True)
    expect(done.returncode == 0, f"{words}: {done.stderr[-600:]}")


def programs_of(fault, wrongs):
    """The words that name the programs of a check, with wrong ones in the places of right ones."""
    programs = {
        "evacuation": ("precopy_schedule", "precopy_view"),
        "view": ("precopy_view", "precopy"),
        "predictions": ("precopy_view",),
        "documents": ("precopy", "precopy_view"),
        "refused_calls": ("refused_calls",),
    }.get(fault.check, ("precopy",))
    return [wrongs.get(name) or tree.program(name) for name in programs]


def run_check(fault, folder):
    """The status and the output of a check of a wrong product."""
    top, words = tree.TOP, [word for name in fault.cases.split() for word in ("--only", name)]
    if fault.check in WITH_WORDS:
        words = fault.cases.split()
    wrongs = {}
    for part in fault.parts():
        if not part.name:
            top = edited(part, folder)
        elif part.where == "library":
            top = with_wrong_library(part, folder)
        else:
            wrongs[part.where] = compiled(part, folder)
    words += programs_of(fault, wrongs) if wrongs else []
    room = os.path.join(folder, "room")
    os.makedirs(room)
    # Other cases than those that the sign is of may see first what two programs do alike.
    environment = {**os.environ, "TMPDIR": room, **({} if fault.is_alike() else {"CHECKS_END_EARLY": "1"})}
    command = [os.path.join(top, "checks", "run"), fault.check, *words]
    # Not a pipe, which processes that outlive the check would hold.
    with open(os.path.join(folder, "told"), "w+", encoding="utf-8", errors="replace") as told:
        how = {"stdin": subprocess.DEVNULL, "stdout": told, "stderr": told, "start_new_session": True}
        started = subprocess.Popen(command, env=environment, **how)
        end, status, text = time.monotonic() + SECONDS, None, ""
        try:
            while status is None and not signs_in(fault, text):
                expect(time.monotonic() < end, f"it takes more than {SECONDS} s: {text[-1500:]}")
                with contextlib.suppress(subprocess.TimeoutExpired):
                    status = started.wait(1)
                told.seek(0)
                text = told.read()
        finally:
            with contextlib.suppress(ProcessLookupError):
                os.killpg(started.pid, signal.SIGKILL)
            started.wait()
        return 1 if status is None else status, text


def failures_in(text):
    return re.findall(r"^  FAILED .*(?:\n    .*)*", text, re.M)


def signs_in(fault, text):
    """The failures with the sign of a fault that stands in two programs alike: what others tell comes before it."""
    return [failure for failure in failures_in(text) if fault.sign in failure] if fault.is_alike() else []


def try_fault(fault):
    begun = time.monotonic()
    with tempfile.TemporaryDirectory(prefix="wrongs-", ignore_cleanup_errors=True) as folder:
        status, told = run_check(fault, folder)
    failures = failures_in(told)
    signs = signs_in(fault, told) if fault.is_alike() else failures[:1]
    if re.search(r"^0 passed, 0 failed, [0-9]+ skipped\s*\Z", told, re.M):
        raise LeftOut(f"checks/{fault.check} is left out here")
    if fault in RIGHT:
        expect(status == 0 and not failures, f"the check fails with a right program: {told[-1500:]}")
    else:
        expect(status == 1 and failures, f"it is not seen: {told[-1500:]}")
        found = signs[0] if signs else ""
        expect(found and fault.sign in found, f"no failure tells of {fault.sign!r}: {(found or failures[0])[:1500]}")
    print(f"  {fault}: seen in {time.monotonic() - begun:.0f} s", flush=True)


def more(parser):
    parser.add_argument("--all", action="store_true", help="all faults")
    parser.add_argument("--check", action="append", help="all faults of this check")
    parser.add_argument("--list", action="store_true", help="only tell the faults")


def check(tally, given):
    every = [*FAULTS, *RIGHT]
    chosen = every if given.all else of_today()
    if given.check:
        chosen = [fault for fault in every if fault.check in given.check]
    if given.only:
        chosen = [fault for fault in every if any(word in str(fault) for word in given.only)]
    if given.list:
        print("\n".join(map(str, chosen)))
        chosen = []
    with tally.case("each edit has its place, and each check at least three faults") as case:
        for part in (part for fault in FAULTS for part in fault.parts()):
            case.add(part.name or text_of(part), str(part))
        counts = collections.Counter(fault.check for fault in FAULTS)
        checks = {name for name in os.listdir(os.path.dirname(HERE)) if os.path.isdir(os.path.join(HERE, "..", name))}
        few = [name for name in checks - {"lib", "wrongs", "__pycache__"} if counts[name] < LEAST]
        case.add(not few, f"checks with few faults: {sorted(few)}")
    for fault in chosen:
        tally.tries(str(fault), try_fault, fault)
    print(f"{len(chosen)} of {len(every)} faults were tried")


if __name__ == "__main__":
    run_main(check, __doc__, more=more)
