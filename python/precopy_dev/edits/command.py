"""Tries the wrong bodies of some crates, which the prover must refuse, or their twins, which must stay proved.

    dev/edits collector page_cache      all wrong bodies of these crates that the prover is to refuse
    dev/edits --only WORD collector     only those whose name contains WORD
    dev/edits --record collector        notes in docs/edits-tried.tsv what each came to
    dev/edits --twins collector         the twins: harmless bodies in the places of wrong ones

The last line is 'N passed, M failed'. They are tried in a copy elsewhere. Libraries below the crates that no check has
built here are proved first, in that copy. The toolchain tries as many wrong bodies of a crate side by side as there are
processors and memory. See CONTRIBUTING.md."""
import argparse
import datetime
import os
import re
import shutil
import subprocess
import sys
import tempfile

from precopy_dev.edits.files import GATE, PROVER, TWIN, BadEdit, read_edits
from precopy_dev.files import write_file
from precopy_dev.tree import TOP as ROOT
from precopy_dev.tree import crates

RECORD = f"{ROOT}/docs/edits-tried.tsv"
REFUSED = re.compile(
    r"(?:rt: )?must-fail (\S+/\S+)\.edit: refused, as it must be(?: \((only because|only by)[^)]*\))?(?:: (.*))?$"
)
# How an edit was refused: by the prover's answer; or only since a proof cites a name that went; or only by a limit.
KINDS = {None: "answer", "only because": "names", "only by": "limit"}
# What else the toolchain tells of an edit, after the edit's name: it is proved, or it does not compile.
OTHERS = re.compile(r"(?:rt: )?must-fail (\S+/\S+)\.edit: (NOT REFUSED|BAD EDIT): (.*)")
OTHER_KINDS = {"NOT REFUSED": "accepted", "BAD EDIT": "bad"}
# What a check tells of a twin that is no longer proved: an error, or a goal that the prover cannot show.
OPEN = re.compile(r"^(note: )?(?:\./)?(?:src|proofs)/[\w/]+\.\w+:\d+:\d+: (error)?")


def stop(why):
    print(f"edits: {why}", file=sys.stderr)
    print("0 passed, 1 failed")
    sys.exit(2)


def edits_of(crate, word, kinds):
    """Returns the crate's edits of these kinds whose name contains the word."""
    edits = read_edits(crate, lambda name, why: stop(f"{name}: {why}"))
    return [edit for edit in edits if edit.kind in kinds and word in edit.name]


def copy_crates(names, room):
    """Copies what a proof reads of each crate, and what earlier checks kept and built."""
    for name in ("crates.txt", "HANDLES"):
        shutil.copy2(f"{ROOT}/{name}", room)
    for name in names:
        for part in ("src", "specs", "proofs", "out/rlib", "out/incremental"):
            here = f"{ROOT}/crates/{name}/{part}"
            if os.path.isdir(here):
                shutil.copytree(here, f"{room}/crates/{name}/{part}")


# ---- Wrong bodies.


def try_edits(crate, edits, room):
    """Tries the edits in the copy. Returns for each of which the toolchain gives a verdict how it was refused, or else
    that it was not, and the first that it told."""
    os.makedirs(f"{room}/crates/{crate}/must-fail")
    for edit in edits:
        write_file(edit.text, f"{room}/crates/{crate}/must-fail/{edit.name}.edit")
    found, words = {}, ["rt", "must-fail", crate]
    with subprocess.Popen(words, cwd=room, stdout=subprocess.PIPE, text=True, errors="replace") as ran:
        for line in ran.stdout:
            print(line, end="", flush=True)
            if told := REFUSED.match(line):
                found[told[1]] = (KINDS[told[2]], told[3] or "")
            elif told := OTHERS.match(line):
                found[told[1]] = (OTHER_KINDS[told[2]], told[3])
    for name in map(str, edits):
        if name not in found:
            print(f"{name}: NO VERDICT: rt must-fail ended with status {ran.returncode}", flush=True)
    return found


def place_of(told):
    """Returns the file and the goal of what the prover told first."""
    file, goal = re.search(r"\b(?:src|proofs|specs)/[\w/]+\.\w+", told), re.search(r"`([\w-]*-[\w-]*|returns)`", told)
    return " ".join(found for found in (file and file[0], goal and goal[1]) if found)


def note(edits, found):
    """Notes in the record what the edits came to: name, digest of the text, day, how they were refused, and where."""
    with open(RECORD, encoding="utf-8") as file:
        lines = {line.split("\t")[0]: line.rstrip("\n") for line in file}
    day = datetime.date.today().isoformat()
    for name, edit in ((str(edit), edit) for edit in edits):
        if name in found:
            how, told = found[name]
            lines[name] = "\t".join((name, edit.digest(), day, how, place_of(told)))
    write_file("".join(f"{lines[name]}\n" for name in sorted(lines)), RECORD)


def refused(crate, edits, room, records):
    """Tries a crate's edits, and notes them if that is asked for. Returns how many the prover refused."""
    found = try_edits(crate, edits, room)
    if records:
        note(edits, found)
    return sum(how in KINDS.values() for how, _ in found.values())


# ---- Twins.


def open_goal(crate, edits, room):
    """Checks the crate with these edits in place. Returns the first that the prover cannot show, or "" if it is
    proved."""
    try:
        for edit in edits:
            for path, text in edit.put_in(room).items():
                write_file(text, f"{room}/{path}")
        how = {"cwd": f"{room}/crates/{crate}", "stdin": subprocess.DEVNULL, "stdout": subprocess.PIPE}
        ran = subprocess.run(["rt", "check"], stderr=subprocess.STDOUT, text=True, errors="replace", **how)
    finally:
        for path in {path for edit in edits for path in edit.put_in(ROOT)}:
            shutil.copy2(f"{ROOT}/{path}", f"{room}/{path}")
    lines = ran.stdout.splitlines()
    goals = (line for line in lines if (told := OPEN.match(line)) and (told[1] or told[2]))
    return "" if ran.returncode == 0 else next(goals, " ".join(lines[-3:]))


def stay_proved(crate, edits, room):
    """Tries a crate's twins in one check, and each alone if that tells of an open goal. Returns how many stay
    proved."""
    goals = {}
    try:
        together = len(edits) > 1 and not open_goal(crate, edits, room)
    except BadEdit:
        # Two of them change the same line.
        together = False
    for edit in edits:
        goals[str(edit)] = "" if together else open_goal(crate, [edit], room)
        print(f"{edit}: {goals[str(edit)] or 'stays proved'}", flush=True)
    return sum(not goal for goal in goals.values())


class Words(argparse.ArgumentParser):
    """Reads the words. If they are refused, the last line is of the form that all checks have."""

    def error(self, message):
        self.print_usage(sys.stderr)
        stop(f"{message}: name the crates whose edits are to be tried")


def arguments(words):
    parser = Words(prog="edits", description=__doc__, formatter_class=argparse.RawDescriptionHelpFormatter)
    parser.add_argument("--only", default="", metavar="WORD")
    parser.add_argument("--record", action="store_true")
    parser.add_argument("--twins", action="store_true")
    parser.add_argument("crates", nargs="+", metavar="CRATE")
    return parser.parse_args(words)


def main(words):
    given, known, passed = arguments(words), list(crates()), 0
    names = list(dict.fromkeys(given.crates))
    for name in names:
        if name not in known:
            stop(f"crates.txt has no crate {name}")
    if not shutil.which("rt"):
        stop("the toolchain's command rt is not on the path")
    kinds = (TWIN,) if given.twins else (GATE, PROVER)
    chosen = {name: edits_of(name, given.only, kinds) for name in names}
    count = sum(map(len, chosen.values()))
    if not count:
        stop(f"nothing was tried: {' '.join(names)} have no such edit")
    with tempfile.TemporaryDirectory(prefix="edits-") as room:
        copy_crates(known, room)
        for crate, edits in ((crate, edits) for crate, edits in chosen.items() if edits):
            passed += stay_proved(crate, edits, room) if given.twins else refused(crate, edits, room, given.record)
    print(f"{passed} passed, {count - passed} failed")
    return 0 if passed == count else 1


if __name__ == "__main__":
    sys.exit(main(sys.argv[1:]))
