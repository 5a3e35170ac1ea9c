"""Tells what the proof of each function of a crate costs, most expensive first.

    dev/profile [--lines N] CRATE..         each crate from nothing, by one process
    dev/profile [--lines N] -- COMMAND..    each crate that the command proves from nothing, as `rt ci`

The prover writes a file for each part of a function's proof as it ends with it. `MB` is the size of these files, and is
exact. `Seconds` are processor seconds between the end of one file and of the next, and their sum is the process's. Its
processor time is looked at ten times a second, and is taken to grow evenly between two looks. So a function is exact to
a tenth of a second, whatever else the machine does. `Search` are the seconds for the goals that contracts and loops
leave: a proof that names its facts makes it shorter. `Paths` are those for the ways through the body, with all drops:
fewer exits and fewer owned things make them shorter. What belongs to no function, as types, laws and lemmas, stands
under its module's name.

Sizes tell seconds only roughly: a search may take long and write little. Kept proofs are not measured: a crate that
COMMAND takes from them, or checks over them, has no line. The libraries below a CRATE are built first if they changed.
"""
import collections
import glob
import os
import re
import shutil
import subprocess
import sys
import tempfile
import threading
import time

from precopy_dev.tree import TOP, crates
from precopy_dev.words import parser_of

TICKS = os.sysconf("SC_CLK_TCK")
LOOKS = 0.1  # seconds from one look at a prover's processor time to the next
# What the prover calls the parts of a function's proof.
PARTS = (
    "Answers Carried Code Goals Given Held Invariants Key Kinds Layout Lts Met Mir Named Proof Reads Spent Statement "
    "Symbol TheLink Tie View"
).split()
SEARCHED = ("Proof", "Answers")
FOLLOWED = ("Lts", "Tie")


def options_of(given):
    parser = parser_of("profile", __doc__)
    parser.add_argument("--lines", metavar="N", type=int, default=40, help="how many functions are shown (40)")
    parser.add_argument("--test", action="store_true", help="proves the tests of each CRATE too")
    parser.add_argument("words", metavar="CRATE", nargs="+", help="crates, or -- and a command")
    at = given.index("--") if "--" in given else len(given)
    options = parser.parse_args([*given[:at], *(["--", *given[at + 1 :]] if at < len(given) else [])])
    options.is_command = at < len(given)
    return options


def text_of(path):
    try:
        with open(path, encoding="utf-8", errors="replace") as file:
            return file.read()
    except OSError:
        return ""


def processor_seconds(pid):
    """Returns what a process and those that it has waited for took."""
    fields = text_of(f"/proc/{pid}/stat").rpartition(")")[2].split()
    return sum(int(it) for it in fields[11:15]) / TICKS if fields else None


class Prover:
    """A process of the prover, the folder that it writes, and its processor time at some moments."""

    def __init__(self, pid, folder):
        self.pid, self.folder, self.looks, self.files, self.newest = pid, folder, [], {}, {}
        words = text_of(f"/proc/{pid}/cmdline").split("\0")
        self.crate = words[words.index("--crate-name") + 1] if "--crate-name" in words else ""
        self.has_tests = "--test" in words

    def look(self):
        now, taken = time.time(), processor_seconds(self.pid)
        if taken is not None:
            self.looks.append((now, taken))
        self.see_files()

    def see_files(self):
        """Notes when each new file was written, and its size: some provers remove them when they end."""
        new = {}
        try:
            for it in os.scandir(self.folder):
                if it.name.endswith(".oantt") and it.name not in self.files:
                    new[it.name] = it.stat().st_mtime, it.stat().st_size
        except OSError:
            pass
        # One that was still being written is looked at again.
        self.files.update((name, new[name]) for name in new if new[name][0] < time.time() - 1)
        self.newest = new

    def taken_at(self, moment):
        """Returns the processor time at a moment, between those of the two looks around it."""
        before = (self.looks[0][0], 0.0)
        for now, taken in self.looks:
            if now >= moment:
                share = (moment - before[0]) / (now - before[0]) if now > before[0] else 1
                return before[1] + share * (taken - before[1])
            before = now, taken
        return before[1]

    def parts(self):
        """Returns, for each file in the order of their ends, its name, processor seconds and bytes."""
        found, before = [], 0.0
        files = {**self.files, **self.newest}
        for name, (moment, size) in sorted(files.items(), key=lambda it: it[1][0]):
            taken = self.taken_at(moment)
            found.append((name, taken - before, size))
            before = taken
        return found


def function_of(file):
    """Returns the function that a file is about, below its crate, and the part of its proof that it holds."""
    named = re.match(r"Rattle-\w+-\w+(?:\.(.*))?\.oantt$", file)
    if not named:
        return "", ""
    steps = (named[1] or "").split(".")
    if steps[0] == "contracts":
        steps = steps[1:]
    if "TheLinks" in steps:
        linked = steps[steps.index("TheLinks") + 1 :]
        return "::".join(linked[0].split("-")[1:]) if linked else "", "TheLink"
    at = len(steps)
    while at and steps[at - 1].split("-")[0] in PARTS:
        at -= 1
    return "::".join(steps[:at]), steps[at] if at < len(steps) else ""


class Costs:
    """Seconds and bytes of each function of the crates that were proved."""

    def __init__(self):
        self.seconds = collections.defaultdict(collections.Counter)
        self.bytes = collections.Counter()
        self.crates = collections.Counter()

    def add(self, prover):
        for file, seconds, size in prover.parts():
            function, part = function_of(file)
            name = f"{prover.crate}::{function}" + " (tests)" * prover.has_tests if function else ""
            kind = "search" if part in SEARCHED else "paths" if part in FOLLOWED else "rest"
            self.seconds[name][kind] += seconds
            self.bytes[name] += size
        self.crates[prover.crate + " (tests)" * prover.has_tests] += prover.looks[-1][1] if prover.looks else 0

    def show(self, lines):
        def row(name, seconds, size):
            all_of_it = sum(seconds.values())
            print(f"{all_of_it:8.1f} {seconds['search']:7.1f} {seconds['paths']:7.1f} {size / 1e6:7.2f}  {name}")

        print(f"{'Seconds':>8} {'Search':>7} {'Paths':>7} {'MB':>7}")
        functions = [it for it in self.seconds if it]
        for name in sorted(functions, key=lambda it: -sum(self.seconds[it].values()))[:lines]:
            row(name, self.seconds[name], self.bytes[name])
        row("what loads libraries, and declarations", self.seconds[""], self.bytes[""])
        row(
            f"all, with {len(functions)} names",
            sum(self.seconds.values(), collections.Counter()),
            sum(self.bytes.values()),
        )
        for name, seconds in self.crates.most_common():
            print(f"{seconds:8.1f} {name}")


class Watch:
    """Looks at the provers whose folders appear below one folder, until it is told to stop."""

    def __init__(self, below):
        self.below, self.provers, self.is_over = below, {}, threading.Event()
        self.thread = threading.Thread(target=self.run)
        self.thread.start()

    def run(self):
        while not self.is_over.wait(LOOKS):
            for folder in glob.glob(f"{self.below}/rattle-logic-built-locked-*"):
                if folder not in self.provers:
                    self.provers[folder] = Prover(re.search(r"locked-(\d+)-", folder)[1], folder)
            for prover in self.provers.values():
                prover.look()

    def stop(self):
        self.is_over.set()
        self.thread.join()
        return self.provers.values()


def kit():
    return os.path.dirname(os.path.dirname(os.path.realpath(shutil.which("rt"))))


def below(crate, of):
    return sorted({it for use in of[crate].uses if use in of for it in (use, *below(use, of))})


def prover_words(crate, has_tests):
    """Returns the prover's words for a crate, as `rt check` gives them."""
    of, rlibs = crates(), f"{kit()}/rlibs"
    words = ["--crate-name", crate, "src/main.rt" if os.path.exists("src/main.rt") else "src/lib.rt"]
    for use in of[crate].uses:
        folder = f"{TOP}/crates/{use}/out/rlib" if use in of else rlibs
        words += ["--extern", f"{use}={folder}/{use}.rlib"]
    if "std" not in of[crate].uses:
        words += ["--extern", f"std={rlibs}/std.rlib"]
    for folder in (rlibs, *(f"{TOP}/crates/{it}/out/rlib" for it in below(crate, of))):
        words += ["-L", f"dependency={folder}"]
    words += ["--antt-project", f"{kit()}/rattle/logic/antt-project.json", "--logic-built", f"{kit()}/logic_built"]
    kind = ["--test"] if has_tests else ["--crate-type", "staticlib"] if "staticlib" in of[crate].words else []
    return [*words, "--jobs", "1", "--links", f"{crate}=", *kind]


def prove(crate, has_tests):
    """Proves a crate from nothing in a folder of its own, and returns what was seen of that, or None."""
    os.chdir(f"{TOP}/crates/{crate}")
    built = subprocess.run(["rt", "check", "--jobs", "1", "--only", ""], stdout=subprocess.PIPE, text=True)
    if built.returncode:
        print(built.stdout, file=sys.stderr)
        return None
    with tempfile.TemporaryDirectory(prefix="profile-") as room:
        words = [f"{kit()}/bin/rattle", "check", *prover_words(crate, has_tests), "--incremental", room]
        with open(f"{room}/said", "w+", encoding="utf-8") as said:
            command = subprocess.Popen(words, stdout=said, stderr=subprocess.STDOUT)
            prover = Prover(command.pid, room)
            prover.crate, prover.has_tests = crate, has_tests
            while command.poll() is None:
                prover.look()
                time.sleep(LOOKS)
        for prover.folder in glob.glob(f"{room}/antt-checked-*"):
            prover.see_files()
        if command.returncode:
            print(text_of(f"{room}/said"), file=sys.stderr)
            return None
    return prover


def prove_all(options, costs):
    """Adds what the proof of each crate costs, and returns the status."""
    for crate in options.words:
        if crate not in crates():
            print(f"profile: crates.txt has no crate {crate}", file=sys.stderr)
            return 2
    for crate in options.words:
        prover = prove(crate, options.test)
        if prover is None:
            print(f"profile: {crate} is not proved", file=sys.stderr)
            return 1
        costs.add(prover)
    return 0


def follow(command, costs):
    """Runs a command, adds what each prover below it took, and returns the command's status."""
    with tempfile.TemporaryDirectory(prefix="profile-") as room:
        watch = Watch(room)
        status = subprocess.run(command, env={**os.environ, "TMPDIR": room}).returncode
        for prover in watch.stop():
            costs.add(prover)
    return status


def main(given):
    options, costs = options_of(given), Costs()
    status = follow(options.words, costs) if options.is_command else prove_all(options, costs)
    if costs.seconds:
        costs.show(options.lines)
    return status


if __name__ == "__main__":
    sys.exit(main(sys.argv[1:]))
