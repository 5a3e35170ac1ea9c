"""Trials of ./precopy, ./precopy-view, dev/build and dev/library, over a small tree of the same form.

The tree has one library and one program, which the toolchain proves in seconds. Its folder has a blank in its name.
"""

import contextlib
import os
import shutil
import signal
import subprocess
import sys
import time

from checks.doors import launchers
from checks.lib.harness import Run as Ran
from checks.lib.harness import waited
from checks.lib.tally import LeftOut
from precopy_dev.files import read_text, write_file
from precopy_dev.tree import TOP

SECONDS, SECONDS_TO_END = 400, 60
NOBODY = 65534
STOPPING = (signal.SIGINT, signal.SIGTERM, signal.SIGHUP)
COPIED = ("precopy", "precopy-view", "dev/build", "dev/library", "dev/start", "python/__main__.py")
MODULES = tuple(f"python/precopy_dev/{name}.py" for name in ("__init__", "build", "files", "library", "tree", "words"))
BUILD = "python/precopy_dev/build.py"
LIBRARY = """\
//! A library for a trial of the build.
#![tactic(auto)]

mod steps;

pub use steps::next;
"""
STEPS = """\
//! Steps.

mod later;

pub use later::next;
"""
LATER = """\
//! A step.

ghost use Rattle.std.specs.Prelude.{{◌≡◌, ◌+◌, ◌<◌}};

/// Returns a later number.
pub fn next(x: u32) -> u32
    requires {{ x < 100 }}
    ensures {{ result ≡ x + {promised} }}
{{
    x + {added}
}}
"""
PROGRAM = """\
//! A program for a trial of the build.
#![tactic(auto)]

use low::next;
use std::io;

fn main(rt: HostRuntime) -> io::Result<()> {
    let number = next(NUMBER);
    println!(rt; "number {number}")?;
    Ok(())
}
"""
# Refuses every word, as a program that has none.
WORDLESS = """\
//! A program for a trial of the build.
#![tactic(auto)]

use low::next;
use std::process::ExitCode;

fn main(rt: HostRuntime) -> ExitCode {
    let number = next(2) as u8;
    ExitCode::from(number)
}
"""
# Takes the place of precopy_view, and prints what it was given.
VIEW = """\
#!/bin/sh
echo "view $# $1 $GLIBC_TUNABLES"
exit 7
"""


class Tree:
    """A small tree of sources, with the wrappers and the build of this repository."""

    def __init__(self, folder):
        self.top = os.path.join(folder, "a tree")
        self.cache = os.path.join(folder, "cache")
        for path in (*COPIED, *MODULES):
            os.makedirs(os.path.dirname(os.path.join(self.top, path)), exist_ok=True)
            shutil.copy2(os.path.join(TOP, path), os.path.join(self.top, path))
        self.write("crates.txt", "low:\nprecopy: low\n")
        self.write("HANDLES", "Handles allowed: none.\n")
        self.write("crates/low/src/lib.rt", LIBRARY)
        self.write("crates/low/src/steps.rt", STEPS)
        self.set_library(1, 1)
        self.set_program(6)

    def write(self, path, text):
        path = os.path.join(self.top, path)
        os.makedirs(os.path.dirname(path), exist_ok=True)
        write_file(text, path)
        return path

    def set_library(self, promised, added):
        self.write("crates/low/src/steps/later.rt", LATER.format(promised=promised, added=added))

    def set_program(self, number):
        self.write("crates/precopy/src/main.rt", PROGRAM.replace("NUMBER", str(number)))

    def start(self, *command, cwd=None, path=None, user=None, **more):
        """Starts a command: ./precopy of the tree, if none is given."""
        environment = {**os.environ, "XDG_CACHE_HOME": self.cache, "PATH": path or os.environ["PATH"], **more}
        if "GLIBC_TUNABLES" not in more:
            environment.pop("GLIBC_TUNABLES", None)
        how = {"stdin": subprocess.DEVNULL, "stdout": subprocess.PIPE, "stderr": subprocess.PIPE, "user": user}
        how |= {"cwd": cwd or self.top, "env": environment, "start_new_session": True}
        return subprocess.Popen(command or ["./precopy"], **how)

    def run(self, *command, **how):
        started = self.start(*command, **how)
        return ended(started)


def ended(started):
    try:
        output, faults = started.communicate(timeout=SECONDS)
    except subprocess.TimeoutExpired:
        os.killpg(started.pid, signal.SIGKILL)
        output, faults = started.communicate()
    return Ran(started.returncode, output.decode(), faults.decode())


def folder_of_links(folder, *names):
    """A folder for a path on which only these commands are."""
    os.makedirs(folder)
    for name in names:
        found = sys.executable if name == "python3" else shutil.which(name)
        os.symlink(os.path.realpath(found), os.path.join(folder, name))
    return folder


def tell_what_is_missing(tally, tree, folder):
    without_toolchain = folder_of_links(os.path.join(folder, "no-rt"), "sh", "dirname", "env", "python3", "readlink")
    ran = tree.run(path=without_toolchain)
    good = ran.status == 1 and not ran.output and "rt is not on the path" in ran.faults
    tally.add(good, f"no toolchain on the path: {ran}")
    ran = tree.run(path=folder_of_links(os.path.join(folder, "no-python"), "sh", "env"))
    good = ran.status == 1 and not ran.output and "python3 is not on the path" in ran.faults
    tally.add(good, f"no python3 on the path: {ran}")
    ran = tree.run("dev/build", "none")
    tally.add(ran.status == 2 and "none" in ran.faults, f"a program that is none: {ran}")


def copies_of_sources(tree):
    """Files that a search of the tree would find besides the sources, but for what the toolchain keeps of a library."""
    for folder, _, names in os.walk(os.path.join(tree.top, "crates")):
        if "/out" in folder and "/out/rlib" not in folder:
            yield from (os.path.join(folder, name) for name in names if name.endswith((".rt", ".antt")))


def build_at_first(tally, tree):
    ran = tree.run()
    tally.add(ran.status == 0 and ran.output == "number 7\n", f"the first run: {ran}")
    parts = "some 2 minutes of a processor; later runs", "1 of 1 libraries", "low; left here: a minute"
    for told in (*parts, "building precopy, the last part", "precopy is built, "):
        tally.add(told in ran.faults, f"the first run does not tell {told!r}: {ran}")
    left = [name for _, _, names in os.walk(tree.cache) for name in names]
    tally.add(not left, f"a build leaves {left[:3]} outside the tree")
    built = os.stat(f"{tree.top}/crates/precopy/out/precopy")
    ran = tree.run()
    tally.add(ran.output == "number 7\n" and not ran.faults, f"the second run: {ran}")
    again = os.stat(f"{tree.top}/crates/precopy/out/precopy")
    tally.add((again.st_ino, again.st_mtime_ns) == (built.st_ino, built.st_mtime_ns), "the second run builds again")


def refuse_words(tally, tree):
    """A program is built whatever it answers to a word that it does not have."""
    tree.write("crates/precopy/src/main.rt", WORDLESS)
    ran = tree.run("dev/build")
    tally.add(ran.status == 0 and "precopy is built, " in ran.faults, f"a program that refuses --help: {ran}")
    ran = tree.run("./precopy", "word")
    tally.add(ran.status == 3 and not ran.faults, f"a program that refuses its words: {ran}")
    tree.set_program(8)


def tell_after_silence(tally, tree):
    """A build that says nothing for a while says what it proves: here after half a second."""
    text = read_text(f"{TOP}/{BUILD}")
    tally.add("\nSILENCE = 60  #" in text, f"{BUILD} does not say after how long it speaks")
    tree.write(BUILD, text.replace("\nSILENCE = 60  #", "\nSILENCE = 0.5  #"))
    tree.set_program(20)
    ran = tree.run()
    tally.add(ran.output == "number 21\n" and "still proving precopy, " in ran.faults, f"a silent build: {ran}")
    tree.write(BUILD, text)
    tree.set_program(8)


def call_it_otherwise(tally, tree, folder):
    """By a link, by a link to a link, from other folders, and by sh."""
    links = os.path.join(folder, "links")
    os.makedirs(links)
    os.symlink(f"{tree.top}/precopy", f"{links}/precopy")
    os.symlink("precopy", f"{links}/other")
    ways = [[f"{links}/precopy"], [f"{links}/other"], [f"{tree.top}/precopy"], ["sh", f"{tree.top}/precopy"]]
    for way in ways:
        ran = tree.run(*way, cwd="/")
        tally.add(ran.output == "number 7\n" and not ran.faults, f"called as {way}: {ran}")
    ran = tree.run("sh", "precopy")
    tally.add(ran.output == "number 7\n", f"called as sh precopy: {ran}")
    ran = tree.run("../precopy", cwd=f"{tree.top}/dev")
    tally.add(ran.output == "number 7\n", f"called from a folder below: {ran}")


def call_the_other_name(tally, tree):
    """precopy-view is the same script, and runs the other program: here one that prints what it was given."""
    same = [open(f"{TOP}/{name}", "rb").read() for name in ("precopy", "precopy-view")]
    tally.add(same[0] == same[1], "precopy and precopy-view differ")
    os.chmod(tree.write("crates/precopy_view/out/precopy_view", VIEW), 0o755)
    ran = tree.run("./precopy-view", "a b", "c")
    good = ran.status == 7 and ran.output.startswith("view 2 a b glibc.malloc.hugetlb=1")
    tally.add(good, f"./precopy-view: {ran}")
    for mine, wanted in launchers.joined_settings():
        ran = tree.run("./precopy-view", "a", GLIBC_TUNABLES=mine)
        tally.add(ran.output == f"view 1 a {wanted}\n", f"./precopy-view with a variable of one's own: {ran}")
    shutil.rmtree(f"{tree.top}/crates/precopy_view")


def run_without_rights(tally, tree):
    """Over a tree that the caller may only read, as another user, if this one may become that one."""
    if os.geteuid() != 0:
        raise LeftOut("that takes another user, and only root may become one")
    for folder in (os.path.dirname(tree.top), tree.top):
        os.chmod(folder, 0o755)
    ran = tree.run(user=NOBODY)
    tally.add(ran.output == "number 7\n" and not ran.faults, f"a tree that may only be read: {ran}")
    tree.set_program(7)
    ran = tree.run(user=NOBODY)
    good = ran.status == 1 and not ran.output and "cannot be written" in ran.faults
    tally.add(good, f"a source has changed in a tree that may only be read: {ran}")


def build_twice_at_once(tally, tree):
    tree.set_program(8)
    both = [ended(started) for started in [tree.start(), tree.start()]]
    tally.add(all(ran.output == "number 9\n" for ran in both), f"two builds at once: {both[0]}; {both[1]}")
    waits = ["another build works here" in ran.faults for ran in both]
    tally.add(any(waits), f"two builds at once, of which none waits: {both[0]}; {both[1]}")


def edit_meanwhile(tally, tree):
    """A source that is edited during a build is newer than what the build makes."""
    tree.set_program(10)
    started = tree.start()
    waited(lambda: processes_in(f"{tree.top}/crates/precopy") or started.poll() is not None, SECONDS, 0.1)
    time.sleep(2)
    tree.set_program(11)
    ran = ended(started)
    tally.add(ran.status == 0, f"a build during which a source is edited: {ran}")
    ran = tree.run()
    tally.add(ran.output == "number 12\n", f"after a build during which a source was edited: {ran}")
    tree.set_program(8)


def fail(tally, tree):
    tree.set_library(1, 2)
    ran = tree.run()
    tally.add(ran.status == 1 and not ran.output, f"a build that fails: {ran}")
    for told in ("crate low could not be built", "crates/low/out/build.log", "'rt check' in crates/low", "goes on"):
        tally.add(told in ran.faults, f"a build that fails does not say {told!r}: {ran}")
    log = f"{tree.top}/crates/low/out/build.log"
    tally.add(os.path.isfile(log) and "not-proved" in open(log).read(), "a build that fails keeps no log")


def processes_in(folder):
    found = []
    for name in os.listdir("/proc"):
        with contextlib.suppress(OSError):
            if name.isdigit() and os.readlink(f"/proc/{name}/cwd").startswith(folder):
                found.append(name)
    return found


def stop(tally, tree, number):
    """Stops a build by a signal to all of its terminal's processes, once it proves."""
    tree.set_library(2, 2)
    started = tree.start()
    waited(lambda: processes_in(tree.cache) or started.poll() is not None, SECONDS, 0.1)
    copies = list(copies_of_sources(tree))
    tally.add(not copies, f"a search of the tree finds copies of sources during a build: {copies[:2]}")
    os.killpg(started.pid, number)
    ran = ended(started)
    told = f"stopped by {number.name}" in ran.faults and "the next run goes on" in ran.faults
    tally.add(told and not ran.output, f"a build stopped by {number.name}: {ran}")
    # On a busy machine a process that was told to end takes a while.
    waited(lambda: not processes_in(tree.cache), SECONDS_TO_END, 0.1)
    left = processes_in(tree.cache)
    tally.add(not left, f"a build stopped by {number.name} leaves {len(left)} processes")


def go_on(tally, tree):
    ran = tree.run()
    tally.add(ran.status == 0 and ran.output == "number 10\n", f"a run after failed and stopped builds: {ran}")


def differ(tally, tree, folder):
    """dev/library, if the toolchain's module is another one."""
    other = os.path.join(folder, "other")
    for number, (text, told) in enumerate(
        [
            (None, "has no module rtlib"),
            ("RATTLE = ''\n", "has no root_above"),
            ("RATTLE = ''\ndef root_above(where):\n    pass\n", "calls root_above with other parameters"),
        ]
    ):
        bin_folder = folder_of_links(f"{other}{number}", "sh", "dirname", "env", "python3", "readlink")
        for name, what in (("rt", "#!/bin/sh\n"), ("rtlib.py", text)):
            if what is not None:
                os.chmod(write_file(what, bin_folder, name), 0o755)
        ran = tree.run("../../dev/library", "1", cwd=f"{tree.top}/crates/low", path=bin_folder)
        good = ran.status == 2 and told in ran.faults and "rt lib" in ran.faults and "Traceback" not in ran.faults
        tally.add(good, f"a toolchain of which the module {told}: {ran}")


def check(tally, folder):
    tree = Tree(folder)
    before = (
        ("what is missing is told", tell_what_is_missing, tree, folder),
        ("another toolchain", differ, tree, folder),
    )
    needs_toolchain = (
        ("the first build", build_at_first, tree),
        ("called by other names and from other folders", call_it_otherwise, tree, folder),
        ("./precopy-view", call_the_other_name, tree),
        ("a tree that may only be read", run_without_rights, tree),
        ("two builds at once", build_twice_at_once, tree),
        ("a source that is edited meanwhile", edit_meanwhile, tree),
        ("words that are refused", refuse_words, tree),
        ("a build that is silent", tell_after_silence, tree),
        ("a build that fails", fail, tree),
        *((f"a build stopped by {number.name}", stop, tree, number) for number in STOPPING),
        ("a build that goes on", go_on, tree),
    )
    if not tally.add(shutil.which("rt"), "the toolchain's command rt is not on the path"):
        needs_toolchain = ()
    for name, part, *words in (*before, *needs_toolchain):
        with tally.case(name) as case:
            part(case, *words)
