"""Trials of the launchers, which are installed as precopy and precopy-view, over a stand-in that tells how it starts.
"""

import contextlib
import os
import shutil
import signal
import subprocess
import time

from checks.lib.harness import drawn, waited
from checks.lib.tally import LeftOut, has
from precopy_dev.files import write_file
from precopy_dev.packaging import launcher
from precopy_dev.tree import TOP

SECONDS = 60
STARTS, MOST_MILLISECONDS = 200, 0.5
# Parts of settings.
# What a launcher adds, as docs/COMMANDS.md tells it.
LARGE_PAGES = ["glibc.malloc.hugetlb=1", "glibc.malloc.mmap_threshold=4294967296", "glibc.malloc.top_pad=67108864"]
PIECES = [*LARGE_PAGES, "glibc.malloc.hugetlb=0", "glibc.malloc.top_pad=1"]
PIECES += ["mine", "a=b", "x=glibc.malloc.hugetlb=1", "glibc.malloc.hugetlb", "glibc.malloc.hugetlb2=1", "", "="]


def joined(mine):
    """What becomes of the user's setting."""
    names = {part.split("=")[0] for part in mine.split(":") if "=" in part}
    more = [part for part in LARGE_PAGES if part.split("=")[0] not in names]
    return ":".join([mine, *more]) if mine else ""


def joined_settings():
    """Settings of users, and what becomes of each."""
    yield from ((mine, joined(mine)) for mine in ("", "mine", "glibc.malloc.hugetlb=0", ":".join(LARGE_PAGES)))
    for chosen in drawn("settings of users", range(20)):
        mine = ":".join(chosen.choices(PIECES, k=chosen.randint(1, 4)))
        yield mine, joined(mine)


class Installed:
    """A launcher and its stand-in, in folders as below a prefix."""

    def __init__(self, folder):
        self.launcher = os.path.join(folder, "a prefix", "bin", "precopy")
        self.program = os.path.join(folder, "a prefix", "lib", "precopy", "precopy")
        self.told = os.path.join(folder, "told")
        for path in (self.launcher, self.program):
            os.makedirs(os.path.dirname(path))
        write_file(launcher.launcher("../lib/precopy/precopy"), self.launcher)
        os.chmod(self.launcher, 0o755)
        words = ["cc", "-std=gnu99", "-O2", "-Wall", "-Wextra", "-o", self.program, f"{TOP}/checks/doors/started.c"]
        subprocess.run(words, check=True)

    def start(self, words=(b"precopy",), path=None, environment=None, **how):
        """Starts the launcher, or another path to it, by words of which the first is its name."""
        environment = {"STARTED_TELLS": self.told, **(environment or {})}
        how = {"stdin": subprocess.DEVNULL, "stdout": subprocess.PIPE, "stderr": subprocess.PIPE, **how}
        with contextlib.suppress(FileNotFoundError):
            os.unlink(self.told)
        return subprocess.Popen(words, executable=path or self.launcher, env=environment, **how)

    def run(self, words=(b"precopy",), **how):
        started = self.start(words, **how)
        output, faults = started.communicate(timeout=SECONDS)
        return started.returncode, output, faults

    def heard(self, name):
        """What the stand-in told last under a name."""
        if not os.path.exists(self.told):
            return None
        with open(self.told, encoding="ascii") as lines:
            return [line.rstrip("\n").partition(" ")[2] for line in lines if line.startswith(f"{name} ")]

    def heard_bytes(self, name):
        return [bytes.fromhex(text) for text in self.heard(name) or []]

    def setting(self):
        """The variable as the stand-in got it, or None."""
        found = [it for it in self.heard_bytes("variable") if it.startswith(b"GLIBC_TUNABLES=")]
        return found[0].partition(b"=")[2].decode() if found else None


def hand_on_words(tally, it):
    for chosen in drawn("words of launchers", range(30)):
        words = [bytes(chosen.choices(range(1, 256), k=chosen.randint(0, 40))) for _ in range(chosen.randint(1, 50))]
        words = [b"precopy" if chosen.number % 2 else words[0], b"", *words]
        status, output, faults = it.run(words)
        good = (status, output, faults) == (0, b"", b"") and it.heard_bytes("word") == words
        tally.add(good, f"the launcher with words {words[:4]}: status {status}, {faults!r}")
    many = [b"precopy", *(b"%d" % number for number in range(5000)), b"x" * 100_000]
    tally.add(it.run(many)[0] == 0 and it.heard_bytes("word") == many, "the launcher with 5,000 words and a long one")


def hand_on_statuses(tally, it):
    for status in (0, 1, 2, 3, 77, 126, 127, 255):
        ran = it.run([b"precopy", b"status", b"%d" % status])
        tally.add(ran == (status, b"", b""), f"the launcher of a program with status {status}: {ran}")
    for number in (signal.SIGABRT, signal.SIGKILL, signal.SIGPIPE, signal.SIGTERM, signal.SIGXFSZ):
        # Python has some of these ignored, and so would the program.
        ran = it.run([b"precopy", b"signal", b"%d" % number], restore_signals=True)
        tally.add(ran[0] == -number, f"the launcher of a program that ends by {number.name}: {ran}")
    for number in (signal.SIGINT, signal.SIGTERM, signal.SIGHUP):
        # A shell starts what it runs in the background with some of these ignored.
        started = it.start([b"precopy", b"wait"], preexec_fn=lambda: signal.signal(number, signal.SIG_DFL))
        waited(lambda: it.heard("process"), SECONDS)
        tally.add(it.heard("process") == [str(started.pid)], "the program runs in another process than the launcher")
        started.send_signal(number)
        started.communicate(timeout=SECONDS)
        tally.add(started.returncode == -number, f"{number.name} to the launcher: status {started.returncode}")


def hand_on_signals(tally, it):
    ignored, blocked = {signal.SIGINT, signal.SIGPIPE, signal.SIGQUIT}, {signal.SIGTERM, signal.SIGUSR1}

    def prepare():
        for number in ignored:
            signal.signal(number, signal.SIG_IGN)
        signal.pthread_sigmask(signal.SIG_BLOCK, blocked)

    for path in (it.program, it.launcher):
        it.run(path=path, preexec_fn=prepare, restore_signals=False)
        found = {int(number) for number in it.heard("ignored")}, {int(number) for number in it.heard("blocked")}
        good = ignored <= found[0] and blocked == found[1]
        tally.add(good, f"{os.path.relpath(path, TOP)} with signals ignored and blocked finds {found}")


def hand_on_files(tally, it):
    """Standard files that are closed stay closed, and others open, in all combinations."""
    for closed in range(8):
        these = [number for number in range(3) if closed >> number & 1]

        def close(these=these):
            for number in these:
                os.close(number)

        other = os.open(os.devnull, os.O_RDONLY)
        status = it.run(preexec_fn=close, pass_fds=[other])[0]
        wanted = [str(number) for number in (*range(3), other) if number not in these]
        found = it.heard("open")
        tally.add(status == 0 and found == wanted, f"the launcher with {these} closed: status {status}, open {found}")
        os.close(other)


def hand_on_variables(tally, it):
    it.run()
    tally.add(it.setting() == launcher.large_pages(), f"the launcher sets {it.setting()}")
    for mine, wanted in joined_settings():
        it.run(environment={"GLIBC_TUNABLES": mine, "OTHER": "1"})
        tally.add(it.setting() == wanted, f"the launcher makes {it.setting()!r} of {mine!r}, not {wanted!r}")
        tally.add(b"OTHER=1" in it.heard_bytes("variable"), "the launcher drops another variable")
    odd = {b"ODD\xff": b"\xfe\x80", b"GLIBC_TUNABLES": b"\xff=\xfe"}
    it.run(environment=odd)
    found = it.heard_bytes("variable")
    good = b"ODD\xff=\xfe\x80" in found and b"GLIBC_TUNABLES=\xff=\xfe:" + launcher.large_pages().encode() in found
    tally.add(good, f"the launcher with variables that are not UTF-8: {found}")
    # A variable so long that the system hands on no longer one.
    longest = "x" * (32 * os.sysconf("SC_PAGESIZE") - len("GLIBC_TUNABLES=") - 1)
    ran = it.run(environment={"GLIBC_TUNABLES": longest})
    tally.add(ran[0] == 0 and it.setting() == longest, f"the launcher with the longest variable: {ran}")


def start_otherwise(tally, it, folder):
    """By links, by the path, from other folders, and where /proc is missing."""
    links = os.path.join(folder, "links")
    os.makedirs(links)
    os.symlink(it.launcher, f"{links}/precopy")
    os.symlink("precopy", f"{links}/other")
    ways = [(f"{links}/precopy", "/"), (f"{links}/other", "/"), ("./precopy", os.path.dirname(it.launcher))]
    for path, cwd in [*ways, ("../bin/precopy", os.path.dirname(it.launcher)), ("./other", links)]:
        ran = it.run(path=path, cwd=cwd)
        tally.add(ran[0] == 0 and it.heard("process"), f"the launcher, started as {path} in {cwd}: {ran}")
    line = f"PATH='{links}':$PATH precopy"
    ran = it.run(["sh", "-c", line], path="/bin/sh")
    tally.add(ran[0] == 0 and it.heard("process"), f"the launcher on the path: {ran}")


def start_without_proc(tally, it, folder):
    links = os.path.join(folder, "links")
    hide = ["unshare", "--mount", "sh", "-c", 'mount -t tmpfs none /proc && exec "$0"', f"{links}/other"]
    probe = subprocess.run([*hide[:-1], "true"], stderr=subprocess.PIPE, check=False)
    if probe.returncode:
        raise LeftOut(probe.stderr.decode().strip())
    ran = it.run(hide, path=shutil.which("unshare"))
    tally.add(ran[0] == 0 and it.heard("process"), f"the launcher without /proc: {ran}")


def fail(tally, it):
    """The program proper cannot be started."""
    path = os.path.join(os.path.dirname(it.launcher), "../lib/precopy/precopy")
    os.chmod(it.program, 0o644)
    ran = it.run()
    tally.add(ran == (126, b"", f"precopy: {path}: Permission denied\n".encode()), f"no right to run it: {ran}")
    os.rename(it.program, f"{it.program}.away")
    ran = it.run()
    tally.add(ran == (127, b"", f"precopy: {path}: No such file or directory\n".encode()), f"no program: {ran}")
    ran = it.run(preexec_fn=lambda: os.close(2))
    tally.add(ran[:2] == (127, b""), f"no program, and standard error closed: {ran}")
    os.rename(f"{it.program}.away", it.program)
    os.chmod(it.program, 0o755)


def least_milliseconds(path):
    """The least time that a start takes, from before it to its end."""
    took = []
    for _ in range(STARTS):
        began = time.perf_counter()
        started = os.posix_spawn(path, ["precopy"], {"STARTED_TELLS": os.devnull})
        os.waitpid(started, 0)
        took.append(time.perf_counter() - began)
    return min(took) * 1000


def cost(tally, it):
    """What a launcher adds to a start: the least of three measurements, since others work here too. On a slow machine
    it is no more than a start of the program takes there."""
    found = []
    for _ in range(3):
        alone = least_milliseconds(it.program)
        found.append((least_milliseconds(it.launcher) - alone, alone))
    added, alone = min(found)
    print(f"  a launcher adds {added:.2f} ms to {alone:.2f}", flush=True)
    tally.add(added < max(MOST_MILLISECONDS, alone), f"a launcher adds {added:.2f} ms to {alone:.2f}")


def check(tally, folder):
    if not has("cc", "gcc", "the launchers"):
        return
    it = Installed(folder)
    for name, part, *words in (
        ("words", hand_on_words),
        ("statuses", hand_on_statuses),
        ("signals", hand_on_signals),
        ("files", hand_on_files),
        ("variables", hand_on_variables),
        ("links and folders", start_otherwise, folder),
        ("no /proc", start_without_proc, folder),
        ("no program", fail),
        ("cost", cost),
    ):
        with tally.case(f"a launcher: {name}") as case:
            part(case, it, *words)
