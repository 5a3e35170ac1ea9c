"""Cases of checks/watch: words and limits that are refused, and limits that change."""

import errno
import os
import signal
import subprocess

from checks.lib.harness import cases_of, expect
from checks.watch.watch_runs import LIMITS, SECONDS, WATCH, WRITTEN, Watching, known, metrics_in, of_guest
from precopy_dev.files import read_text, write_file
from precopy_tools.watch import limits, service

# Limits, and what is said of them.
REFUSED = (
    ("", "limits.toml: default has no link: the rate at which pages are sent"),
    ("[default", "limits.toml is no TOML: "),
    ("\udcff", "limits.toml is no TOML: "),
    ('default = "1Gbit"\n', "limits.toml: default is no table"),
    ('[default]\nlink = "1Gbit"\n[guest.a]\n', "limits.toml: there is no table guest"),
    ("[default]\nlink = 5\n", "limits.toml: default: link is no text: 5"),
    ('[default]\nlink = "5"\n', "limits.toml: default: link: '5': a number and its unit"),
    ('[default]\nlink = "1Gbit"\nspeed = "1Gbit"\n', "limits.toml: default: there is no limit speed"),
    (
        '[default]\nlink = "1Gbit"\n[guests.a]\nwatch = 1\n',
        "limits.toml: guests: a: watch is neither true nor false: 1",
    ),
    ('guests = 1\n[default]\nlink = "1Gbit"\n', "limits.toml: guests is no table"),
    ('[default]\nlink = "1Gbit"\n[guests]\na = 1\n', "limits.toml: guests: a is no table"),
    ("[default]\n" * 2, "limits.toml is no TOML: "),
)


def refused_limits(program, folder):
    """Each is refused by its name and its cause, before anything is recorded."""
    path = os.path.join(folder, "limits.toml")
    asked = ["--textfile", os.path.join(folder, "a.prom"), "--output", folder, "--limits", path, "--program", program]
    for text, said in (*REFUSED, (None, "limits.toml: No such file or directory")):
        if text is not None:
            write_file(text.encode(errors="surrogateescape"), path)
        elif os.path.exists(path):
            os.unlink(path)
        done = subprocess.run([WATCH, *asked], capture_output=True, text=True, timeout=SECONDS)
        expect(done.returncode == 1 and said in done.stderr, f"{text!r}: {done.returncode}, {done.stderr!r}")
        expect(done.stderr.startswith("watch: ") and done.stderr.count("\n") == 1, done.stderr)
    expect(not os.listdir(folder), f"left: {os.listdir(folder)}")


def refused_words(program, folder):
    textfile = os.path.join(folder, "a.prom")
    asked = {"--textfile": textfile, "--output": folder, "--program": program}
    for changed, said in (
        ({"--textfile": os.path.join(folder, "a.txt")}, "only names that end in .prom"),
        ({"--output": os.path.join(folder, "none")}, "there is no folder"),
        ({"--program": os.path.join(folder, "none")}, "there is no program"),
        ({"--pages": "70000"}, "at most 65,536"),
        ({"--pages": "0"}, "whole number from 1"),
        ({"--segment": "900ms"}, "--segment is 1s or more"),
        ({"--segment": "1s", "--every": "300ms"}, "--segment is 1s or more, and four intervals"),
        ({"--processor": "0"}, "'0' is no number of processors from 0.01 to 64"),
        ({"--processor": "nan"}, "'nan' is no number of processors"),
        ({"--look": "5"}, "a number and its unit"),
        ({"--by": "chance"}, "invalid choice"),
    ):
        words = [word for pair in {**asked, **changed}.items() for word in pair]
        done = subprocess.run([WATCH, *words], capture_output=True, text=True, timeout=SECONDS)
        expect(done.returncode == 2 and said in done.stderr, f"{changed}: {done.returncode}, {done.stderr!r}")
    done = subprocess.run([WATCH], capture_output=True, text=True, timeout=SECONDS)
    expect(done.returncode == 2 and "--textfile" in done.stderr, done.stderr)
    expect(not os.listdir(folder), f"left: {os.listdir(folder)}")


def limits_that_change(program, folder):
    """New limits count from the next prediction on, and those that are refused leave the ones before."""
    link = of_guest("precopy_guest_link_bytes_per_second", "a")
    with known(folder, "a.qmp"), Watching(program, folder) as run:
        run.wait_for(lambda found: found.get(link) == 64 << 20, "64 MiB a second")
        run.put_limits("[default")
        run.wait_for_looks(2)
        expect(run.metrics()[link] == 64 << 20, f"{run.metrics()}")
        run.put_limits(f'{LIMITS}time = "1us"\n[guests.a]\nlink = "32MiB"\n')
        run.wait_for(lambda found: found.get(link) == 32 << 20, "32 MiB a second")
        found = run.wait_for_value("precopy_guest_verdict", "a", 1, verdict="missed")
        expect(found[of_guest("precopy_guest_duration_limit_seconds", "a")] == 1e-6, f"{found}")
        run.put_limits(f"{LIMITS}[guests.a]\nwatch = false\n")
        run.wait_for(lambda found: not any(("guest", "a") in key for key in found), "a is left alone")
        run.end_well()
    expect(run.faults.count("the limits stay as they were: ") == 1, run.faults)


class Once(limits.File):
    """Limits that cannot be read once. `said` is what is told of that."""

    is_readable, said = True, ()

    def _read(self):
        if not self.is_readable:
            self.is_readable = True
            raise PermissionError(errno.EACCES, os.strerror(errno.EACCES), self.path)
        return super()._read()

    def _complain(self, told):
        self.said = (*self.said, told)


def limits_that_cannot_be_read_once(_, folder):
    """Limits that have changed, and cannot be read then, count as soon as they can be."""
    path = write_file(LIMITS, folder, "limits.toml")
    file = Once(path)
    write_file(LIMITS.replace("64MiB", "32768KiB"), path)
    file.is_readable = False
    expect([file.now().default.link for _ in range(3)] == [64 << 20, 32 << 20, 32 << 20], f"{file.host}")
    write_file("[default", path)
    expect([file.now().default.link for _ in range(3)] == [32 << 20] * 3, f"{file.host}")
    expect(file.said[0] == f"{path}: Permission denied" and len(file.said) == 2, f"{file.said}")


class Looked:
    """A host without guests, that ends the service with its first look. `text` is what was told then."""

    def __init__(self, textfile):
        self.textfile, self.by, self.text = textfile, None, None

    def look(self):
        self.by, self.text = "a look", read_text(self.textfile)
        return {}

    def sleep(self, _):
        """It is over."""


def texts_of_killed_ones(program, folder):
    """What a service told that was killed ends when the next one begins, and not only after its first look."""
    textfile = write_file('precopy_guest_verdict{guest="a",verdict="kept"} 1\n', folder, "a.prom")
    host, file = Looked(textfile), limits.File(write_file(LIMITS, folder, "limits.toml"))
    asked = service.Asked(program, folder, textfile, [], 4096, 0.2, 600.0, 10.0, 0.5)
    service.Service(host, file, asked, host).run()
    found = metrics_in(host.text)
    expect(WRITTEN in found and not any(("guest", "a") in key for key in found), host.text)
    expect(("precopy_watch_host_up",) not in found and ("precopy_watch_guests",) not in found, host.text)
    found = metrics_in(read_text(textfile))
    expect(found[("precopy_watch_host_up",)] == 1 and found[("precopy_watch_guests",)] == 0, f"{found}")


def nobody_reads_its_text(program, folder):
    """If its text cannot be written, it says so and records all the same."""
    with known(folder, "a.qmp"), Watching(program, folder, textfile="none/precopy.prom") as run:
        while not run.records_of("a"):
            expect(run.process.poll() is None, run.process.poll())
        run.end(signal.SIGINT)
        expect(run.process.returncode == 0 and run.records_of("a"), f"{run.process.returncode}, {run.faults}")
    expect(run.faults.count("precopy.prom: No such file or directory") == 1, run.faults)


CASES = cases_of(__name__)
