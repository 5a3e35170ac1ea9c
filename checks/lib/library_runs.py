"""What the parts of checks/library share: commands, files of the repository, the program's answers."""

import os
import subprocess

from precopy_dev.tree import TOP

LIBRARY = os.path.join(TOP, "out", "library")
SECONDS = 300


def run(*command, **how):
    how = {"stdin": subprocess.DEVNULL, "capture_output": True, "timeout": SECONDS, **how}
    if "input" in how:
        del how["stdin"]
    return subprocess.run(command, **how)


def is_done(tally, done, what):
    said = (done.stdout + done.stderr).decode(errors="replace")[-1500:]
    return tally.add(done.returncode == 0, f"{what}: status {done.returncode}\n{said}")


def program_says(program, words, trace):
    done = run(program, *words, input=trace)
    return done.stdout if done.returncode == 0 else done.stderr.decode().strip()
