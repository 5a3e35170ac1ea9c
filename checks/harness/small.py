"""A small check, which a case of checks/harness writes and runs."""

import os
import sys

from checks.lib.harness import SEED, Run, run
from precopy_dev.files import write_file
from precopy_dev.tree import TOP

HEAD = """\
from checks.lib.harness import *
from checks.lib.tally import expect_in_time

"""
TAIL = '\n\nrun_main(check, "A small check.")\n'


def path_in(folder: str, name: str) -> str:
    os.makedirs(os.path.join(folder, "small"), exist_ok=True)
    return os.path.join(folder, "small", name)


def keep(folder: str, text: str) -> None:
    """Writes the draws that failed once."""
    write_file(text, path_in(folder, "failed_seeds.tsv"))


def small_check(folder: str, body: str, *words: str, seed: int | None = 7, **more: str) -> Run:
    """Runs a check with this body, which defines check(tally, given), and with more variables of the environment."""
    path = write_file(HEAD + body + TAIL, path_in(folder, "__main__.py"))
    environment = {**os.environ, "PYTHONPATH": f"{TOP}:{TOP}/python", SEED: str(seed), **more}
    if seed is None:
        del environment[SEED]
    return run([sys.executable, "-B", path, *words], env=environment, cwd=folder)
