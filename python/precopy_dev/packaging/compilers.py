"""The commands that make the library and the launchers from C."""

import os
import shutil
import subprocess


class Lacks(Exception):
    """Something that is needed to make what is installed is not there, or fails; the text says what."""


def tool(name, makes):
    path = shutil.which(os.environ.get("CC", "cc") if name == "cc" else name)
    if not path:
        raise Lacks(f"{name} is not on the path, and makes {makes}")
    return path


def run(*words):
    status = subprocess.run(words, check=False, stdin=subprocess.DEVNULL).returncode
    if status:
        raise Lacks(f"{words[0]} ended with status {status}")
