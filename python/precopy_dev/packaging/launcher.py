"""Launchers: what is installed in the place of a program, and starts it with memory in large pages."""

import functools
import os
import re
import tempfile

from precopy_dev.files import read_bytes
from precopy_dev.packaging import compilers
from precopy_dev.tree import TOP, read

OPTIONS = ["-std=c99", "-O2", "-Wall", "-Wextra", "-pedantic", "-Wl,--build-id=none", "-Wl,-s", "-Wl,-z,now"]


@functools.cache
def large_pages():
    """The parts of GLIBC_TUNABLES with which dev/start runs a program."""
    found = re.search(r"^large_pages='([^']*)'$", read("dev/start"), re.M)
    if not found:
        raise compilers.Lacks("dev/start does not set large_pages as python/precopy_dev/packaging/launcher.py expects")
    return found[1].replace(" ", ":")


@functools.cache
def launcher(program):
    """Returns the launcher of a program, whose path begins in the launcher's folder."""
    words = [f'-DPROGRAM="{program}"', f'-DLARGE_PAGES="{large_pages()}"', os.path.join(TOP, "packaging", "launcher.c")]
    with tempfile.TemporaryDirectory() as folder:
        made = os.path.join(folder, "launcher")
        compilers.run(compilers.tool("cc", "the launchers"), *OPTIONS, *words, "-o", made)
        return read_bytes(made)
