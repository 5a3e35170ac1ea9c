"""Proves and builds the library in the current folder, by JOBS processes.

    ../../dev/library JOBS
    ../../dev/library --proved

It does what `rt lib` does, but as under `rt ci` the built library has only its statements, and no proofs. A crate above
it needs no more, and loads that in a fraction of the time. The stamp beside it is that of `rt lib`, so that `rt check`
and `rt run` accept it.

With --proved it proves nothing: it takes the library that `rt ci` left here, in a tree that this has just passed. The
status is 1 if there is none.

The toolchain has no command for that. So this script uses a private module of it, rtlib.py beside `rt`, and the names
in NEEDED. If the module differs, the script says what it lacks, with status 2, and builds nothing.
"""
import importlib.util
import inspect
import os
import shutil
import sys

from precopy_dev.files import write_file

# The names of rtlib that this script uses. Of a function or a class: what it is called with.
NEEDED = {
    "RATTLE": None,
    "root_above": ("folder",),
    "Crate": ("folder", "root", "known"),
    "Crate.is_built": ("self",),
    "Crate.stamp": ("self",),
    "Crate.words": ("self", "flags"),
    "Crate.call": ("self", "words"),
    "help_of": ("verb",),
}


class Differs(Exception):
    """The toolchain's module is not the one that this script was written for; the text says how."""


def member(module, name):
    for part in name.split("."):
        module = getattr(module, part, None)
    return module


def lacks(module):
    """Returns what the module lacks of NEEDED, or None."""
    for name, parameters in NEEDED.items():
        found = member(module, name)
        if found is None:
            return f"has no {name}"
        if parameters and [*inspect.signature(found).parameters][: len(parameters)] != [*parameters]:
            return f"calls {name} with other parameters"
    if "--statements" not in module.help_of("build"):
        return "builds no libraries that have only statements"
    return None


def toolchain():
    """Returns the toolchain's module, of the names that this script uses."""
    command = shutil.which("rt")
    if not command:
        raise Differs("has no command rt on the path")
    spec = importlib.util.spec_from_file_location(
        "rtlib", os.path.join(os.path.dirname(os.path.realpath(command)), "rtlib.py")
    )
    module = importlib.util.module_from_spec(spec)
    try:
        spec.loader.exec_module(module)
    except (ImportError, OSError) as fault:
        raise Differs(f"has no module rtlib beside rt ({fault})") from fault
    if why := lacks(module):
        raise Differs(f"{why} in its module rtlib")
    return module


def mark(stamp, beside):
    write_file(stamp, f"{beside}/stamp")


def crate_here(rtlib):
    folder = os.getcwd()
    return rtlib.Crate(folder, rtlib.root_above(folder), {})


def take_proved(rtlib):
    crate = crate_here(rtlib)
    if os.path.isdir(crate.rlib) and not crate.is_built():
        mark(crate.stamp(), os.path.dirname(crate.rlib))
    return 0 if crate.is_built() else 1


def build(rtlib, jobs):
    crate = crate_here(rtlib)
    if crate.is_built():
        return 0
    stamp, beside = crate.stamp(), os.path.dirname(crate.rlib)
    shutil.rmtree(beside, ignore_errors=True)
    os.makedirs(beside)
    words = [*crate.words(["--jobs", jobs]), "--statements", "-o", crate.rlib]
    status = crate.call(rtlib.RATTLE, "build", *words)
    if status == 0:
        mark(stamp, beside)
    return status


def main(words):
    if len(words) != 1 or not (words[0].isdigit() or words[0] == "--proved"):
        print("usage: library JOBS or library --proved, in a crate's folder", file=sys.stderr)
        return 2
    try:
        rtlib = toolchain()
        return build(rtlib, words[0]) if words[0].isdigit() else take_proved(rtlib)
    except Differs as difference:
        print(f"library: the Rattle toolchain here {difference}: README.md names the one that fits", file=sys.stderr)
        print("library: 'rt lib' in the crate's folder builds the library too, in more time", file=sys.stderr)
        return 2


if __name__ == "__main__":
    sys.exit(main(sys.argv[1:]))
