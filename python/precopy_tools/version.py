"""The version of precopy, and the options that all of its tools have."""

import argparse
import os
import re
import sys

VERSION = "0.6.0"
# The day of that version. What is installed has this date, so that two builds of one version are equal.
DATE = "2026-11-26"


# The folder above python/: the top of the sources, or that of the tools where they are installed.
TOP = os.path.dirname(os.path.dirname(os.path.dirname(os.path.realpath(__file__))))
IS_INSTALLED = not os.path.isdir(os.path.join(TOP, "crates"))


def complain(tool, text):
    """Says on standard error what is wrong, in the name that the tool has here."""
    print(f"precopy-{tool}: {text}" if IS_INSTALLED else f"{tool}: {text}", file=sys.stderr)


def called(tool):
    """How another tool is called: as in the sources, or as it is installed."""
    return f"precopy-{tool}" if IS_INSTALLED else f"tools/{tool}"


def whence(program):
    """What to do if a program is not there."""
    return f"the package precopy has {program}" if IS_INSTALLED else f"./{program} builds it"


def parser(name, about):
    """The parser of a tool: it shows what is told about the tool as it is written, and has --version."""
    layout = argparse.RawDescriptionHelpFormatter
    made = argparse.ArgumentParser(prog=name, description=about, formatter_class=layout, allow_abbrev=False)
    add_to(made)
    return made


def add_to(parser):
    """Adds --version. A tool that is installed as precopy-NAME has that name in its help, and not tools/NAME."""
    if IS_INSTALLED:
        parser.description = re.sub(r"\btools/([a-z])", r"precopy-\1", parser.description)
        parser.prog = f"precopy-{parser.prog}"
    parser.add_argument("--version", action="version", version=f"{parser.prog} (precopy) {VERSION}")
