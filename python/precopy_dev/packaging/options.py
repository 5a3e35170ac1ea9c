"""What a program's --help says: its commands, its options, and the words that it takes.

That help is the one place that describes a program's options. Completions and the manuals of the tools are made from
it, and checks/doors compares all other manuals with it. It is read in the forms of clap, which the programs use, and of
Python's argparse, which the tools use.
"""

import os
import re
import subprocess
from dataclasses import dataclass, field
from typing import Iterator, List, NamedTuple, Optional, Tuple

SECONDS = 20
# Headings of help, and what is below them.
HEADINGS = {
    "Commands:": "commands",
    "Arguments:": "operands",
    "positional arguments:": "operands",
    "Options:": "options",
    "options:": "options",
    "optional arguments:": "options",
}
ENTRY = re.compile(r" {2,6}(\S(?:.*?\S)?)(?: {2,}(\S.*))?")
MORE = re.compile(r" {8,}(\S.*)")
OPTION = re.compile(r"(--[\w-]+)(?:[ =](\[)?<?(\{[^}]*\}|[\w.-]+)>?)?")
LISTED = re.compile(r"\[possible values: ([\w-]+(?:, [\w-]+)*)\]")
CHOICE = re.compile(r"[\w-]+(?:, [\w-]+)+")


class Option(NamedTuple):
    """An option by its long name, the word for its value, if it has one, its help, and whether it may lack a value."""

    name: str
    value: Optional[str]
    help: str
    may_lack: bool = False

    @property
    def choices(self) -> List[str]:
        """The values to choose from, of an option that lists them, as {one,other} or as clap does in its help."""
        if self.value and self.value.startswith("{"):
            return self.value.strip("{}").split(",")
        listed = LISTED.search(self.help) if self.value else None
        return listed[1].split(", ") if listed else []


class Operand(NamedTuple):
    name: str
    help: str

    @property
    def choices(self) -> List[str]:
        """The words to choose from, if the help lists them and says nothing else."""
        return self.help.split(", ") if CHOICE.fullmatch(self.help) else []


@dataclass
class Command:
    """A program, or a command of it: the words that it is called by, and what its help says."""

    words: Tuple[str, ...]
    about: str = ""
    usage: str = ""
    options: List[Option] = field(default_factory=list)
    operands: List[Operand] = field(default_factory=list)
    commands: List["Command"] = field(default_factory=list)

    def each(self) -> Iterator["Command"]:
        """Yields the command, and all commands below it."""
        yield self
        for command in self.commands:
            yield from command.each()


class Unread(Exception):
    """A program printed no help that can be read; the text says which, and why."""


def help_of(path, words):
    environment = {**os.environ, "COLUMNS": "2000", "LC_ALL": "C.UTF-8"}
    command = [path, *words, "--help"]
    done = subprocess.run(command, env=environment, stdin=subprocess.DEVNULL, capture_output=True, timeout=SECONDS)
    if done.returncode:
        raise Unread(f"{' '.join(command)} ended with status {done.returncode}: {done.stderr.decode().strip()}")
    return done.stdout.decode()


def entries(text):
    """Yields what is below the headings: (kind, what is named, its help)."""
    kind, named, told = None, None, []
    for line in text.split("\n"):
        entry = ENTRY.fullmatch(line) if kind else None
        if entry or line.strip() in HEADINGS or not line.strip():
            if named:
                yield kind, named, " ".join(told)
            named = None
        if line in HEADINGS:
            kind = HEADINGS[line]
        elif entry:
            named, told = entry[1], [entry[2]] if entry[2] else []
        elif named and (more := MORE.fullmatch(line)):
            told.append(more[1])
        elif line.strip():
            kind = None
    if named:
        yield kind, named, " ".join(told)


def read(path, words=()) -> Command:
    """Returns the program at a path, or a command of it, with all commands below it."""
    text = help_of(path, words)
    command = Command((os.path.basename(path), *words), about=about_of(text), usage=usage_of(text))
    for kind, named, told in entries(text):
        if kind == "options":
            option = OPTION.search(named)
            if not option:
                raise Unread(f"{' '.join(command.words)} --help has an option without a long name: {named}")
            command.options.append(Option(option[1], option[3], told, bool(option[2])))
        elif kind == "operands":
            command.operands.append(Operand(named.strip("<>[]. "), told))
        elif named != "help":
            command.commands.append(read(path, (*words, named)))
    if not command.options:
        raise Unread(f"{' '.join(command.words)} --help tells no option")
    return command


def usage_of(text):
    found = re.search(r"^[Uu]sage: (.*)$", text, re.M)
    return found[1] if found else ""


def about_of(text):
    """Returns what the help says besides usage and entries, as it is there."""
    lines, about = text.split("\n"), []
    for line in lines:
        if line in HEADINGS:
            break
        if not line.lower().startswith("usage: "):
            about.append(line)
    return "\n".join(about).strip("\n")
