"""Trials of the completions in bash and in zsh: each offers what the program's help says."""

import os
import pty
import re
import select
import subprocess
import time

from checks.lib.tally import has
from precopy_dev.files import write_file
from precopy_dev.packaging import completions, contents

SECONDS = 120
# Completes the words of "$@" from the second on in a new shell, and prints each answer in a line.
BASH = """\
set -u
source "$1"
shift
COMP_WORDS=("$@") COMP_CWORD=$(($# - 1))
function=$(complete -p "$1" | sed -E 's/.* -F ([^ ]+) .*/\\1/')
"$function" "$1" "${COMP_WORDS[COMP_CWORD]}" "${COMP_WORDS[COMP_CWORD - 1]}"
printf '%s\\n' "${COMPREPLY[@]}"
"""
PROMPT = "READY> "
ZSH = """\
PROMPT='READY> '
bindkey '^Xk' kill-buffer
fpath=({folder} $fpath)
autoload -Uz compinit
compinit -u -D
LISTMAX=1000
setopt NO_BEEP NO_LIST_PACKED
zstyle ':completion:*' group-name ''
zstyle ':completion:*' list-separator '--'
"""


def files_of(folder):
    """Writes all completions into two folders, and returns these and all commands."""
    bash, zsh = os.path.join(folder, "bash"), os.path.join(folder, "zsh")
    places = contents.places_below("")._replace(bash=bash, zsh=zsh)
    for entry in contents.pages(places):
        if entry.place.startswith((f"{bash}/", f"{zsh}/")):
            os.makedirs(os.path.dirname(entry.place), exist_ok=True)
            write_file(entry.data, entry.place)
    programs, tools = contents.told_by_help()
    return bash, zsh, [*programs, *tools]


def wanted_after(program, command):
    """What may follow the words of a command, but for files."""
    words = {each.words[-1] for each in command.commands} | {option.name for option in command.options}
    words |= {word for operand in command.operands for word in operand.choices}
    return words | ({"help"} if command is program and program.commands else set())


# ---- bash.


def in_bash(file, words, cwd):
    command = ["bash", "--norc", "--noprofile", "-c", BASH, "bash", file, *words]
    done = subprocess.run(command, cwd=cwd, stdin=subprocess.DEVNULL, capture_output=True, text=True, timeout=SECONDS)
    return set(done.stdout.split("\n")) - {""} if not done.stderr else done.stderr


def try_bash(tally, folder, program, empty, with_file):
    """Completes in a folder without files and, after options with a value, in one with a file."""
    file = os.path.join(folder, program.words[0])
    for command in program.each():
        wanted = wanted_after(program, command)
        found = in_bash(file, [*command.words, ""], empty)
        tally.add(found == wanted, f"bash after {' '.join(command.words)}: {found}, and not {wanted}")
        for option in command.options:
            found = in_bash(file, [*command.words, option.name[:-1]], empty)
            tally.add(option.name in found, f"bash after {' '.join(command.words)} {option.name[:-1]}: {found}")
            if option.value:
                check_value(tally, file, command, option, with_file)
    found = in_bash(file, [program.words[0], "--no-such"], empty)
    tally.add(found == set(), f"bash after {program.words[0]} --no-such: {found}")


def check_value(tally, file, command, option, with_file):
    """After an option with a value: numbers, or files if the value is one, or nothing."""
    wanted = set(completions.values_of(option).split())
    if option.value in completions.FILES and not wanted:
        wanted = {"file of a trace"}
    found = in_bash(file, [*command.words, option.name, ""], with_file)
    tally.add(found == wanted, f"bash after {' '.join(command.words)} {option.name}: {found}, and not {wanted}")


# ---- zsh.


class Shell:
    """A zsh at a terminal, with the completions of a folder."""

    def __init__(self, folder, home):
        self.child, self.terminal = pty.fork()
        if self.child == 0:
            os.chdir(home)
            environment = {"PATH": os.environ["PATH"], "HOME": home, "TERM": "dumb", "LC_ALL": "C.UTF-8"}
            os.execvpe("zsh", ["zsh", "-f", "-i"], {**environment, "COLUMNS": "300", "LINES": "200"})
        self.send("stty rows 200 cols 300 2> /dev/null\n" + ZSH.format(folder=folder))
        self.offers("")

    def send(self, text):
        os.write(self.terminal, text.encode())

    def read_to(self, mark):
        """Reads until a text and the next prompt after it have come, or the time is over. Keys that come before the
        prompt would be taken by the terminal, not by the shell's editor."""
        text, end = "", time.monotonic() + SECONDS
        while PROMPT not in text.partition(mark)[2] and time.monotonic() < end:
            if select.select([self.terminal], [], [], 1)[0]:
                text += os.read(self.terminal, 1 << 16).decode(errors="replace")
        return text

    def offers(self, line):
        """What is listed after a line. The shell takes key by key, so it has listed all when it comes to the mark."""
        self.send(f"{line}\t\t\x18kecho mark-$((1 + 1))\n" if line else "echo mark-$((1 + 1))\n")
        listed = self.read_to("mark-2")
        return re.sub(r"\x1b\[[0-9;?]*[A-Za-z]", "", listed)

    def end(self):
        self.send("exit\n")
        os.close(self.terminal)
        os.waitpid(self.child, 0)


def try_zsh(tally, shell, program):
    for command in program.each():
        line = " ".join(command.words)
        listed = shell.offers(f"{line} --")
        found = set(re.findall(r"(?<![\w-])(--[a-z][\w-]*)", listed))
        wanted = {option.name for option in command.options}
        # A single option is not listed: it is put on the line.
        tally.add(found == wanted, f"zsh after {line} --: {sorted(found)}, and not {sorted(wanted)}: {listed[-300:]!r}")
        names = {each.words[-1] for each in command.commands}
        if names:
            listed = shell.offers(f"{line} ")
            lines = "\n".join(line for line in listed.split("\n") if " -- " in line)
            missing = {name for name in names if not re.search(rf"(?<![\w-]){re.escape(name)}(?![\w-])", lines)}
            tally.add(not missing, f"zsh after {line} does not offer {sorted(missing)}: {listed[-300:]!r}")


def check(tally, folder):
    bash, zsh, programs = files_of(folder)
    empty, with_file = os.path.join(folder, "empty"), os.path.join(folder, "one")
    os.makedirs(empty)
    os.makedirs(with_file)
    with open(os.path.join(with_file, "file of a trace"), "w", encoding="utf-8"):
        pass
    if has("bash", "bash", "completions in bash"):
        for program in programs:
            with tally.case(f"bash completes {program.words[0]}") as case:
                try_bash(case, bash, program, empty, with_file)
    if has("zsh", "zsh", "completions in zsh"):
        shell = Shell(zsh, empty)
        for program in programs:
            with tally.case(f"zsh completes {program.words[0]}") as case:
                try_zsh(case, shell, program)
        shell.end()
