"""Documents, as the checks read them: which there are, and their commands with what these print."""

import glob
import os
import re

from precopy_dev.tree import TOP

# Made from the sources by `make docs`, and no part of them.
INDEX = "docs/INDEX.md"
# What tells of a status: the beginning of a line, or a part of one.
TOLD_STATUSES = (
    (r"^precopy(-view)?: (settings|cases?\b|--)|^error: ", 2),
    (r"^precopy(-view)?: (trace|memory|live|write)", 1),
    (r"^converges: unknown", 4),
    (r"^downtime: .*, kept: uncertain", 5),
    (r"^downtime: .*, kept: no", 3),
    (r"^best: .*, not kept$", 3),
)


def pages():
    """The documents that somebody wrote."""
    names = sorted(os.path.basename(path) for path in glob.glob(os.path.join(TOP, "docs", "*.md")))
    others = ["CHANGELOG.md", "CONTRIBUTING.md", "SECURITY.md"]
    others += ["bench/README.md", "checks/README.md", "examples/README.md"]
    others += sorted(os.path.relpath(path, TOP) for path in glob.glob(os.path.join(TOP, "bench", "results", "*.md")))
    return ["README.md", *(page for page in (f"docs/{name}" for name in names) if page != INDEX), *others]


def manuals():
    return sorted(f"man/{name}" for name in os.listdir(os.path.join(TOP, "man")))


def steps(text):
    """The blocks of Python of a page, and its commands with what they print: (kind, words, lines)."""
    lines, at = text.split("\n"), 0
    while at < len(lines):
        line, at = lines[at], at + 1
        if line == "```python":
            end = lines.index("```", at)
            yield "python", "\n".join(lines[at:end]), None
            at = end + 1
        elif line.startswith("    $ "):
            command = line[6:]
            # A command goes on if a line ends in a backslash, or within quotes.
            while command.endswith("\\") or command.count("'") % 2 or command.count('"') % 2:
                command, at = f"{command}\n{lines[at][4:]}", at + 1
            begin = at
            while at < len(lines) and lines[at].startswith("    ") and not lines[at].startswith("    $ "):
                at += 1
            yield "command", command, [each[4:] for each in lines[begin:at]]


def quotes(text):
    """The blocks of code that are headed by the path of a file: (path, lines)."""
    lines, at = text.split("\n"), 0
    while at < len(lines):
        head = re.fullmatch(r"```([\w./-]*)", lines[at])
        at += 1
        if head:
            end = lines.index("```", at)
            if "/" in head[1]:
                yield head[1], lines[at:end]
            at = end + 1


def agrees(wanted, printed):
    """Whether the lines are those that are wanted, where `...` stands for any."""
    pattern = "".join(r"(?:.*\n)*" if line == "..." else re.escape(line) + r"\n" for line in wanted)
    return re.fullmatch(pattern, printed) is not None


def is_due(status, words, printed):
    """Whether a status is that of which the lines tell, or 0 if it is that of a reader of them."""
    told = [number for pattern, number in TOLD_STATUSES if re.search(pattern, printed, re.M)]
    return status in (told[:1] or [0]) or status == 0 and "|" in words
