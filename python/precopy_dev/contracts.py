"""What the sources say of themselves: public calls with their clauses, definitions, and the comments of both."""

import functools
import glob
import os
import re
from dataclasses import dataclass, field

from precopy_dev import tree
from precopy_dev.files import read_text
from precopy_dev.tree import TOP

# Crates that only tests use, and programs of tests: nobody builds on their calls.
OF_TESTS = re.compile(r"\w+_rows|live_schedules|worked_guest|refused_calls|live_counts")
CALL = re.compile(r"^ *(?P<pub>pub(?P<inner>\(crate\))? )?(?:const )?(?P<c>extern \"C\" )?fn (?P<name>\w+)", re.M)
OWNER = re.compile(r"^(?P<pub>pub )?(?P<kind>impl|trait)\b(?P<head>[^{;]*)\{", re.M)
DEFINITION = re.compile(
    r"^(?:  )?(?:abbrev|unfoldable) pub (\w+)(?= |$)|^pub (?:(record|data) )?(?!mod |record |data )(\w+)", re.M
)
# In a contract: a comment, an empty line, a clause, or the end.
STEP = re.compile(r"\n *// (.*)|\n()(?= *\n)|\b(requires|ensures) (?:\* )?(?:(\w+) )?\{|([{;])")


@dataclass
class Entry:
    """A call or a definition: its crate, its file, its name, its facts with their comments, its text, its comment."""

    crate: str
    path: str
    name: str
    facts: list = field(default_factory=list)
    text: str = ""
    comment: list = field(default_factory=list)


read = functools.cache(read_text)


def crates():
    """The names of all crates, in the order of crates.txt."""
    return list(tree.crates())


def sources(crate, part, kind):
    return sorted(glob.glob(os.path.join(TOP, "crates", crate, part, "**", f"*{kind}"), recursive=True))


def below(crate, path):
    """The path of a file of src/ or specs/ from there on."""
    return os.path.relpath(path, os.path.join(TOP, "crates", crate)).split(os.sep, 1)[1]


def comment_above(text, start, mark):
    """The first paragraph of the comment that ends above this place, without marks; attributes may stand between."""
    found = []
    for line in reversed(text[:start].split("\n")[:-1]):
        line = line.strip()
        if line != mark and not line.startswith(f"{mark} "):
            if found or not line.startswith("#["):
                break
            continue
        found.append(line[len(mark) :].strip())
    found.reverse()
    return found[: found.index("")] if "" in found else found


def end_of(text, start):
    """Where the bracket that opens here is closed."""
    depth = 0
    for at in range(start, len(text)):
        depth += (text[at] in "([{") - (text[at] in ")]}")
        if depth == 0:
            return at
    return len(text)


# ---- Calls.


def contract_from(text, start):
    """The contract that begins here: what it ensures, by name with the comment above it, and where it ends."""
    clauses, comment, goes_on = [], [], False
    at = end_of(text, text.index("(", start))
    while (step := STEP.search(text, at)) and not step[5]:
        if step[3]:
            if step[3] == "ensures":
                clauses.append((step[4] or "result", " ".join(comment)))
            at, goes_on = end_of(text, step.end() - 1), False
        else:
            comment = [*(comment if goes_on else []), step[1]] if step[1] else []
            at, goes_on = step.end(), bool(step[1])
    return clauses, step.start() if step else len(text)


def owners_in(text):
    """Where the calls of each type and trait stand: begin, end, name, and whether they are a public trait's."""
    for found in OWNER.finditer(text):
        head = re.sub(r"<(?:[^<>]|<[^<>]*>)*>", "", found["head"]).split(" for ")[-1].split(":")[0]
        name = re.findall(r"\w+", head)
        is_trait = found["kind"] == "trait" and found["pub"] is not None
        yield found.end(), end_of(text, found.end() - 1), name[0] if name else "", is_trait


def exported(crate):
    """The names that a library gives to others, or None for a program."""
    path = os.path.join(TOP, "crates", crate, "src", "lib.rt")
    return given_by(path) if os.path.isfile(path) else None


def given_by(path):
    """The names that a module gives to others, with those of its public modules."""
    text = read(path)
    passed_on = re.findall(r"\w+", " ".join(re.findall(r"^pub use ([^;]*);", text, re.M)))
    names = {*passed_on, *re.findall(r"^pub (?:fn|struct|enum|trait|mod) (\w+)", text, re.M)}
    folder = os.path.dirname(path) if path.endswith("lib.rt") else path.removesuffix(".rt")
    for module in re.findall(r"^pub mod (\w+);", text, re.M):
        names |= given_by(os.path.join(folder, f"{module}.rt"))
    return names


def used_by_main(crate):
    """The names that the root of a program takes from its modules."""
    text = read(os.path.join(TOP, "crates", crate, "src", "main.rt"))
    return set(re.findall(r"\w+", " ".join(re.findall(r"^use crate::([^;]*);", text, re.M))))


def calls_in(crate, path):
    text, names = read(path), exported(crate)
    owners = list(owners_in(text))
    for found in CALL.finditer(text):
        owner = next((one for one in owners if one[0] <= found.start() < one[1]), None)
        if not found["pub"] and not (owner and owner[3]):
            continue
        # A program's `start` is the door to it, whether or not it is public.
        if found["inner"] and (names is not None or owner or found["name"] not in used_by_main(crate)):
            continue
        clauses, end = contract_from(text, found.start())
        # Nobody calls a law, so a library for C need not pass it on.
        is_law = not owner and text[end:].lstrip().startswith("{}")
        is_given = names is None or found["c"] or (owner[2] if owner else found["name"]) in names
        if not is_given and not is_law:
            continue
        name = f"{owner[2]}::{found['name']}" if owner else found["name"]
        comment = comment_above(text, found.start(), "///")
        if owner and owner[3] and not comment:
            # A trait of one call may say it all itself.
            comment = comment_above(text, text.rindex("\n", 0, owner[0]) + 1, "///")
        yield Entry(crate, below(crate, path), name, clauses, text[found.start() : end], comment)


@functools.cache
def calls(crate):
    """What a caller outside of the crate sees, in the order of the files."""
    return [call for path in sources(crate, "src", ".rt") for call in calls_in(crate, path)]


# ---- Definitions.


def definitions_in(crate, path):
    text, seen = read(path), set()
    found = list(DEFINITION.finditer(text))
    for one, following in zip(found, [*found[1:], None]):
        name = one[1] or one[3]
        if name in seen:
            continue
        seen.add(name)
        body = text[one.start() : following.start() if following else len(text)]
        names = re.findall(r"^ {2,}pub ([\w-]+) :", body, re.M) if one[2] == "record" else []
        facts = [(fact, "") for fact in names]
        yield Entry(crate, below(crate, path), name, facts, body, comment_above(text, one.start(), "--"))


@functools.cache
def definitions(crate):
    return [one for path in sources(crate, "specs", ".antt") for one in definitions_in(crate, path)]
