"""What docs/PROOF.md, the table of README.md and docs/ARCHITECTURE.md name in backquotes, and whether it is there.

`call`: `clause`, .. and `relation`: `fact`, .. name clauses of a public call and facts of a relation. A clause of a
call is one that it ensures, or a fact of a relation that it ensures. Every other word is a crate, a public call, a
definition, a clause, a fact, a type, a refusal, a path from the top or from crates/, or whole words of the name of a
wrong body. docs/ARCHITECTURE.md has each crate once; its recipes also name functions, types and constants within
crates, tools, checks, the planner and bindings. A section of docs/PROOF.md lists exactly the calls that contracts do
not determine, as `crate` (`call`, ..)."""

import functools
import glob
import os
import re

from checks.lib.pages import INDEX
from precopy_dev import contracts, tree
from precopy_dev.determined import table as determined
from precopy_dev.determined.laws import named_in
from precopy_dev.edits.files import texts_in
from precopy_dev.tree import TOP, read

PAIR = re.compile(r"`([\w:]+)`: (`\w+`(?:(?:,| and) `\w+`(?!:))*)")
CODE = re.compile(r"`([^`]+)`")
# Refusals, ranges of ticks, and what a program begins with.
OTHER = re.compile(r"[CEFLS]\d{1,2}|\[.*\)|main")
# A path, or the name of a file.
PATH = re.compile(r"[\w.*@-]+/[\w./*@-]*|[\w*@-]+\.(?:antt|c|h|html|js|json|md|py|rs|rt|service|symbols|toml|txt)")
# A name of the sources: with an underscore, or in capitals.
IDENTIFIER = re.compile(r"[a-z]\w*_\w*[a-z]|[A-Z]\w+(?:::\w+)?")


@functools.cache
def known(of):
    """Calls or definitions of all crates by their name, and methods also by their last name."""
    found = {}
    for crate in contracts.crates():
        for entry in getattr(contracts, of)(crate):
            for name in {entry.name, entry.name.rpartition("::")[2]}:
                found.setdefault(name, []).append(entry)
    return found


def facts_of(name):
    """The clauses of calls with this name, the facts of relations with this name, and of relations that calls cite."""
    calls = known("calls").get(name, [])
    cited = [word for call in calls for word in re.findall(r"\b[A-Z]\w+", call.text)]
    entries = [*calls, *(entry for word in (name, *cited) for entry in known("definitions").get(word, []))]
    return {fact for entry in entries for fact, _ in entry.facts}


@functools.cache
def facts():
    entries = [entry for of in ("calls", "definitions") for found in known(of).values() for entry in found]
    return {fact for entry in entries for fact, _ in entry.facts}


@functools.cache
def wrong_bodies():
    return {name for crate in contracts.crates() for name, *_ in texts_in(crate)}


@functools.cache
def all_sources():
    paths = [path for crate in contracts.crates() for path in contracts.sources(crate, "src", ".rt")]
    return "\n".join(map(contracts.read, paths))


@functools.cache
def types_and_crates():
    types = set(re.findall(r"^pub (?:struct|enum|trait) (\w+)", all_sources(), re.M))
    return types | {word for name, crate in tree.crates().items() for word in (name, *crate.uses)}


def is_of_wrong_body(word):
    """Whether these are words of the name of a wrong body, one after another."""
    return any(f"_{word}_" in f"_{name}_" for name in wrong_bodies())


def is_known(word):
    if word in (INDEX, os.path.basename(INDEX)):
        return True
    if word in known("calls") or word in known("definitions") or word in facts() or word in types_and_crates():
        return True
    paths = [os.path.join(TOP, *parts, word) for parts in ((), ("crates",), ("docs",))]
    return any(map(os.path.exists, paths)) or OTHER.fullmatch(word) or is_of_wrong_body(word)


@functools.cache
def other_sources():
    """What tools, checks, the planner and bindings say, and the header of the library."""
    kinds = ("include/*.h", "bindings/**/*.rs", "web/*.js", "*/**/*.py")
    paths = [path for kind in kinds for path in glob.glob(os.path.join(TOP, kind), recursive=True)]
    return "\n".join(map(contracts.read, paths))


def is_within(word):
    """Whether some source begins a function, a constant or a type of this name."""
    name = re.escape(word.rpartition("::")[2])
    if re.search(rf"\b(?:fn|const|struct|enum) {name}\b", all_sources()):
        return True
    begins = rf"\b(?:fn|def|class|struct|function|define) {name}\b|^{name}\b.* = |\b{name}\("
    return re.search(begins, other_sources(), re.M)


def pairs_in(page, text):
    for name, clauses in PAIR.findall(text):
        for clause in CODE.findall(clauses):
            yield clause in facts_of(name), f"{page}: {name} has no clause or fact {clause}"


def theorem_table():
    return read("README.md").split("| Claim | Contract |")[-1].split("\n\n")[0]


def in_index(page):
    """Yields whether the index has each call that is named with a clause, and the clause beside a call of that name."""
    heads = re.findall(r"^- `([^`]+)`(?: \(([^)]*)\))?", re.sub(r"\n +(?!- )", " ", page), re.M)
    clauses = {}
    for name, facts in heads:
        for short in {name, name.rpartition("::")[2]}:
            clauses.setdefault(short, set()).update(CODE.findall(facts))
    for path, text in (("README.md", theorem_table()), ("docs/PROOF.md", " ".join(read("docs/PROOF.md").split()))):
        for name, facts in PAIR.findall(text):
            # A relation that no contract cites is in the index only if another crate needs it.
            for fact in CODE.findall(facts) if name in known("calls") else ():
                # A fact of a relation that the call ensures stands at the relation.
                own = {clause for call in known("calls")[name] for clause, _ in call.facts}
                good = name in clauses and (fact not in own or fact in clauses[name])
                yield good, f"the index has no {name} with {fact}, which {path} names"
    for crate in contracts.crates():
        if contracts.calls(crate) and not contracts.OF_TESTS.fullmatch(crate):
            yield f"\n## {crate}\n" in page, f"the index has no part for {crate}"


def named():
    """Yields whether each thing that is named is there, and what to say if not."""
    table = theorem_table()
    yield from pairs_in("README.md", table)
    text = " ".join(read("docs/PROOF.md").split())
    yield from pairs_in("docs/PROOF.md", text)
    for code in CODE.findall(text):
        # An application, such as `page_at trace page version`, names its first word, and a law that is a clause, such
        # as `TraceView::parse: first`, its call.
        word = code if OTHER.fullmatch(code) else code.split(" ")[0]
        call, colon, clause = code.partition(": ")
        is_there = clause in facts_of(call) if colon else is_known(word)
        yield bool(is_there), f"docs/PROOF.md names {code if colon else word}, which is not there"
    for code in CODE.findall(table):
        yield bool(is_known(code)), f"README.md names {code}, which is not there"


def left_open():
    """Yields whether each call that contracts leave open stands in the list of these, and each of that is one."""
    section = read("docs/PROOF.md").partition("\n## What contracts leave open\n")[2].partition("\n## ")[0]
    listed = [
        f"{crate}: {name}"
        for crate, names in re.findall(r"`(\w+)` \(([^()]*)\)", " ".join(section.split()))
        for name in CODE.findall(names)
    ]
    found = [name for name, row in determined.rows().items() if row.how() == determined.NOT]
    for name in found:
        left = ", ".join(determined.rows()[name].open())
        yield name in listed, f"docs/PROOF.md does not list {name}, whose contract leaves open: {left}"
    for one in listed:
        yield one in found, f"docs/PROOF.md lists {one}, which contracts do not leave open"


def laws():
    """Yields whether each law that makes contracts determine something is named where they stand: in a line of a file
    of the crate, or in docs/PROOF.md. And whether the contracts below such a line speak of its relation, or rest on its
    law."""
    told = set(CODE.findall(read("docs/PROOF.md")))
    by_file = {}
    for row in determined.rows().values():
        path = os.path.join(TOP, "crates", row.call.crate, "src", row.call.path)
        by_file.setdefault(path, set()).update(row.laws())
    for crate in contracts.crates():
        paths = contracts.sources(crate, "src", ".rt")
        lines = {path: named_in(path) for path in paths}
        named = {law for relations in lines.values() for laws in relations.values() for law in laws}
        used = {law for row in determined.rows().values() if row.call.crate == crate for law in row.laws()}
        for law in sorted(used):
            yield law in named | told, f"{crate} rests on the law {law}, and neither its files nor docs/PROOF.md say so"
        for path, relations in lines.items():
            code = re.sub(r"//.*", "", contracts.read(path))
            for relation, of_it in relations.items():
                where = f"{os.path.relpath(path, TOP)} names {', '.join(of_it)} for {relation}"
                is_due = set(of_it) <= by_file.get(path, set()) or re.search(rf"\b{relation}\b", code)
                yield bool(is_due), f"{where}, of which no contract there speaks"


def places_of(word):
    """The files and folders that a word is, from the top, from crates/ or from docs/."""
    paths = [os.path.normpath(os.path.join(TOP, *parts, word)) for parts in ((), ("crates",), ("docs",))]
    return [path for path in paths if os.path.exists(path)]


def folders_of(words):
    """The folders in which a recipe that has these words may name a file shortly: those of crates and of paths that it
    names, and outside of crates/ those above, such as all tools."""
    crates = {os.path.join(TOP, "crates", word.split("/")[0]) for word in words}
    for place in (place for word in words for place in places_of(word) if "/" in word):
        while (place := place if os.path.isdir(place) else os.path.dirname(place)) != TOP:
            yield place
            place = TOP if place.startswith(os.path.join(TOP, "crates")) else os.path.dirname(place)
    yield from filter(os.path.isdir, crates)


def paths_in_recipes(section):
    """Yields whether each file that a recipe names is there, where the recipe says that it is."""
    for recipe in re.split(r"\n(?=### |- \*\*)", section):
        words = CODE.findall(" ".join(recipe.split()))
        folders = set(folders_of(words))
        for word in (word for word in words if PATH.fullmatch(word) and "NAME" not in word):
            below = (glob.glob(os.path.join(folder, "**", word), recursive=True) for folder in folders)
            good = places_of(word) or any(below)
            yield bool(good), f"docs/ARCHITECTURE.md names {word}, which is not there: {recipe.splitlines()[0]}"


def in_architecture():
    """Yields the same of the page on the crates: its list of them, and the names in its recipes."""
    sections = dict(part.split("\n", 1) for part in read("docs/ARCHITECTURE.md").split("\n## ")[1:])
    heads = re.findall(r"^- (`[^:]*`):", sections["The crates"], re.M)
    listed = [name for head in heads for name in CODE.findall(head)]
    for crate in contracts.crates():
        yield listed.count(crate) == 1, f"docs/ARCHITECTURE.md has {crate} {listed.count(crate)} times"
    for name in sorted(set(listed) - set(contracts.crates())):
        yield False, f"docs/ARCHITECTURE.md has {name}, which is no crate"
    yield from paths_in_recipes(sections["What to change for ..."])
    for code in CODE.findall(" ".join(sections["What to change for ..."].split())):
        if IDENTIFIER.fullmatch(code):
            yield bool(is_known(code) or is_within(code)), f"docs/ARCHITECTURE.md names {code}, which is not there"
