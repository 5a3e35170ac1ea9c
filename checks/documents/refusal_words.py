"""The words for a refused trace: docs/FORMATS.md has them, and programs, library, page and documents say the same."""

import re

from checks.lib.pages import manuals, pages
from precopy_dev import interface
from precopy_dev.tree import read

ROW = re.compile(r"^\| (E\d+) \| `(\w+)(?:\(record\))?` \| ([^|]+?) \|", re.M)
# Those that the library has a status for.
OF_LIBRARY = [f"E{number}" for number in range(1, 17)]


def words_by_name():
    return {name: words for name, _, words in ROW.findall(read("docs/FORMATS.md"))}


def said_elsewhere():
    """Where the words stand, and what is said there: (place, name of the refusal, words)."""
    variants = {variant: name for name, variant, _ in ROW.findall(read("docs/FORMATS.md"))}
    codes = re.findall(r'#\[error\("(E\d+)(?: record \{0\})?"\)\]\n    (\w+)', read("crates/trace_codec/src/error.rt"))
    for name, variant in codes:
        yield "crates/trace_codec/src/error.rt", variants.get(variant), name
    path = "crates/precopy_view/src/faults.rt"
    for variant, words in re.findall(r'TraceError::(\w+)(?:\(_\))? => "([^"]*)"', read(path)):
        yield path, variants.get(variant), words
    for status in interface.read_header(read(interface.HEADER)).statuses:
        if status.name and status.name.startswith("E"):
            yield interface.HEADER, status.name, status.text
    for page in [*pages(), *manuals()]:
        for name, words in re.findall(r"trace (E\d+)(?: record \d+)?: ([^`\"\n]+)", read(page)):
            yield page, name, words


def compared():
    """Yields whether each place says what the table says, and what to tell if not; and whether a place says all."""
    table, found = words_by_name(), {}
    for place, name, words in said_elsewhere():
        found.setdefault(place, []).append(name)
        # The codec has the names alone.
        wanted = name if place.endswith("error.rt") else table.get(name)
        yield words == wanted, f"{place} says of {name}: {words}; docs/FORMATS.md: {wanted}"
    every = [f"E{number}" for number in range(1, 18)]
    wanted = {
        "crates/trace_codec/src/error.rt": every,
        "crates/precopy_view/src/faults.rt": every,
        interface.HEADER: OF_LIBRARY,
    }
    for place, names in wanted.items():
        told = sorted(map(str, found.get(place, [])))
        yield told == sorted(names), f"{place} has words for {told}"
    yield sorted(table) == sorted(every), f"docs/FORMATS.md has {sorted(table)}"
