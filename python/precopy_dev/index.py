"""Makes docs/INDEX.md from the sources: public calls with their clauses, and definitions, with their comments.

It also tells what the contracts of public calls determine (python/precopy_dev/determined/table.py)."""

import argparse
import re
import sys
import textwrap

from precopy_dev import contracts
from precopy_dev.determined import table
from precopy_dev.files import write_file
from precopy_dev.tree import TOP
from precopy_tools import version

# From the top. Sources are kept without it.
PATH = "docs/INDEX.md"
COLUMNS = 120
# The crate whose definitions all others cite.
MODEL = "migration_model"
HEAD = """# Index

`make docs` makes this index from the sources. Crates come in the order of `crates.txt`, files and names as they stand
there. A line is the first sentence of the comment in the source.

- **Calls**, by file of `src/`: what a caller outside of the crate sees. In brackets stand the clauses that a call
  ensures; one without a name is `result`. An indented line is what a comment says of clauses. Clauses determine by
  their form what a call answers and leaves, but for want of memory. In square brackets stand the laws by which they do
  so, and what they leave open (`PROOF.md`): the value, when it is answered, the error, and each `&mut`, where the call
  succeeds (then) and where it does not (otherwise).
- **Definitions**, by file of `specs/`: all of `migration_model`, and of other crates those that a public contract, the
  model of a public type or another crate cites. In brackets stand the facts of a relation, if a contract cites it: the
  contract then ensures each. The last line of a file has those that their names explain.

`git grep -nwE 'pub (record |data )?NAME' -- 'crates/*/specs/*.antt'` finds any other definition. `READING.md` says how
to read a contract, `PROOF.md` how they build on each other.
"""


def first_sentence(lines):
    text = re.sub(r"\[(`[^`]+`)\]", r"\1", " ".join(" ".join(lines).split()))
    found = re.match(r"(.*?[^.])\.(?= [A-Z`\[]|$)", text)
    return found[1] if found else text


def words_in(text):
    return set(re.findall(r"\w+", text))


def cited():
    """The words of public contracts, and the words that crates import from the definitions of others or model with."""
    contracts_say, others = set(), set()
    for crate in contracts.crates():
        contracts_say.update(*(words_in(call.text) for call in contracts.calls(crate)))
        paths = [*contracts.sources(crate, "s*", ".rt"), *contracts.sources(crate, "[sp]*", ".antt")]
        for path in paths:
            text = contracts.read(path)
            for owner, names in re.findall(r"use Rattle\.(\w+)\.specs[\w.]*\.\{([^}]*)\}", text):
                others |= words_in(names) if owner != crate else set()
            for model in re.findall(r"ghost \w+(?:: | = )\{([^}]*)\}", text):
                others |= words_in(model)
    return contracts_say, others


def filled(text, indent=""):
    below = f"{indent}  "
    options = {"break_long_words": False, "break_on_hyphens": False}
    return textwrap.fill(text, COLUMNS, initial_indent=indent, subsequent_indent=below, **options)


def bracket(call):
    """The laws by which a call is determined, and what of it is not, or "" if it is by form."""
    row = table.rows().get(f"{call.crate}: {call.name}")
    laws = ", ".join(f"`{law}`" for law in row.laws()) if row else ""
    rest = ", ".join(row.open()) if row else ""
    parts = [*([f"by {laws}"] if laws else []), *([f"open: {rest}"] if rest else [])]
    return f" [{'; '.join(parts)}]" if parts else ""


def told(entry, facts, behind=""):
    names = ", ".join(f"`{name}`" for name, _ in facts)
    head = f"- `{entry.name}`" + (f" ({names})" if names else "") + behind
    yield filled(f"{head}: {first_sentence(entry.comment)}" if entry.comment else head)
    for comment in dict.fromkeys(comment for _, comment in facts if comment):
        about = ", ".join(f"`{name}`" for name, said in facts if said == comment)
        yield filled(f"- {about}: {first_sentence([comment])}", "  ")


def by_file(entries):
    files = {}
    for entry in entries:
        files.setdefault(entry.path, []).append(entry)
    return files


def section(crate, contracts_say, others):
    calls = contracts.calls(crate)
    listed = [one for one in contracts.definitions(crate) if crate == MODEL or one.name in contracts_say | others]
    if not calls and not listed:
        return
    yield f"## {crate}\n"
    for path, here in by_file(calls).items():
        yield f"Calls, `{path}`:\n"
        for call in here:
            yield from told(call, call.facts, bracket(call))
        yield ""
    for path, here in by_file(listed).items():
        yield f"Definitions, `{path}`:\n"
        for one in (one for one in here if one.comment):
            # A record of something is a relation.
            is_relation = re.match(r"pub record \w+ [({]", one.text)
            yield from told(one, one.facts if is_relation and (crate == MODEL or one.name in contracts_say) else [])
        if plain := [f"`{one.name}`" for one in here if not one.comment]:
            yield filled("- " + ", ".join(plain))
        yield ""


def page():
    lines, cites = [HEAD], cited()
    for crate in contracts.crates():
        if not contracts.OF_TESTS.fullmatch(crate):
            lines.extend(section(crate, *cites))
    return "\n".join(lines).rstrip("\n") + "\n"


def main():
    parser = argparse.ArgumentParser(prog="index", description="Makes docs/INDEX.md from the sources.")
    parser.add_argument("--print", action="store_true", dest="prints", help="print the page, and write nothing")
    parser.add_argument(
        "--determined", action="store_true", help="print what is determined of each call, and write nothing"
    )
    version.add_to(parser)
    given = parser.parse_args()
    if given.determined:
        print("\n".join(table.table()))
        return
    if given.prints:
        sys.stdout.write(page())
        return
    write_file(page(), TOP, PATH)


if __name__ == "__main__":
    main()
