"""What differs from what was asked, and what is proved, tested and trusted: each head that the documents had is there.

A document that becomes shorter loses sentences that nobody misses and that a reader needs. So the heads are listed
here, and one that is no longer true leaves this list and the document in one commit, which says why.
"""

import re

from precopy_dev.tree import read

DIFFERS = (
    "Places of writes are laid out by a sort of runs",
    "`par_plan` works on the caller's thread, whatever the number of workers",
    "`Thread` is an error that no table, plan or sweep returns",
    "`L2` tells of a thread that a live run needs, and not of every thread that did not start",
    "A call that a signal interrupts is tried again",
    "Later versions of a page are made from copies of the trace's writes",
    "Memory is written in pieces",
    "What was asked of `precopy` stands in crates below it",
    "`start` belongs to the program's crate",
    "A page's bytes are borrowed from the cache",
    "The first part is joined to that of stream 0 when its lanes are drained",
    "Allocators are `Global`",
    "Some edits only approximate a wrong body, and only tests refuse some",
)
CLAIMS = (
    "accepted",
    "tables, planned rounds",
    "sweep lines",
    "written",
    "under every schedule",
    "the image, at the stop and the end",
    "no older version replaces a newer",
    "no changed page is left out",
)
PROOF_OF = (
    "Proved",
    "Proved of calls",
    "Proved of a live run",
    "Only tested",
    "Only tested of views",
    "Only tested of the planner",
    "Only tested of the library",
    "Only tested of a live run",
    "Read in the code",
    "Read in the code, costs",
    "Not promised",
    "Trusted",
    "Trusted of the planner",
    "Trusted of the library",
    "Proved with",
)


def section(page, head):
    return read(page).split(f"\n## {head}\n")[-1].split("\n## ")[0]


def compared():
    """Yields whether each head is there and says something, and what to tell if not."""
    differs = section("docs/DECISIONS.md", "What differs from what was asked")
    items = {head.rstrip("."): rest for head, rest in re.findall(r"^- \*\*([^*]+)\*\*(.*)", differs, re.M)}
    for head in DIFFERS:
        yield bool(items.get(head)), f"docs/DECISIONS.md no longer tells what differs: {head}"
    yield set(items) <= set(DIFFERS), f"checks/documents/heads.py lacks {sorted(set(items) - set(DIFFERS))}"
    for title, heads in (("The theorem", CLAIMS), ("What is proved, only tested, and trusted", PROOF_OF)):
        rows = dict(re.findall(r"^\| ([^|]+?) \| ([^|]+?) \|$", section("README.md", title), re.M))
        for head in heads:
            yield bool(rows.get(head)), f"README.md, {title}: the table has no row for {head}"
