"""The calls that checks/refused_calls makes, and what the program crates/refused_calls must print for each.

The bytes of a page at a version, what is left in a part and the end of a core are worked out by hand from the rules in
docs/FORMATS.md and docs/GLOSSARY.md, and not by the program."""

import re

# The writes of the trace: page, offset and bytes. Pages have 16 bytes.
WRITES = [(0, 0, b"\x01"), (1, 15, b"\x02"), (1, 0, b"\x03"), (3, 2, b"\x04\x05"), (1, 0, b"\x00")]
PAGES = 4


def page_at(page, version):
    """The bytes of a page after the first `version` writes."""
    content = bytearray(16)
    for written, offset, data in WRITES[:version]:
        if written == page:
            content[offset : offset + len(data)] = data
    return list(content)


ZEROS, FIRST, SECOND, THIRD, FOURTH = [0] * 16, page_at(0, 1), page_at(1, 2), page_at(1, 3), page_at(3, 4)


def told(part):
    """The lines of a part: for each of its pages, rising, the stamp and the bytes."""
    return [f"page {page} stamp {stamp} {content if any(content) else 'zeros'}" for page, stamp, content in part]


class Call:
    """A call: all that is printed if nothing is refused, and if something is.

    `refused` has the whole text for each refusal that the call may return. The text says what remains after it, and
    what the same call returns with ample memory."""

    trace = None

    def __init__(self, word, whole, refused, has_threads=False):
        self.name = word
        self.words = [word]
        self.output = text(whole)
        self.refused = {text(lines): kind for kind, lines in refused.items()}
        self.has_threads = has_threads

    def refusal(self, output):
        """Which refusal a text reports together with all that is promised after it; None if that is missing."""
        return self.refused.get(output)


def text(lines):
    return "".join(line + "\n" for line in ["ready", *lines]).encode()


# ---- A part gets page 64 and then an older frame of page 1.

HELD = [(1, 2, SECOND), (2, 0, ZEROS)]
HELD_THEN = told([*HELD, (64, 4, FOURTH)])
ACCEPT = Call(
    "accept",
    ["accept Ok(New), of an older frame Ok(Old)", *HELD_THEN, "again Ok(Old)", *HELD_THEN],
    {"Memory": ["accept Err(Memory), of an older frame Ok(Old)", *told(HELD), "again Ok(New)", *HELD_THEN]},
)

# ---- An empty part gets a stream of frames. A refusal names the frame, and those in front of it were taken.

FRAMES = [(2, 0, ZEROS), (3, 4, FOURTH), (1, 0, ZEROS), (1, 2, SECOND), (1, 3, THIRD), (0, 1, FIRST)]


def taken(count):
    """The lines of the part that took the first of the frames: of each page that with the greatest stamp."""
    part = {}
    for page, stamp, content in FRAMES[:count]:
        if page not in part or part[page][0] < stamp:
            part[page] = (stamp, content)
    return told([(page, *part[page]) for page in sorted(part)])


ALL_TAKEN = ["again Ok(6)", *taken(len(FRAMES))]
ACCEPT_BYTES = Call(
    "accept_bytes",
    ["accept_bytes Ok(6)", *taken(len(FRAMES)), *ALL_TAKEN],
    {
        f"Memory at frame {count}": [f"accept_bytes Err(({count}, Memory))", *taken(count), *ALL_TAKEN]
        for count in range(len(FRAMES))
    },
)

# ---- Two parts that agree are merged. After a refusal both are gone, and two others are merged.

MERGED = ["merged", *told([(1, 3, THIRD), (2, 0, ZEROS), (64, 4, FOURTH)])]
MERGE = Call("merge", [*MERGED, "again", *MERGED], {"Memory": ["merge Memory", "again", *MERGED]})

# ---- The final copy of pages 0 and 1, at versions 1 and 3, into parts of two streams, and of 600 pages by two workers.

COPIED = [
    "copied",
    "part",
    *told([(0, 1, FIRST), (1, 2, SECOND), (2, 0, ZEROS), (3, 0, ZEROS)]),
    "part",
    *told([(1, 3, THIRD)]),
]
FINAL_COPY = Call("final_copy", [*COPIED, "again", *COPIED], {"Memory": ["final_copy Memory", "again", *COPIED]})

ALL_COPIED = ["copied", "all memory true"]
BY_WORKERS = Call(
    "final_copy_by_workers",
    [*ALL_COPIED, "again", *ALL_COPIED],
    {kind: [f"final_copy {kind}", "again", *ALL_COPIED] for kind in ("Memory", "Thread")},
    has_threads=True,
)

# ---- A core of two marked pages: both are harvested, page 1 is stored, marked and given back, page 0 is read.

RAN = ["ran", "page 0 place 0 marked false held false", "page 1 place 1 marked true held false", "pending None"]
RUN = Call("run", [*RAN, "again", *RAN], {"Memory": ["run (0, Memory)", "again", *RAN]})

# ---- A cache of two pages, which keeps pages 0 and 1, is asked for others, and then for all pages at all versions.

BEFORE = [(0, 1), (1, 2)]
ASKED = [(1, 3), (3, 4), (1, 5), (2, 0), (3, 3), (0, 5)]


def answer(page, version):
    return f"page {page} version {version} Ok({page_at(page, version)})"


ALL_ASKED = [(page, version) for version in range(len(WRITES) + 1) for page in range(PAGES)]
ALL_AGAIN = [
    f"again page {page} version {version} {page_at(page, version)} as the index tells it true"
    for page, version in ALL_ASKED
]


class Cached(Call):
    """After a refusal the cache keeps pages that are right at one of their versions, two of them at most. The other
    answers are right, and so are all that it gives then."""

    def __init__(self):
        # The two pages that were asked for last are 3 and 0.
        kept = [f"kept page 0 {page_at(0, 5)}", f"kept page 3 {page_at(3, 3)}"]
        super().__init__("bytes_at", [*(answer(*asked) for asked in [*BEFORE, *ASKED]), *kept, *ALL_AGAIN], {})

    def refusal(self, output):
        lines = output.decode("ascii", "replace").splitlines(keepends=True)
        front = "".join(lines[: 1 + len(BEFORE)]).encode()
        if front != text([answer(*asked) for asked in BEFORE]):
            return None
        answers, rest = lines[1 + len(BEFORE) :][: len(ASKED)], lines[1 + len(BEFORE) + len(ASKED) :]
        due = [answer(*asked) + "\n" for asked in ASKED]
        refusals = [f"page {page} version {version} Err(Memory)\n" for page, version in ASKED]
        if len(answers) != len(ASKED) or any(one not in both for one, *both in zip(answers, due, refusals)):
            return None
        kept = [line for line in rest if line.startswith("kept ")]
        if not are_kept(kept) or rest != [*kept, *(line + "\n" for line in ALL_AGAIN)]:
            return None
        refused = len(ASKED) - sum(map(str.__eq__, answers, due))
        return f"Memory for {refused} of {len(ASKED)}" if refused else None


def are_kept(lines):
    """Whether the lines are of at most two pages, rising, and each has the bytes of its page at some version."""
    found = [re.fullmatch(r"kept page (\d) (\[.*\])\n", line) for line in lines]
    if len(found) > 2 or not all(found):
        return False
    pages = [int(one[1]) for one in found]
    versions = range(len(WRITES) + 1)
    return pages == sorted({*pages}) and all(
        one[2] in [str(page_at(page, version)) for version in versions] for one, page in zip(found, pages)
    )


CALLS = [ACCEPT, ACCEPT_BYTES, MERGE, FINAL_COPY, BY_WORKERS, RUN, Cached()]
