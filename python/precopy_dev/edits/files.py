"""The wrong bodies of the crates (CONTRIBUTING.md), and the sources with one of them in place.

Those that the gate tries are files crates/NAME/must-fail/*.edit, as the toolchain reads them. All others stand one
after the other in crates/NAME/wrong-bodies, with an empty line between two: a line '# NAME', a sentence or more on what
the body is, and its lines 'file:', 'old:' and 'new:', as in such a file. Lines 'tests: CRATE TEST ..' at the end name
the tests, all of one crate, that fail on it; without them the prover refuses it. Below '# twin of NAME' stands a body
of the same shape in the place of that one, which is harmless and stays proved."""

import dataclasses
import hashlib
import os
import re

from precopy_dev.tree import TOP

GATE, PROVER, TESTS, TWIN = "gate", "prover", "tests", "twin"
TWIN_OF = "twin of "
NAME = re.compile(rf"(?:{TWIN_OF})?[a-z0-9_]+")
# The lines of an edit, as against its sentences.
LINE = re.compile(r"(file|old|new|tests):")


class BadEdit(Exception):
    """Why a text is no wrong body, or why its body does not apply to the sources."""


@dataclasses.dataclass
class Edit:
    """A wrong body: the texts of a crate's files that others take the place of, and the tests that fail on it."""

    crate: str
    name: str
    kind: str  # who refuses it: the prover in the gate, the prover, or tests; or that it is the twin of another
    text: str  # as the toolchain reads it
    pairs: list  # a file, its text that stands there once, and the text in its place
    tested: str  # the crate of the tests, empty where the prover refuses the body
    tests: set

    def __str__(self):
        return f"{self.crate}/{self.name}"

    def twin_of(self):
        """Returns the name of the wrong body whose twin this is."""
        return self.name.removeprefix(TWIN_OF)

    def digest(self):
        """Returns what tells one text of a wrong body from another, in the record of tries."""
        return hashlib.sha256(self.text.encode()).hexdigest()[:12]

    def put_in(self, top):
        """Returns the texts of the files that the body changes, by their paths below `top`, with the body in them."""
        texts = {}
        for file, old, new in self.pairs:
            path = f"crates/{self.crate}/{file}"
            if path not in texts:
                texts[path] = text_of(top, path)
            found = texts[path].count(old)
            if found != 1:
                raise BadEdit(f"{path} has this text {found} times: {old.strip()}")
            texts[path] = texts[path].replace(old, new)
        for path, text in texts.items():
            if text == text_of(top, path):
                raise BadEdit(f"it leaves {path} as it is")
        return texts

    def changed_lines(self, top):
        """Returns the lines that the body changes, by path and number. It changes lines, and adds or removes none."""
        lines = {}
        for path, text in self.put_in(top).items():
            pairs = zip(text_of(top, path).split("\n"), text.split("\n"))
            lines.update({(path, number): new for number, (old, new) in enumerate(pairs) if old != new})
        return lines


def text_of(top, path):
    try:
        with open(f"{top}/{path}", encoding="utf-8", newline="") as file:
            return file.read()
    except FileNotFoundError:
        raise BadEdit(f"there is no file {path}") from None


def pairs_in(lines):
    """Returns the pairs that the lines of an edit give: after 'file: ' any number of 'old: ' and 'new:' in turn."""
    pairs, file, old = [], "", ""
    for line in lines:
        word, _, rest = line.partition(":")
        rest = rest.removeprefix(" ")
        if word == "file" and not old and re.fullmatch(r"(src|specs)/[\w/]+\.(rt|antt)", rest):
            file = rest
        elif word == "old" and file and not old and rest.strip():
            old = rest
        elif word == "new" and old:
            pairs.append((file, old, rest))
            old = ""
        else:
            raise BadEdit(f"this line has no meaning at its place: {line}")
    if old or not pairs:
        raise BadEdit("an 'old:' line has no 'new:' line" if old else "it changes nothing")
    return pairs


def read_edit(crate, name, gate, lines):
    """Returns the wrong body that these lines are."""
    if not NAME.fullmatch(name):
        raise BadEdit("its name is not words of a-z, 0-9 and _")
    tests = [line for line in lines if line.startswith("tests: ")]
    named = [line.split()[1:] for line in tests]
    rest = lines[: len(lines) - len(tests)]
    if lines[len(rest) :] != tests or tests and gate:
        raise BadEdit("lines 'tests:' stand last, and not in must-fail/")
    is_twin = name.startswith(TWIN_OF)
    if tests and is_twin:
        raise BadEdit("a twin fails no test")
    if any(len(words) < 2 for words in named) or len({words[0] for words in named}) > 1:
        raise BadEdit("a line 'tests:' names a crate, the same in all, and tests of it")
    kind = TWIN if is_twin else GATE if gate else TESTS if tests else PROVER
    every = {test for _, *words in named for test in words}
    text = "".join(f"{line}\n" for line in rest)
    return Edit(crate, name, kind, text, pairs_in(rest), named[0][0] if named else "", every)


def without_sentences(lines):
    """Returns the lines of an edit that stand below its sentences."""
    first = next((at for at, line in enumerate(lines) if LINE.match(line)), len(lines))
    about = " ".join(lines[:first])
    if not about.endswith(".") or about != about.strip():
        raise BadEdit("whole sentences say above its lines what it is")
    return lines[first:]


def texts_in(crate):
    """Yields the name of each wrong body of a crate, whether the gate tries it, and its lines."""
    here = f"{TOP}/crates/{crate}"
    for name in sorted(os.listdir(f"{here}/must-fail")) if os.path.isdir(f"{here}/must-fail") else []:
        yield name.removesuffix(".edit"), True, text_of(here, f"must-fail/{name}").splitlines()
    if os.path.isfile(f"{here}/wrong-bodies"):
        for text in text_of(here, "wrong-bodies").removesuffix("\n").split("\n\n"):
            head, *lines = text.split("\n")
            yield head.removeprefix("# ") if head.startswith("# ") else head, False, lines


def read_edits(crate, bad):
    """Returns the wrong bodies of a crate. Calls `bad` with the name of each that is none, and why."""
    edits = {}
    for name, gate, lines in texts_in(crate):
        try:
            edit = read_edit(crate, name, gate, lines if gate else without_sentences(lines))
            if name in edits:
                raise BadEdit("the crate has another of this name")
            edits[name] = edit
        except BadEdit as why:
            bad(f"{crate}/{name}", why)
    return [*edits.values()]


def crates():
    """Returns the names of the folders of crates, in order."""
    return sorted(os.listdir(f"{TOP}/crates"))
