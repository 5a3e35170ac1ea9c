"""Tests the documents: their commands and outputs, what they quote and name, their sentences, lines and lengths.

    checks/run documents [PRECOPY [PRECOPY_VIEW]]

A command is an indented line that begins with `$`; the lines below it are all that it prints, and `...` stands for any
lines. Its status is 0, unless what it prints tells of another. The commands of a page, and its blocks of Python, run
one after another in a folder of their own, with the repository's files. Those of LEFT_OUT need a running guest; those
of GNU parallel are left out if there is none. A block of code that is headed by the path of a file occurs in that file.
What docs/PROOF.md, the theorem's table in README.md and the recipes of docs/ARCHITECTURE.md name exists, and that page
has each crate once. docs/PROOF.md lists the calls that contracts leave open. What docs/DECISIONS.md and README.md tell
of differences and proof has lost no head. The index that dev/index makes has each clause that README.md and
docs/PROOF.md name. A refused trace has one sentence in programs and pages. A sentence has at most 40 words, unless it
is quoted; a line has at most 120 characters. README.md is short, and all of docs/ has a bound. What is tested of a page
is a case.
"""

import fnmatch
import os
import re
import subprocess
import sys
import tempfile

from checks.documents import heads, links, names, refusal_words
from checks.lib.harness import run_main
from checks.lib.pages import INDEX, agrees, is_due, manuals, pages, quotes, steps
from checks.lib.tally import left_out, why_not
from precopy_dev.tree import TOP, read

SECONDS = 120
MOST_WORDS = 40
MOST_COLUMNS = 120
README_LINES, README_BYTES = 140, 9216
OF_USERS = ("README.md", "CONTRIBUTING.md")
WORDS_IN_ALL = 36_000
# What scripts print, and no page has but this: tables of times, and the profile of the proofs.
FIGURES, MADE = "docs/MEASUREMENTS.md", re.compile(r"^\|.*\n|^ +\d[\d.]* +\d.*\n", re.M)
# What a command begins with that needs a running guest, or is of a shell that runs on.
LEFT_OUT = ("tools/compare-qemu", "tools/record", "export")
# Words that look like files and are none of the repository's.
NO_FILES = {"crates/precopy/out/precopy", "manifest.json"}
FILE = re.compile(r"[\w.*-]+(?:/[\w.*-]+)*/?")
KINDS = (".md", ".rt", ".antt", ".py", ".c", ".txt", ".json", ".edit", ".1")
# Numbers of rules elsewhere, and paths of one machine, say nothing to a reader.
FOREIGN = re.compile(r"\b[TDRW]\d{1,2}\b|(?<![\w.])/(?:work|tmp|root|home)\b")


# ---- Commands.


def make_folder(folder, given):
    """The repository's files as links, and beside them the programs ./precopy and ./precopy-view, on the path too."""
    programs = {"precopy": given.precopy, "precopy-view": given.precopy_view}
    for name in os.listdir(TOP):
        if name != ".git" and name not in programs:
            os.symlink(os.path.join(TOP, name), os.path.join(folder, name))
    for name, path in programs.items():
        os.symlink(path, os.path.join(folder, name))
    return {**os.environ, "PATH": f"{folder}{os.pathsep}{os.environ.get('PATH', '')}", "LC_ALL": "C"}


def try_steps(case, folder, given, found):
    environment = make_folder(folder, given)
    for kind, words, wanted in found:
        command = [sys.executable, "-c", words] if kind == "python" else ["sh", "-c", words]
        how = {"stdin": subprocess.DEVNULL, "stdout": subprocess.PIPE, "stderr": subprocess.STDOUT, "timeout": SECONDS}
        done = subprocess.run(command, cwd=folder, env=environment, **how)
        printed = done.stdout.decode(errors="replace")
        if kind == "python":
            good = done.returncode == 0
        else:
            good = agrees(wanted, printed) and is_due(done.returncode, words, printed)
        case.add(good, f"{words}\nstatus {done.returncode}\n{printed}")


def commands(tally, given):
    for page in pages():
        found = []
        for step in steps(read(page)):
            if step[0] == "command" and step[1].startswith(LEFT_OUT):
                print(f"  {page}: {step[1].splitlines()[0]} is not run here")
            elif step[0] == "command" and step[1].startswith("parallel") and (why := why_not("parallel")):
                left_out(f"{page}: {step[1].splitlines()[0]}", why)
            else:
                found.append(step)
        if found:
            with tally.case(f"the commands of {page}") as case, tempfile.TemporaryDirectory() as folder:
                try_steps(case, folder, given, found)


# ---- Files that are named.


def repository_files():
    listed = subprocess.run(["git", "ls-files"], cwd=TOP, capture_output=True, text=True)
    names = listed.stdout.split("\n") if listed.returncode == 0 else []
    if not any(names):
        paths = [os.path.join(at, name) for at, _, inside in os.walk(TOP) for name in inside]
        names = [os.path.relpath(path, TOP) for path in paths]
    folders = {"/".join(name.split("/")[:depth]) + "/" for name in names for depth in range(1, name.count("/") + 1)}
    return [INDEX, *filter(None, names), *sorted(folders)]


def is_named_file(word, programs):
    """Whether a word in backquotes is meant as a file: it has the form of one, and a folder or a kind."""
    if not FILE.fullmatch(word) or word in NO_FILES or "NAME" in word:
        return False
    return word.endswith(KINDS) or word.split("/")[0] in programs and "/" in word


def files(tally, _):
    known = repository_files()
    tops = {name.split("/")[0] for name in known if "/" in name}
    for page in [*pages(), *manuals()]:
        text = read(page)
        words = re.findall(r"`([^`\n]+)`", text) + re.findall(r"\]\(([^)#:]+)\)", text)
        named = sorted({word.removeprefix("./").split(" ")[0] for word in words})
        missing = [word for word in named if is_named_file(word, tops) and not is_there(word, known)]
        tally.add(not missing, f"{page} names {missing}, which are not there")


def is_there(word, known):
    return any(fnmatch.fnmatch(f"/{name}", f"*/{word}") or name == f"{word}/" for name in known)


# ---- What is quoted, what the page on the proof names, and the index.


def quotations(tally, _):
    """A block that is headed by a file's path: that file has its lines, and `...` stands for any lines."""
    for page in pages():
        for path, lines in quotes(read(page)):
            pattern = "".join(r"(?:.*\n)*?" if line == "..." else re.escape(line) + r"\n" for line in lines)
            good = os.path.isfile(os.path.join(TOP, path)) and re.search(f"^{pattern}", read(path), re.M)
            tally.add(good, f"{page} quotes what does not stand so in {path}: {lines[:2]}")


def all_of(name, found):
    def test(tally, _):
        with tally.case(name) as case:
            for good, told in found():
                case.add(good, told)

    test.__name__ = name
    return test


def made_by(command, *words):
    return subprocess.run([os.path.join(TOP, "dev", command), *words], capture_output=True, text=True, timeout=SECONDS)


def interface(tally, _):
    made = made_by("interface", "--compare")
    tally.add(made.returncode == 0, f"dev/interface would write other files: {made.stdout}{made.stderr}")


def index(tally, _):
    made = made_by("index", "--print")
    with tally.case("the index") as case:
        case.add(made.returncode == 0, f"dev/index failed: {made.stderr}")
        for good, told in names.in_index(made.stdout):
            case.add(good, told)
        case.add(not FOREIGN.findall(made.stdout), f"the index has {FOREIGN.findall(made.stdout)}")
        longest = max(map(len, made.stdout.split("\n")))
        case.add(longest <= MOST_COLUMNS, f"the index has a line of {longest} characters")


# ---- Sentences.


def blocks_of_markdown(text):
    """Paragraphs, items of lists and cells of tables, without blocks of code and quotations."""
    is_code, block = False, []
    for line in text.split("\n"):
        # A quotation of several lines is one sentence of somebody else, whose length is as it is.
        if line.startswith(">"):
            continue
        begins = re.match(r" *(?:[-*]|\d+\.) |#+ ?", line)
        if line.startswith("```") or is_code or not line.strip() or line.startswith("|") or begins:
            yield " ".join(block)
            block = []
        if line.startswith("```"):
            is_code = not is_code
        elif line.startswith("|"):
            yield from line.split("|")
        elif begins:
            block = [line[begins.end() :]]
        elif not is_code and line.strip() and not (line.startswith("    ") and not block):
            block.append(line.strip())
    yield " ".join(block)


def blocks_of_manual(text):
    block = []
    for line in text.split("\n"):
        if line.startswith("."):
            macro, _, rest = line.partition(" ")
            if macro not in (".Nm", ".Cm", ".Ar", ".Fl", ".Pa", ".Sm"):
                yield " ".join(block)
                block = []
            block.append(rest)
        else:
            block.append(line)
    yield " ".join(block)


def sentences(block):
    """What ends in a full stop, a question mark or an exclamation mark, or with the block. Code counts as a word."""
    plain = re.sub(r"`[^`]*`", "code", block)
    return re.split(r"(?<=[.!?])[\"*)]*\s+(?=[\"*(]*[A-Z0-9c])", plain)


def lengths(tally, _):
    for page in [*pages(), *manuals()]:
        blocks = blocks_of_manual if page.endswith(".1") else blocks_of_markdown
        found = [sentence for block in blocks(read(page)) for sentence in sentences(block)]
        long = [it[:100] for it in found if sum(any(map(str.isalnum, word)) for word in it.split()) > MOST_WORDS]
        tally.add(found and not long, f"{page}: {len(found)} sentences, of which these are too long: {long}")


def foreign(tally, _):
    for page in [*pages(), *manuals()]:
        found = FOREIGN.findall(read(page))
        tally.add(not found, f"{page} has {found}")


def widths(tally, _):
    for page in [*pages(), *manuals()]:
        wide = [number for number, line in enumerate(read(page).split("\n"), 1) if len(line) > MOST_COLUMNS]
        tally.add(not wide, f"{page}: the lines {wide} have more than {MOST_COLUMNS} characters")


def size(tally, _):
    text = read("README.md")
    sizes = text.count("\n"), len(text.encode())
    good = sizes[0] <= README_LINES and sizes[1] <= README_BYTES
    tally.add(good, f"README.md has {sizes} lines and bytes, and {README_LINES} and {README_BYTES} at most")
    written = [page for page in pages() if page in OF_USERS or page.startswith("docs/")]
    count = sum(len((MADE.sub("", read(page)) if page == FIGURES else read(page)).split()) for page in written)
    tally.add(count <= WORDS_IN_ALL, f"{', '.join(OF_USERS)} and docs have {count} words, and {WORDS_IN_ALL} at most")


PARTS = [
    commands,
    files,
    all_of("links and their anchors", links.compared),
    quotations,
    all_of("what docs/PROOF.md and the theorem's table name", names.named),
    all_of("what docs/ARCHITECTURE.md names", names.in_architecture),
    all_of("the calls that docs/PROOF.md leaves open", names.left_open),
    all_of("the laws that contracts name", names.laws),
    all_of("heads of what differs and what is proved", heads.compared),
    all_of("the sentences of refusals", refusal_words.compared),
    index,
    interface,
    lengths,
    widths,
    foreign,
    size,
]


def check(tally, given):
    for part in PARTS:
        before = tally.passed, tally.failed
        part(tally, given)
        print(f"{part.__name__}: {tally.passed - before[0]} passed, {tally.failed - before[1]} failed", flush=True)


if __name__ == "__main__":
    run_main(check, __doc__, "precopy", "precopy_view")
