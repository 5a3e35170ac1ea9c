"""The documents as they are installed: programs and tools have their installed names, and what only sources have is
left out. Documents for those who change precopy, and the READMEs of the crate for Rust and of the package for Node,
stay as they are.
"""

import re

# A part of a document, from the line that begins so up to the line that begins so.
ONLY_SOURCES = {
    "README.md": [("**A package** installs", "## Four commands")],
    "docs/COMMANDS.md": [("## The script `./precopy`", "## Large pages")],
    "docs/LIBRARY.md": [("    make lib ", "## Testing your own migration")],
}
OF_BUILDERS = {
    "CHANGELOG.md",
    "CONTRIBUTING.md",
    "bindings/js/README.md",
    "bindings/rust/README.md",
    "docs/ARCHITECTURE.md",
    "docs/DECISIONS.md",
    "docs/INDEX.md",
    "docs/MEASUREMENTS.md",
    "docs/PROOF.md",
    "docs/READING.md",
}
# What is called otherwise where it is installed.
RENAMED = {
    "They read a trace from standard input.": "They read a trace from standard input. Copy the folder `examples` here\n"
    "to where you may write, and run them there.",
    " (made by `make docs`)": "",
    "after `make lib` and `export PYTHONPATH=bindings/python` four": "with the package `python3-precopy` four",
    "`make page` writes `out/precopy.html`": "`precopy-page` prints where `precopy.html` is",
    "`make lib` builds a static and a shared library": "the package `libprecopy-dev` has the library",
    "`make deb` makes `python3-precopy`": "the package `python3-precopy` has the module",
    "`./precopy` and installed programs add": "Programs add",
    " by the page's module (`make js`)": ", in the sources, by the page's module",
    "    $ examples/left_out.py": "    $ python3 examples/left_out.py",
    "predictions the built `precopy-view`": "predictions `precopy-view`",
    "machine code in the\npackage, and in the sources after `make scan`, which needs a C compiler": "machine code",
    "each with `precopy` on its path": "each with the package",
}
PROGRAM = re.compile(r"(?<![\w/.])\./(precopy(?:-view)?)(?![\w-])")


class Differs(Exception):
    """A document is not as this script knows it; the text says in what."""


def without(path: str, text: str, begin: str, end: str | None) -> str:
    lines = text.split("\n")
    first = next((at for at, line in enumerate(lines) if line.startswith(begin)), None)
    if first is None:
        raise Differs(f"{path} has no line that begins with {begin!r}: packaging/documents.py leaves that part out")
    later = range(first + 1, len(lines))
    last = next((at for at in later if end and lines[at].startswith(end)), len(lines) if end is None else None)
    if last is None:
        raise Differs(f"{path} has no line after that which begins with {end!r}")
    return "\n".join(lines[:first] + lines[last:]).rstrip("\n") + "\n"


def installed(path: str, text: str, tools: tuple[str, ...]) -> str:
    """A document by its path in the sources, with the names of what is installed."""
    if path in OF_BUILDERS or not path.endswith(".md"):
        return text
    for begin, end in ONLY_SOURCES.get(path, []):
        text = without(path, text, begin, end)
    for name, other in RENAMED.items():
        text = text.replace(name, other)
    text = PROGRAM.sub(r"\1", text)
    return re.sub(rf"(?<![\w/.-])tools/({'|'.join(tools)})(?![\w.-])", r"precopy-\1", text)
