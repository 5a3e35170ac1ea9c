"""Joins the planner's page into one file, which works from disk and without a network.

    dev/join-page MODULE PAGE

MODULE is the WebAssembly module of the proved planner, and PAGE the file to write. The rest comes from web/ and
examples/ of this repository. The scripts follow one another in the order of their imports, as one script; so no two of
them may name something alike. Comments on lines of their own stay out, and a line begins with a tab for each two
blanks. Module and examples are gzipped, in base64; of an example each write has its tick and its page, which plan as
the whole does. The notices of the libraries whose code the module holds are at the page's foot. The page's policy names
the script and the style by their hashes, and allows no connection. The same inputs give the same bytes. The status is 0
if the page was written, and 1 if not.
"""

import base64
import gzip
import hashlib
import html
import os
import posixpath
import re
import sys

from precopy_dev.files import read_bytes, write_file
from precopy_dev.packaging import notices
from precopy_dev.tree import TOP, read
from precopy_tools.formats import traces
from precopy_tools.refusals import Refused

EXAMPLES = {"example-gzip": "examples/gzip.pcwt", "example-sqlite": "examples/guests/sqlite.light.pcwt"}
RECORDS = {"record-sqlite": "examples/guests/sqlite.light.json"}
# The most ticks from one write of an example to the next.
MOST_PAUSE = 65_535
IMPORT = re.compile(r'^import \{([^}]*)\} from "(\.{1,2}/[\w/.-]+\.js)";\n', re.MULTILINE)
NAMED = re.compile(r"^(export )?(?:async )?(?:function\*?|class|const|let) (\w+)", re.MULTILINE)
# The page, its pictures, and the page on paper.
STYLES = ["style/page.css", "style/pictures.css", "style/paper.css"]
COMMENT = re.compile(r"^[ \t]*(?:/\*.*?\*/|//[^\n]*)\n", re.MULTILINE | re.DOTALL)
# How deep a line of a script or a style is.
INDENT = re.compile(r"^(?:  )+", re.MULTILINE)
# Where the page has the notices of libraries.
NOTICES = '<pre id="notices"></pre>'
# What a page that opens no connection has no use for.
CALLS = r"\b(fetch|XMLHttpRequest|WebSocket|EventSource|sendBeacon|importScripts|RTCPeerConnection|import\()"
FORBIDDEN = re.compile(CALLS + r"|https?://(?!www\.w3\.org/)")


def tabbed(name, text):
    """Returns a script or a style with a tab for each two blanks at the begin of a line. A literal that has lines would
    be changed, so none may."""
    for line in text.split("\n"):
        if line.count("`") % 2 == 1:
            raise Refused(f"web/{name} has a template literal of several lines: {line.strip()}")
    return INDENT.sub(lambda blanks: "\t" * (len(blanks.group()) // 2), text)


def scripts_below(name, order):
    """Adds a script to `order` after those that it imports, and returns what each exports."""
    if name in order:
        return
    text = read(f"web/{name}")
    for names, path in IMPORT.findall(text):
        other = posixpath.normpath(posixpath.join(posixpath.dirname(name), path))
        scripts_below(other, order)
        missing = {word.strip() for word in names.split(",") if word.strip()} - order[other][1]
        if missing:
            raise Refused(f"web/{name} imports {sorted(missing)} from {other}, which has none")
    exported = {name for export, name in NAMED.findall(text) if export}
    order[name] = (text, exported)


def joined_script(first):
    """Returns a script and all that it imports as one, without imports and exports."""
    order, owners, parts = {}, {}, []
    scripts_below(first, order)
    for name, (text, _) in order.items():
        for _, word in NAMED.findall(text):
            if owners.setdefault(word, name) != name:
                raise Refused(f"{word} is in web/{owners[word]} and in web/{name}")
        plain = COMMENT.sub("", re.sub(r"^export ", "", IMPORT.sub("", text), flags=re.MULTILINE)).strip("\n")
        if re.search(r"^(import|export)\b", plain, re.MULTILINE) or "</script" in plain:
            raise Refused(f"web/{name} has an import or export of another form")
        if found := FORBIDDEN.search(plain):
            raise Refused(f"web/{name} has {found.group(0)!r}")
        parts.append(f"// ---- {name}\n\n{tabbed(name, plain)}\n")
    return "\n" + "\n".join(parts)


def hash_of(text):
    return f"'sha256-{base64.b64encode(hashlib.sha256(text.encode()).digest()).decode()}'"


def light(path):
    """The header of a trace, and of its writes the ticks since the write before and the pages: the low bytes of each,
    and then the high ones, since like bytes pack well."""
    trace, records = traces.read_file(os.path.join(TOP, path))
    ticks, pages = zip(*((tick, page) for tick, page, *_ in records))
    pauses = [tick - before for before, tick in zip((0, *ticks), ticks)]
    if max(pauses) > MOST_PAUSE:
        raise Refused(f"{path} pauses for more than {MOST_PAUSE} ticks")
    planes = (bytes(number >> shift & 255 for number in column) for column in (pauses, pages) for shift in (0, 8))
    return trace.text[: traces.HEADER] + b"".join(planes)


def packed(data):
    return base64.b64encode(gzip.compress(data, 9, mtime=0)).decode()


def replaced(text, old, new):
    if text.count(old) != 1:
        raise Refused(f"web/index.html has {old!r} {text.count(old)} times")
    return text.replace(old, new)


def page_of(module):
    script = joined_script("page.js")
    style = "\n" + "".join(tabbed(name, COMMENT.sub("", read(f"web/{name}"))) for name in STYLES)
    policy = (
        f"default-src 'none'; script-src {hash_of(script)} 'wasm-unsafe-eval'; style-src {hash_of(style)}; "
        "worker-src blob:; img-src data:; connect-src 'none'; form-action 'none'; base-uri 'none'"
    )
    embedded = {"planner-module": module}
    embedded |= {name: light(path) for name, path in EXAMPLES.items()}
    embedded |= {name: read(path).encode() for name, path in RECORDS.items()}
    holders = [f'<script type="text/plain" id="{name}">{packed(some)}</script>\n' for name, some in embedded.items()]
    page = replaced(read("web/index.html"), "content=\"default-src 'none'\"", f'content="{policy}"')
    links = "\n".join(f'<link rel="stylesheet" href="{name}">' for name in STYLES)
    page = replaced(page, links, f"<style>{style}</style>")
    program = f'<script type="module" id="program">{script}</script>'
    page = replaced(page, '<script type="module" src="page.js"></script>', "".join(holders) + program)
    told = html.escape(notices.notices(notices.PLANNER), quote=False)
    return replaced(page, NOTICES, NOTICES.replace("></", f">{told}</"))


def main(words):
    return of_module("dev/join-page", "PAGE", words, write_page)


def write_page(module, path):
    page = page_of(module)
    os.makedirs(os.path.dirname(os.path.abspath(path)), exist_ok=True)
    write_file(page, path)


def of_module(command, what, words, write):
    """Writes what is made of a module: the words are the path of the module, and that of what is made. Returns the
    status of the command."""
    if len(words) != 2:
        print(f"usage: {command} MODULE {what}", file=sys.stderr)
        return 2
    try:
        module = read_bytes(words[0])
        write(module, words[1])
    except (OSError, Refused, notices.Lacks) as error:
        print(f"{command}: {error}", file=sys.stderr)
        return 1
    return 0


if __name__ == "__main__":
    sys.exit(main(sys.argv[1:]))
