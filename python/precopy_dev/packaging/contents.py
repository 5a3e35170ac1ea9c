"""What is installed: each file by its place, its rights and its bytes.

`make install`, packages and tarballs take all of it from here. `debian/NAME.install` says which of it is in a package.
"""

import contextlib
import datetime
import os
import shutil
import subprocess
import tempfile
from dataclasses import dataclass
from typing import Iterator, NamedTuple, Optional

from precopy_dev import index
from precopy_dev.files import read_bytes, write_file
from precopy_dev.packaging import compilers, completions, documents, launcher, manuals, notices, options
from precopy_dev.tree import TOP
from precopy_tools import version

PROGRAMS = {"precopy": "precopy", "precopy-view": "precopy_view"}
# Programs that only tools run. They stand beside the tools, and on no path.
HELPERS = {"precopy-schedule": "precopy_schedule"}
# What a build or a run leaves among sources.
NOT_SOURCES = {"target", "build", "__pycache__", "Cargo.lock"}
TOOLS = tuple(sorted(os.listdir(f"{TOP}/tools")))
# What the tools run: a module of the package, by the launchers in tools/.
PACKAGE = "python/precopy_tools"


class Places(NamedTuple):
    """The folders of an installation, from the root of the file system on."""

    bin: str
    lib: str
    man: str
    doc: str
    bash: str
    zsh: str
    systemd: str
    library: str
    include: str
    share: str


def places_below(prefix) -> Places:
    share = os.path.join(prefix, "share")
    return Places(
        os.path.join(prefix, "bin"),
        os.path.join(prefix, "lib", "precopy"),
        os.path.join(share, "man"),
        os.path.join(share, "doc", "precopy"),
        os.path.join(share, "bash-completion", "completions"),
        os.path.join(share, "zsh", "site-functions"),
        os.path.join(prefix, "lib", "systemd", "system"),
        os.path.join(prefix, "lib"),
        os.path.join(prefix, "include"),
        os.path.join(share, "precopy"),
    )


@dataclass(frozen=True)
class Entry:
    """A file by its place, or a link to the text of `link`."""

    place: str
    data: bytes = b""
    mode: int = 0o644
    link: Optional[str] = None

    def write(self, path):
        """Makes the file or the link at a path, where there is none, with its rights."""
        if self.link is not None:
            os.symlink(self.link, path)
            return
        write_file(self.data, path)
        os.chmod(path, self.mode)


MODULE = "out/browser_planner.wasm"
PAGE = "precopy.html"
SCAN = f"{PACKAGE}/record/scan.c"
MONITORING = "packaging/monitoring"


class NotBuilt(Exception):
    """A program is not built; the text says which, and what builds it."""


def read(path):
    return read_bytes(TOP, path)


def program_file(name):
    crate = {**PROGRAMS, **HELPERS}[name]
    path = os.path.join(TOP, "crates", crate, "out", crate)
    if not os.access(path, os.X_OK):
        raise NotBuilt(f"{name} is not built: {f'./{name} --help' if name in PROGRAMS else 'make'} builds it")
    return path


def moment(date):
    """Midnight of a day, in seconds."""
    day = datetime.date.fromisoformat(date)
    return int(datetime.datetime(day.year, day.month, day.day, tzinfo=datetime.timezone.utc).timestamp())


@contextlib.contextmanager
def named_commands():
    """A folder in which each program and each tool has the name that it is installed under."""
    with tempfile.TemporaryDirectory() as folder:
        for name in PROGRAMS:
            os.symlink(program_file(name), os.path.join(folder, name))
        for path in ("tools", "python"):
            shutil.copytree(os.path.join(TOP, path), os.path.join(folder, path), ignore=lambda _, names: NOT_SOURCES)
        for name in TOOLS:
            os.symlink(os.path.join(folder, "tools", name), os.path.join(folder, f"precopy-{name}"))
        yield folder


def told_by_help():
    """Returns what each program's help says, and then what each tool's does."""
    with named_commands() as folder:
        programs = [options.read(os.path.join(folder, name)) for name in PROGRAMS]
        tools = [options.read(os.path.join(folder, f"precopy-{name}")) for name in TOOLS]
    return programs, tools


def with_python(data, python):
    """A launcher that runs this interpreter."""
    return data.replace(b"exec python3 ", f"exec {python} ".encode())


def stripped(path):
    """A program without the names that only debuggers and checks read; as it is if there is no `strip`."""
    with tempfile.TemporaryDirectory() as folder:
        made = os.path.join(folder, "program")
        if strip := shutil.which("strip"):
            subprocess.run([strip, "--strip-unneeded", "-o", made, path], check=True)
        return read_bytes(made if strip else path)


def scan_library() -> bytes:
    """The loop of system calls of the recorder, in machine code."""
    how = ["-std=c99", "-O2", "-Wall", "-Wextra", "-fPIC", "-shared", "-Wl,--build-id=none", "-Wl,-s"]
    how += ["-Wl,-z,relro,-z,now", os.path.join(TOP, SCAN)]
    with tempfile.TemporaryDirectory() as folder:
        made = os.path.join(folder, "scan.so")
        compilers.run(compilers.tool("cc", "the recorder's loop of system calls"), *how, "-o", made)
        return read_bytes(made)


def commands(places, python) -> Iterator[Entry]:
    for name in PROGRAMS:
        program = os.path.join(places.lib, name)
        yield Entry(program, stripped(program_file(name)), 0o755)
        yield Entry(os.path.join(places.bin, name), launcher.launcher(os.path.relpath(program, places.bin)), 0o755)
    for name in HELPERS:
        yield Entry(os.path.join(places.lib, name), stripped(program_file(name)), 0o755)
    for name in TOOLS:
        launcher_of_tool = os.path.join(places.lib, "tools", name)
        yield Entry(launcher_of_tool, with_python(read(f"tools/{name}"), python), 0o755)
        link = os.path.relpath(launcher_of_tool, places.bin)
        yield Entry(os.path.join(places.bin, f"precopy-{name}"), link=link)
    for path in ("python/__main__.py", *sources_below(PACKAGE)):
        yield Entry(os.path.join(places.lib, path), read(path))
    yield Entry(os.path.join(places.lib, "scan.so"), scan_library())


def services(places) -> Iterator[Entry]:
    """Units for systemd."""
    for name in sorted(os.listdir(os.path.join(TOP, "packaging"))):
        if name.endswith(".service"):
            yield Entry(os.path.join(places.systemd, name), read(f"packaging/{name}"))


def monitoring(places) -> Iterator[Entry]:
    """What an operator of Prometheus takes: alerts, a dashboard, and limits to begin with."""
    for name in sorted(os.listdir(os.path.join(TOP, MONITORING))):
        yield Entry(os.path.join(places.share, "monitoring", name), read(f"{MONITORING}/{name}"))


def pages(places) -> Iterator[Entry]:
    """Manuals and completions."""
    programs, tools = told_by_help()
    for name in sorted(os.listdir(os.path.join(TOP, "man"))):
        yield Entry(os.path.join(places.man, "man1", name), read(f"man/{name}"))
    for tool in tools:
        page = manuals.manual(tool, version.DATE)
        yield Entry(os.path.join(places.man, "man1", f"{tool.words[0]}.1"), page.encode())
    for command in (*programs, *tools):
        name = command.words[0]
        path = name if name in PROGRAMS else name.replace("precopy-", "tools/", 1)
        yield Entry(os.path.join(places.bash, name), completions.bash(command, path).encode())
        yield Entry(os.path.join(places.zsh, f"_{name}"), completions.zsh(command, path).encode())


def page_that_plans(places) -> Iterator[Entry]:
    """The page that plans in a browser, with links to it beside the documents and the tools."""
    place = os.path.join(places.share, PAGE)
    yield Entry(place, joined_page())
    for folder in (places.doc, places.lib):
        yield Entry(os.path.join(folder, PAGE), link=os.path.relpath(place, folder))


def module() -> bytes:
    """The WebAssembly module of the page, which the package for Node has too."""
    if not os.path.isfile(os.path.join(TOP, MODULE)):
        raise NotBuilt("the page's module is not built: make page builds it")
    return read_bytes(TOP, MODULE)


def joined_page() -> bytes:
    """The page as `make page` writes it."""
    module()
    with tempfile.TemporaryDirectory() as folder:
        made = os.path.join(folder, PAGE)
        joined = subprocess.run([os.path.join(TOP, "dev", "join-page"), os.path.join(TOP, MODULE), made])
        if joined.returncode:
            raise NotBuilt("the page cannot be joined: dev/join-page says why")
        return read_bytes(made)


def document(places, path) -> Entry:
    data = read(path)
    if path.endswith(".md"):
        data = documents.installed(path, data.decode(), TOOLS).encode()
    return Entry(os.path.join(places.doc, path), data)


def texts(places) -> Iterator[Entry]:
    """The documents and the examples, in folders as in the sources, so that the names in them lead to them."""
    for path in ("README.md", "CHANGELOG.md", "CONTRIBUTING.md", "LICENSE"):
        yield document(places, path)
    yield Entry(os.path.join(places.doc, "NOTICES"), notices.notices().encode())
    for folder in ("docs", "examples", "bindings"):
        for path in sources_below(folder):
            if path != index.PATH:
                yield document(places, path)
    # It is made of the sources as they are now, also if an older one lies in docs/.
    yield Entry(os.path.join(places.doc, index.PATH), index.page().encode())


def sources_below(folder) -> Iterator[str]:
    """The files below a folder of the sources, by their paths from the top, without what a build left there."""
    for at, folders, names in os.walk(os.path.join(TOP, folder)):
        folders[:] = sorted(set(folders) - NOT_SOURCES)
        for name in sorted(set(names) - NOT_SOURCES):
            if not name.startswith("."):
                yield os.path.relpath(os.path.join(at, name), TOP)


def contents(places, python="python3") -> Iterator[Entry]:
    yield from commands(places, python)
    yield from services(places)
    yield from monitoring(places)
    yield from pages(places)
    yield from page_that_plans(places)
    yield from texts(places)
