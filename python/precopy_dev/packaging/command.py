"""Builds the library for C, installs precopy, removes it, and packs it; the Makefile calls it as follows.

    dev/package lib
    dev/package scan
    dev/package notices
    dev/package install | install-lib [--prefix DIR] [--destdir DIR]
    dev/package uninstall | uninstall-lib [--prefix DIR] [--destdir DIR]
    dev/package deb | dist | release [--output DIR]

`lib` proves and builds what is not built yet, and `scan` builds out/scan.so, with which tools/record takes less time
for a look. `notices` writes out/NOTICES, of the libraries that are linked. `install-lib` installs the library alone,
and needs only that it is built. `install`, `deb` and `dist` need the programs and the page's module too. The status is
0 if all was done, 1 if not, and 2 if the words are refused.
"""

import argparse
import contextlib
import errno
import os
import sys

from precopy_dev.packaging import archive, compilers, contents, debian, documents, library, notices, options, release
from precopy_dev.tree import TOP
from precopy_dev.words import parser_of

# The lists of what an installation put where, in the folder of the tools: of all, and of the library alone.
OF_ALL, OF_LIBRARY = "installed", "installed-library"


def places_of(asked):
    """Returns the folders below the prefix, but for those that are asked for by themselves."""
    given = {name: getattr(asked, f"{name}dir") for name in contents.Places._fields}
    return contents.places_below(asked.prefix)._replace(**{name: it for name, it in given.items() if it})


def below(destdir, place):
    return os.path.join(destdir, place.lstrip("/")) if destdir else place


def make_folders(path):
    """Makes a folder and those above it that are missing, and returns the new ones, the highest first."""
    missing = []
    while path and not os.path.isdir(path):
        missing.insert(0, path)
        path = os.path.dirname(path)
    for folder in missing:
        os.mkdir(folder)
    return missing


def put(path, entry):
    """Puts a file in its place. One that was there gives way to the new one, and is not written over."""
    part = f"{path}.part"
    with contextlib.suppress(FileNotFoundError):
        os.unlink(part)
    entry.write(part)
    os.replace(part, path)


def wanted(asked):
    """Yields what belongs to an installation."""
    places = places_of(asked)
    if asked.what == "install":
        yield from contents.contents(places, asked.python)
    yield from library.entries(places, library.config(asked.prefix, places.library, places.include))
    yield contents.Entry(lists_of(asked)[0])


def install(asked):
    """Puts all files in their places, and a list of them and of the folders that were made. What an earlier version put
    there and this one does not have goes."""
    entries, earlier = [*wanted(asked)], listed_in(asked)
    folders = [place for place in earlier if place.endswith("/")]
    old = os.umask(0o022)
    for entry in entries:
        path = below(asked.destdir, entry.place)
        folders += [
            f"{relative(it, asked.destdir)}/" for it in make_folders(os.path.dirname(path)) if it != asked.destdir
        ]
        put(path, entry)
    os.umask(old)
    listed = [entry.place for entry in entries]
    for place in set(earlier) - set(listed) - set(folders):
        with contextlib.suppress(FileNotFoundError):
            os.unlink(below(asked.destdir, place))
    with open(below(asked.destdir, lists_of(asked)[0]), "w", encoding="utf-8") as file:
        file.writelines(f"{line}\n" for line in [*listed, *sorted(folders)])


def lists_of(asked):
    """The list that a command writes or takes away, and those that it takes over: all that is installed includes the
    library."""
    names = (OF_LIBRARY,) if asked.what.endswith("-lib") else (OF_ALL, OF_LIBRARY)
    return [os.path.join(places_of(asked).lib, name) for name in names]


def listed_in(asked):
    """What the lists of the installation that is there name; nothing, if there is none."""
    listed = []
    for place in lists_of(asked):
        with contextlib.suppress(FileNotFoundError), open(below(asked.destdir, place), encoding="utf-8") as lines:
            listed += [line.rstrip("\n") for line in lines]
    return listed


def relative(path, destdir):
    """The place of a path below DESTDIR."""
    return f"/{os.path.relpath(path, destdir)}" if destdir else path


def uninstall(asked):
    """Takes away what the list of an installation names: files, and folders that it made and that are empty now."""
    listed = listed_in(asked)
    if not listed:
        raise FileNotFoundError(errno.ENOENT, "there is no installation", below(asked.destdir, lists_of(asked)[0]))
    for place in listed:
        if not place.endswith("/"):
            with contextlib.suppress(FileNotFoundError):
                os.unlink(below(asked.destdir, place))
    # What is in a folder has a longer name.
    for place in sorted({it for it in listed if it.endswith("/")}, key=len, reverse=True):
        path = below(asked.destdir, place)
        with contextlib.suppress(FileNotFoundError):
            if not os.listdir(path):
                os.rmdir(path)


def build_scan(_):
    """Builds the recorder's loop of system calls for the tools of the sources."""
    entry = contents.Entry("", contents.scan_library())
    os.makedirs(os.path.join(TOP, "out"), exist_ok=True)
    put(os.path.join(TOP, "out", "scan.so"), entry)


def pack(asked):
    os.makedirs(asked.output, exist_ok=True)
    for path in PACKED[asked.what](asked):
        print(path)


PACKED = {
    "deb": lambda asked: debian.build_all(asked.output, asked.maintainer),
    "dist": lambda asked: archive.build(asked.output),
    "release": lambda asked: release.build(asked.output, asked.maintainer),
}
WORK = {"lib": library.make, "notices": notices.make, "scan": build_scan, "install": install, "install-lib": install}
WORK |= {"uninstall": uninstall, "uninstall-lib": uninstall}


def options_of(words):
    parser = parser_of("make", __doc__)
    add = parser.add_argument
    add("what", metavar="WHAT", choices=(*WORK, *PACKED), help="what to do")
    add("--prefix", metavar="DIR", default="/usr/local", help="the folder to install below (/usr/local)")
    add("--destdir", metavar="DIR", default="", help="stands in front of each path")
    for name in contents.Places._fields:
        add(f"--{name}dir", metavar="DIR", help=argparse.SUPPRESS)
    add("--output", metavar="DIR", default=os.path.join(TOP, "out"), help="where packages go (out)")
    add("--python", metavar="PATH", default="python3", help="the interpreter that installed tools run (python3)")
    add("--maintainer", metavar="WHO", help="who answers for a package: a name and <an address> (as in debian/control)")
    return parser.parse_args(words)


def main(words):
    asked = options_of(words)
    try:
        WORK.get(asked.what, pack)(asked)
    except (
        contents.NotBuilt,
        compilers.Lacks,
        documents.Differs,
        notices.Lacks,
        options.Unread,
        release.NotClean,
    ) as fault:
        print(f"make: {fault}", file=sys.stderr)
        return 1
    except OSError as fault:
        print(f"make: {fault.filename}: {fault.strerror}", file=sys.stderr)
        return 1
    return 0


if __name__ == "__main__":
    sys.exit(main(sys.argv[1:]))
