"""Cases of checks/recording: the recorder's loop of system calls in machine code, and without it."""

import errno
import os
import shutil
import subprocess
import sys

from checks.lib import harness
from checks.lib.harness import cases_of, expect
from checks.lib.tally import need
from checks.recording.recorder_runs import SECONDS, TOP
from checks.recording.sample_cases import exact, mapped_anew
from checks.recording.sample_runs import PAGE, PAGES, Pages
from precopy_dev.files import write_file
from precopy_dev.packaging import contents
from precopy_tools.record import scans
from precopy_tools.record.pagemap import WrittenPages

SEEDS = 20


def tools_with(folder, library):
    """A copy of the tools with a library beside them, as they are installed; the path of its recorder."""
    memory = os.path.join(folder, "memory")
    for part in ("tools", "python"):
        shutil.copytree(os.path.join(TOP, part), os.path.join(memory, part))
    write_file(library, memory, "scan.so")
    return os.path.join(memory, "tools", "record")


def built():
    """The library. Without a C compiler the case is left out."""
    need("cc")
    return contents.scan_library()


def is_used(tool):
    words = [sys.executable, "-Bc", "from precopy_tools.record import scans; print(scans.LIBRARY is not None)"]
    environment = {**os.environ, "PYTHONPATH": os.path.join(os.path.dirname(os.path.dirname(tool)), "python")}
    told = subprocess.run(words, env=environment, capture_output=True, timeout=4 * SECONDS).stdout
    return told == b"True\n"


def looks_in_machine_code(_, folder):
    """With the library no write is missed and none is false, also of memory that is mapped anew."""
    library = built()
    tool = tools_with(folder, library)
    expect(is_used(tool), "the library is not used")
    for kind, pages, wanted in (("private", PAGES, 16_384), ("shared", PAGES, 16_384), ("huge", 1 << 14, 200)):
        exact(folder, kind, pages, wanted, tool=tool)
    for name in ("guest.light.pcwt", "guest.light.json", "map"):
        os.unlink(os.path.join(folder, name))
    moved = f"{folder}.tools"
    shutil.move(os.path.join(folder, "memory"), moved)
    try:
        mapped_anew(None, folder, os.path.join(moved, "tools", "record"))
    finally:
        shutil.rmtree(moved)


def looks_with_a_bad_library(_, folder):
    """A library that is for another machine, or damaged, is left alone."""
    draws, library = harness.draws("libraries"), built()
    bad = [b"", draws.randbytes(4000), library[:200], library[:18] + b"\xb7" + library[19:]]
    for number, each in enumerate(bad):
        tool = tools_with(os.path.join(folder, str(number)), each)
        expect(not is_used(tool), f"library {number} is used")
    first = os.path.join(folder, "0")
    exact(first, "private", PAGES, 16_384, tool=os.path.join(first, "memory", "tools", "record"))


def same_by_both(_, folder):
    """Looks with the library and without it tell the pages that were written, also after a look that failed."""
    library = built()
    path = write_file(library, folder, "scan.so")
    before, scans.PATHS = scans.PATHS, (path,)
    call, scans.PATHS = scans.library(), before
    expect(call is not None, "the library cannot be loaded")
    for draws in harness.drawn("looks", range(SEEDS)):
        with Pages(draws.choice(("private", "shared"))) as pages:
            drawn = sorted(draws.sample(range(PAGES), draws.randrange(2, 400)))
            places = [pages.address + page * PAGE for page in drawn]
            watched = WrittenPages(pages.process.pid, [(pages.address, pages.address + PAGES * PAGE)], places)
            try:
                for way in draws.sample((call, None, call, None), 4):
                    expect_told(way, watched, pages, drawn, draws)
            finally:
                watched.close()


def looks_of(library, watched, places, groups):
    """Looks by the library or by calls, at some places in some groups."""
    scans.LIBRARY, before = library, scans.LIBRARY
    try:
        return (scans.CallsLook if library is None else scans.LibraryLook)(places, groups).look(watched.pagemap)
    finally:
        scans.LIBRARY = before


def expect_told(library, watched, pages, drawn, draws):
    """A look tells what was written, and the next one nothing. One that fails at a page that is none loses nothing."""
    reach = draws.choice((0, 2, 9, 1 << 40)) * PAGE
    groups = list(scans.groups_of(watched.ranges, watched.places, reach))
    expect(groups[-1][1] == len(drawn) and all(high - low <= scans.PART for low, high in groups), f"{groups}")
    for fails in (False, True):
        written = set(draws.sample(range(PAGES), draws.randrange(PAGES)))
        pages.write(written)
        wanted, told = [number for number, page in enumerate(drawn) if page in written], []
        if fails:
            at = draws.randrange(len(drawn))
            bad = watched.places[:at] + [watched.places[at] + 1] + watched.places[at + 1 :]
            alone = [(number, number + 1) for number in range(len(drawn))]
            told, fault = looks_of(library, watched, bad, alone)
            expect(fault == errno.EINVAL, f"fault {fault}")
        more, fault = looks_of(library, watched, watched.places, groups)
        expect(not fault and sorted(told + more) == wanted, f"{len(told)} and {len(more)} told of {len(wanted)}")
        expect(looks_of(library, watched, watched.places, groups) == ([], 0), "a write is told twice")


NEED_WRITES = {looks_in_machine_code, looks_with_a_bad_library, same_by_both}
CASES = cases_of(__name__)
