"""Makes traces from text, text from traces, and releases in traces: by tools/import, tools/export and tools/release.

    checks/run importing [--only CASE] [PRECOPY]

tools/export and tools/release must refuse each damaged trace by the name that the program gives it. What the lackey of
valgrind reports about a process is imported too, if valgrind can be had.
"""

import contextlib
import glob
import os
import stat
import subprocess
from unittest import mock

from checks.lib import harness
from checks.lib.harness import cases_of, expect, run_cases, run_main
from checks.lib.tally import need
from checks.lib.traces import Trace, header, record
from checks.lib.worked import damaged
from precopy_dev.files import read_bytes, write_file
from precopy_dev.tree import TOP
from precopy_tools.formats import traces

IMPORT, EXPORT, RELEASE = (os.path.join(TOP, "tools", name) for name in ("import", "export", "release"))
SECONDS = 600

A_TEXT = """\
pages 4 size 16
0 0 0 01
5 1 15 02
1200 1 0 03
2500 3 2 0405
2500 1 0 00
"""

C_TEXT = A_TEXT.replace("size 16", "size 16 version 2").replace("2500 1 0 00", "2500 1 release")

LACKEY = """\
==7== Lackey, an example Valgrind tool
I  04001000,3
 S 1ffeffffe8,8
I  04001003,5
 L 1ffeffffe8,8
I  04001008,4
 M 04222ffe,4

I  0400100c,2
 S 1ffeffff00,16
"""
# Tick, page, offset and length of its stores, if a tick is two instructions: the modify crosses the end of a page.
LACKEY_STORES = [(0, 0, 0xFE8, 8), (1, 1, 0xFFE, 2), (1, 2, 0, 2), (2, 0, 0xF00, 16)]


def run(command, text=b"", **how):
    return harness.run(command, text, SECONDS, **how)


def records_of(trace):
    return Trace(trace).records


# ---- The cases. Each has an empty folder, and raises if something is wrong.


def round_trips(_, folder):
    paths = sorted(glob.glob(os.path.join(TOP, "examples", "**", "*.pcwt"), recursive=True))
    expect(len(paths) >= 6, f"{len(paths)} examples")
    for path in paths:
        text, again = os.path.join(folder, "text"), os.path.join(folder, "again")
        for command in ([EXPORT, path, text], [IMPORT, text, again]):
            done = run(command)
            expect(done.status == 0 and not done.output + done.faults, f"{command}: {done}")
        with open(path, "rb") as one, open(again, "rb") as other:
            expect(one.read() == other.read(), f"{path} is another trace after export and import")
        trace = read_bytes(path)
        through = run(["sh", "-c", '"$0" - - | "$1" - -', EXPORT, IMPORT], trace)
        expect(through.output == trace, f"{path} is another trace after a pipe: {through.faults!r}")


def what_is_no_file(_, folder):
    """What is there and is no file gets what is written to it, and stays what it is; a link leads where it did."""
    trace, wanted = os.path.join(TOP, "examples", "a.pcwt"), A_TEXT.encode()
    pipe, link, output, null = (os.path.join(folder, name) for name in ("pipe", "link", "output", "null"))
    os.mkfifo(pipe)
    with open(os.open(pipe, os.O_RDONLY | os.O_NONBLOCK), "rb", buffering=0) as reader:
        done = run([EXPORT, trace, pipe])
        expect(done.status == 0 and stat.S_ISFIFO(os.stat(pipe).st_mode), f"{done}, {os.stat(pipe)}")
        expect(reader.read(1 << 16) == wanted, "another text comes through a pipe")
    target = write_file("before", folder, "target")
    os.symlink(target, link)
    done = run([EXPORT, trace, link])
    expect(done.status == 0 and os.path.islink(link) and read_bytes(target) == wanted, f"{done}")
    os.symlink("/proc/self/fd/1", output)
    expect(run([EXPORT, trace, output]).output == wanted and os.path.islink(output), "another output")
    with open(target, "wb") as file:
        done = run([EXPORT, trace, output], stdout=file)
    expect(done.status == 0 and os.path.islink(output) and read_bytes(target) == wanted, f"{done}")
    if os.geteuid() == 0:
        os.mknod(null, 0o666 | stat.S_IFCHR, os.makedev(1, 3))
        done = run([EXPORT, trace, null])
        expect(done.status == 0 and stat.S_ISCHR(os.stat(null).st_mode), f"{done}, {os.stat(null)}")
    expect(not [name for name in os.listdir(folder) if name.endswith(".part")], f"{os.listdir(folder)}")


def what_is_no_name(_, folder):
    """An empty name, as of a variable that is not set, and one of a folder that is not there are refused before
    anything is written, also by a recorder that would go on for a day."""
    trace, record = os.path.join(TOP, "examples", "a.pcwt"), os.path.join(TOP, "tools", "record")
    for name, told in ("", "[Errno 2] No such file or directory: ''"), ("none/", "none/: Is a directory"):
        for command in ([EXPORT, trace, name], [record, "--file", trace, "--for", "24h", name]):
            done = run(command, cwd=folder)
            fault = f"{os.path.basename(command[0])}: {told}\n"
            expect((done.status, done.faults) == (1, fault.encode()) and not os.listdir(folder), f"{command}: {done}")


def known_text(_, folder):
    for name, text in (("a", A_TEXT), ("c", C_TEXT)):
        done = run([EXPORT, os.path.join(TOP, "examples", f"{name}.pcwt"), "-"])
        expect(done.output.decode() == text, done)


def versions(_, folder):
    """The version that a text says, and the one that it has by its lines. A release has 16 bytes."""
    plain, release = b"0 2 0 ff\n", b"7 2 release\n"
    written, released = record(0, 2, 0, b"\xff"), record(7, 2, 0, b"")
    for text, trace in (
        (plain, header(3, 1) + written),
        (release, header(3, 1, version=2) + released),
        (plain + release, header(3, 2, version=2) + written + released),
        (b"pages 5 size 32 version 1\n" + plain, header(5, 1, 5) + written),
        (b"pages 5 size 32 version 2\n" + plain, header(5, 1, 5, version=2) + written),
        (b"pages 5 size 32\n" + plain + release, header(5, 2, 5, version=2) + written + released),
        (b"pages 5 size 32 version 2\n", header(5, 0, 5, version=2)),
    ):
        done = run([IMPORT, "-", "-"], text)
        expect(done.status == 0 and done.output == trace, f"{text!r} gives {done}")
    first = run([IMPORT, "--first", "1", "-", "-"], plain + release)
    expect(first.output == header(3, 1) + written, first)


def releases(_, folder):
    """tools/release: a page that is not written for a number of ticks, and no other, and no page twice."""
    text = b"0 0 0 01\n5 1 0 02\n10 0 0 03\n21 2 0 04\n25 2 0 05\n40 1 0 06\n"
    trace = run([IMPORT, "-", "-"], text).output
    wanted = text.replace(b"21 2", b"15 1 release\n20 0 release\n21 2").replace(b"40 1", b"35 2 release\n40 1")
    for made, due in ((trace, wanted), (run([IMPORT, "-", "-"], wanted).output, wanted)):
        done = run([RELEASE, "--after", "10", "-", "-"], made)
        expect(done.status == 0 and done.output == run([IMPORT, "-", "-"], due).output, done)
    done = run([RELEASE, "--after", "100", "-", "-"], trace)
    expect(done.status == 0 and done.output == trace, done)
    gzip, released = (os.path.join(TOP, "examples", f"{name}.pcwt") for name in ("gzip", "released"))
    done = run([RELEASE, "--after", "100", gzip, "-"])
    expect(
        done.output == read_bytes(released),
        "examples/released.pcwt is not made of gzip.pcwt as examples/README.md says",
    )


def derived_shape(_, folder):
    """Pages and their size without a line and options, with a line, and with options."""
    for words, text, pages, shift in (
        ([], "0 2 0 ff\n", 3, 4),
        ([], "0 2 16 ff\n", 3, 5),
        ([], "0 0 4000 " + "ab" * 96 + "\n", 1, 12),
        ([], "", 1, 4),
        ([], "# a remark\n\n  \npages 7 size 64\n0 2 0 ff\n", 7, 6),
        (["--pages", "9", "--size", "4096"], "0 2 0 ff\n", 9, 12),
        (["--pages", "9"], "pages 7 size 64\n0 2 0 ff\n", 9, 6),
        (["--first", "1"], "0 2 0 ff\n0 5 0 ff\n", 3, 4),
    ):
        done = run([IMPORT, *words, "-", "-"], text.encode())
        wanted = [] if not text else [(0, int(text.split("\n")[-2 - ("--first" in words)].split()[1]))]
        expect(done.status == 0, done)
        expect(done.output[:12] == header(pages, 0, shift)[:12], f"{text!r} gives {done.output[:16]!r}")
        expect([write[:2] for write in records_of(done.output)] == wanted, f"{text!r} gives {done.output!r}")
    done = run([IMPORT, "--first", "9" * 20, "-", "-"], b"0 2 0 ff\n")
    expect(done.status == 0 and len(records_of(done.output)) == 1, f"more writes than there are: {done}")


BAD_LINES = [
    ("0 0 0\n", 1, "hexbytes"),
    ("0 0 0 0\n", 1, "hexbytes"),
    ("0 0 0 0g\n", 1, "hexbytes"),
    ("0 0 0 00 00\n", 1, "hexbytes"),
    ("0  0 0 00\n", 1, "hexbytes"),
    ("-1 0 0 00\n", 1, "hexbytes"),
    ("0 0 0 \n", 1, "hexbytes"),
    ("0 0 0 00\t00\n", 1, "hexbytes"),
    ("0 0 0 \u00b2\u00b2\n", 1, "hexbytes"),
    ("\u0662 0 0 00\n", 1, "hexbytes"),
    ("0 0 0 00\npages 4 size 16\n", 2, "hexbytes"),
    ("0 0 0 00\n\n# so far\n1.5 0 0 00\n", 4, "hexbytes"),
    ("5 0 0 00\n4 0 0 00\n", 2, "below 5"),
    (f"0 0 0 00\n{1 << 40} 0 0 00\n", 2, "2^40"),
    ("0 65536 0 00\n", 1, "page 65536"),
    ("pages 2 size 16\n0 1 0 00\n0 2 0 00\n", 3, "page 2"),
    ("pages 2 size 16\n0 1 15 0000\n", 2, "byte 17"),
    ("0 0 4095 0000\n", 1, "byte 4097"),
    ("pages 0 size 16\n", 1, "pages"),
    ("pages 65537 size 16\n", 1, "pages"),
    ("pages 1 size 24\n", 1, "power of two"),
    ("pages 1 size 8192\n", 1, "power of two"),
    ("pages 1 size 16\npages 1 size 16\n", 2, "hexbytes"),
    ("pages 1 size 16 version 3\n", 1, "hexbytes"),
    ("pages 1 size 16 version\n", 1, "hexbytes"),
    ("pages 1 size 16 version 1\n0 0 release\n", 2, "version 1"),
    ("0 0 0 release\n", 1, "hexbytes"),
    ("0 release\n", 1, "hexbytes"),
    ("0 x release\n", 1, "hexbytes"),
    ("0 0 releases\n", 1, "hexbytes"),
    ("5 0 0 00\n4 0 release\n", 2, "below 5"),
    ("pages 2 size 16\n0 2 release\n", 2, "page 2"),
]


def bad_lines(_, folder):
    for text, number, word in BAD_LINES:
        expect_refused(folder, [IMPORT, "-"], text.encode(), f"import: line {number}: ", word)


def expect_refused(folder, command, text, begin, word="", status=1):
    """The command, followed by the name of a trace, is refused and leaves that file as it was."""
    for before in (None, b"as it was"):
        path = os.path.join(folder, "out")
        if before is not None:
            write_file(before, path)
        done = run([*command, path], text)
        faults = done.faults.decode()
        expect(done.status == status and not done.output, f"{text[:80]!r}: {done}")
        expect(faults.startswith(begin) and word in faults, f"{text[:80]!r}: {faults!r}")
        expect(os.listdir(folder) == (["out"] if before else []), f"{text[:80]!r} leaves {os.listdir(folder)}")
        if before:
            expect(read_bytes(path) == before, "the file that was there is another one")
            os.unlink(path)


def limits(_, folder):
    """As many writes as a trace has pass, and one more is refused by its line; so with bytes."""
    most = 1 << 20
    done = run([IMPORT, "-", "-"], b"0 0 0 01\n" * most)
    expect(done.status == 0 and len(done.output) == 16 + 17 * most, done.faults)
    more = run([IMPORT, "-", os.path.join(folder, "out")], b"0 0 0 01\n" * (most + 1))
    expect(more.status == 1 and b"writes" in more.faults, more)
    expect(more.faults.startswith(b"import: line %d: " % (most + 1)), more.faults)
    fits = ((1 << 28) - 16) // (16 + 4096)
    line = b"0 0 0 " + b"ab" * 4096 + b"\n"
    done = subprocess.Popen([IMPORT, "-", os.path.join(folder, "out")], stdin=subprocess.PIPE, stderr=subprocess.PIPE)
    try:
        for _ in range(fits + 1):
            done.stdin.write(line)
        done.stdin.close()
    except BrokenPipeError:
        pass
    faults = done.stderr.read().decode()
    expect(done.wait(SECONDS) == 1 and faults.startswith(f"import: line {fits + 1}: "), faults)
    expect(not os.listdir(folder), f"left: {os.listdir(folder)}")


def damaged_traces(program, folder):
    """Each damaged trace is refused by the program, and by the tools in its words."""
    longest = bytes((1 << 28) + 1), "E15"
    for trace, name in [*damaged(), longest]:
        told = run([program, "image"], trace)
        expect(told.status == 1 and told.faults == f"precopy: trace {name}\n".encode(), told)
        expect_refused(folder, [EXPORT, "-"], trace, f"export: trace {name}")
        expect_refused(folder, [RELEASE, "--after", "10", "-"], trace, f"release: trace {name}")


def whole_on_the_disk(_, folder):
    """A file is on the disk before it has its name, and then its name is. One that does not get there has no name."""
    path, seen, own = os.path.join(folder, "out"), [], os.rename
    synced = mock.patch("os.fsync", lambda each: seen.append(os.readlink(f"/proc/self/fd/{each}")))
    named = mock.patch("os.rename", lambda *names: seen.append(names[1]) or own(*names))
    with synced, named, traces.Pending(path) as file:
        file.write(b"all")
        file.finish()
    expect(seen == [file.hidden, path, folder], f"{seen}")
    with contextlib.suppress(OSError), mock.patch("os.fsync", side_effect=OSError), traces.Pending(path) as file:
        file.finish()
    expect(os.listdir(folder) == ["out"] and read_bytes(path) == b"all", f"{os.listdir(folder)}")


def streams_that_are_gone(_, folder):
    """A standard stream that is closed, or that nobody reads any more, is a fault that is told by one line; and what
    release tells does not get into a trace."""
    trace, to = os.path.join(folder, "trace"), os.path.join(folder, "to")
    expect(run([IMPORT, "-", trace], A_TEXT.encode()).status == 0, "no trace")
    for closing, words in (
        ("<&-", (IMPORT, "-", to)),
        ("<&-", (EXPORT, "-", to)),
        ("<&-", (RELEASE, "--after", "5", "-", to)),
        (">&-", (EXPORT, trace, "-")),
        (">&-", (RELEASE, "--after", "5", trace, "-")),
    ):
        done = run(["sh", "-c", f'exec "$@" {closing}', "sh", *words])
        told = f"{os.path.basename(words[0])}: -: Bad file descriptor\n"
        expect(
            (done.status, done.faults, os.path.exists(to)) == (1, told.encode(), False), f"{closing} {words}: {done}"
        )
    for words in (IMPORT, "-", to), (EXPORT, trace, to), (RELEASE, "--after", "5", trace, to):
        with harness.closed_pipe() as nowhere:
            done = run([*words, "--json"], A_TEXT.encode(), stdout=nowhere)
        told = f"{os.path.basename(words[0])}: [Errno 32] Broken pipe\n"
        expect((done.status, done.faults) == (1, told.encode()), f"{words}: {done}")
    words = [RELEASE, "--after", "5", trace, "-"]
    expect(run(["sh", "-c", 'exec "$@" 2>&-', "sh", *words]).output == run(words).output, "another trace")


def bad_words(_, folder):
    for command in (
        [IMPORT, "--pages", "0", "-"],
        [IMPORT, "--size", "17", "-"],
        [IMPORT, "--lackey", "--size", "16", "-"],
        [IMPORT, "--instructions", "4", "-"],
        [IMPORT, "--lackey", "--instructions", "0", "-"],
        [IMPORT, "--first", "0", "-"],
        [EXPORT],
        [RELEASE, "--after", "0", "-"],
        [RELEASE, "-"],
    ):
        expect_refused(folder, command, b"", "usage: ", "error: ", 2)
    expect_refused(folder, [IMPORT, os.path.join(folder, "none")], b"", "import: ", "No such file")
    expect_refused(folder, [EXPORT, os.path.join(folder, "none")], b"", "export: ", "No such file")
    expect_refused(folder, [RELEASE, "--after=1", os.path.join(folder, "none")], b"", "release: ", "No such file")


def lackey(program, folder):
    done = run([IMPORT, "--lackey", "--instructions", "2", "-", "-"], LACKEY.encode())
    expect(done.status == 0 and done.output[:16] == header(3, 4, 12), done)
    found = records_of(done.output)
    expect([(*write[:3], len(write[3])) for write in found] == LACKEY_STORES, found)
    expect(all(any(write[3]) for write in found), "a store's data are zero")
    expect(len({write[3][:2] for write in found}) == len(found), "stores have the same data")
    first = run([IMPORT, "--lackey", "--instructions", "2", "--first", "2", "-", "-"], LACKEY.encode())
    expect(records_of(first.output) == found[:2] and first.output[:16] == header(2, 2, 12), first)
    image = run([program, "image"], done.output)
    expect(image.status == 0 and len(image.output) == 3 * 4096, image.faults)


def bad_lackey(_, folder):
    begin = f"import: line {LACKEY.count(chr(10)) + 1}: "
    bad = [" S 1ffeffffe8", " S xyz,8", " X 10,8", "I 10,3", "10,3", " S 10,0", " S ffffffffffffffff,2", "0 0 0 01"]
    for line in bad:
        expect_refused(folder, [IMPORT, "--lackey", "-"], (LACKEY + line + "\n" + LACKEY).encode(), begin)


def real_lackey(program, folder):
    need("valgrind")
    log, trace = os.path.join(folder, "log"), os.path.join(folder, "true.pcwt")
    run(["valgrind", "--tool=lackey", "--trace-mem=yes", f"--log-file={log}", "true"])
    done = run([IMPORT, "--lackey", log, trace])
    expect(done.status == 0, done.faults)
    with open(log, "rb") as lines:
        stores = sum(line[:3] in (b" S ", b" M ") for line in lines)
    text = read_bytes(trace)
    writes = len(records_of(text))
    expect(1000 < stores <= writes <= stores + stores // 10, f"{writes} writes of {stores} stores")
    for words in (["image"], ["report"]):
        done = run([program, *words], text)
        expect(done.status == 0, done.faults)


CASES = cases_of(__name__)


def check(tally, given):
    run_cases(tally, CASES, given.precopy, only=given.only)


if __name__ == "__main__":
    run_main(check, __doc__, "precopy")
