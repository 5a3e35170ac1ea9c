"""Times what the library answers over a trace that stays open, beside passes over all of its bytes.

    bench/library [-n RUNS] [--traces DIR] [--library PATH]

The trace `full` has 2^20 writes in 263 MB. Its plan is made with the settings of `precopy`, and its prediction with a
link of 125 MB a second and a downtime of 300 ms. A stream over `uniform` has the frames of all pages after a third of
the writes, and of those that changed since after two thirds and all. It is checked at once, in pieces of 64 KiB, and
page by page without stamps. A page with 2^20 writes comes once for each 100 of them. Figures are the least processor
time of RUNS, 5 by default, with the calls of Python, which are few but for pages one by one. If there is a C compiler,
the stream is checked by bench/pieces.c too.
"""

import os
import shutil
import struct
import subprocess
import sys
import tempfile
import time
from typing import Callable, Iterator, List, Tuple

from precopy_bench.measuring import Others
from precopy_bench.programs import TRACES, at_least_1, made
from precopy_dev.files import read_bytes, write_file
from precopy_dev.tree import TOP
from precopy_dev.words import parser_of

PIECE = 1 << 16
HOT_WRITES, HOT_STEP = 1 << 20, 100
# The link and the downtime of a question, in bytes a second and microseconds.
LINK, DOWNTIME = 125_000_000, 300_000
ROUNDS = 3
RECORD = struct.Struct("<QIHHB")


def asked_for():
    parser, library = parser_of("bench/library", __doc__), os.path.join(TOP, "out", "library", "libprecopy.so")
    add = parser.add_argument
    add("-n", type=at_least_1, default=5, metavar="RUNS", help="measured runs of each call, 5 by default")
    add("--traces", default=TRACES, metavar="DIR", help=f"where traces are, {TRACES} by default")
    add("--library", default=library, metavar="PATH", help="libprecopy.so, as it is built by default")
    return parser.parse_args()


def loaded(path: str):
    """The Python package over this library."""
    os.environ["PRECOPY_LIBRARY"] = os.path.realpath(path)
    sys.path.append(os.path.join(TOP, "bindings", "python"))
    import precopy

    return precopy


def hot_trace() -> bytes:
    """A guest of one page, all of whose writes are to it."""
    head = b"PCWT" + bytes([1, 12, 0, 0]) + struct.pack("<II", 1, HOT_WRITES)
    return head + b"".join(RECORD.pack(i, 0, i * 7 % 4096, 1, i % 255 + 1) for i in range(HOT_WRITES))


def sent_of(opened, stops: List[int]) -> Iterator[Tuple[int, int]]:
    """Page and stamp of what is sent: all pages after the first stop, and after each other those that changed."""
    before = [-1] * opened.pages
    for stop in stops:
        now = opened.versions_after(stop)
        yield from ((page, now[page]) for page in range(opened.pages) if now[page] != before[page])
        before = now


class Table:
    """Rows of what was timed, printed as they come."""

    def __init__(self, runs: int):
        self.runs = runs
        print("| What | Takes |\n|---|---|")

    def least(self, call: Callable[[], object]) -> float:
        """The least processor time of some runs, in seconds."""
        times = []
        for _ in range(self.runs):
            began = time.process_time()
            call()
            times.append(time.process_time() - began)
        return min(times)

    def row(self, name: str, call: Callable[[], object], size: int = 0) -> float:
        """One row: milliseconds, and of so many bytes how many go through a second."""
        took = self.least(call)
        rate = f", {size / took / 1e6:,.0f} MB a second" if size else ""
        print(f"| {name} | {1000 * took:,.1f} ms{rate} |", flush=True)
        return took


def time_trace(precopy, table: Table, text: bytes) -> None:
    """What calls over the largest trace take."""
    whole = table.row("`precopy_memory`, from the bytes", lambda: precopy.memory(text), len(text))
    opening = table.row("`precopy_trace_open`", lambda: precopy.OpenTrace(text), len(text))
    opened = precopy.OpenTrace(text)
    last = opened.versions_after(opened.writes)
    table.row("`precopy_trace_versions_after`, all pages", lambda: opened.versions_after(opened.writes))
    pages = [(page, last[page]) for page in range(opened.pages)]
    each = table.least(lambda: [opened.page_at(*it) for it in pages])
    print(f"| `precopy_trace_page_at`, a page at its last version | {1e6 * each / len(pages):.1f} us |")
    memory = opened.memory_before(1 << 40)
    table.row("`precopy_trace_memory_before`, after all writes", lambda: opened.memory_before(1 << 40))
    table.row("`precopy_trace_differs`, of equal memory", lambda: opened.difference(opened.writes, memory))
    print(f"| opening, of the time of `precopy_memory` | {opening / whole:.2f} |")
    settings = precopy.Settings()
    table.row("`precopy_plan`, from the bytes", lambda: precopy.plan(text, settings))
    table.row("`precopy_trace_plan`", lambda: opened.plan(settings))
    question = precopy.Question(link=LINK, downtime=DOWNTIME, page=1 << opened.shift)
    table.row("`precopy_trace_predict`", lambda: opened.predict(question))


def in_pieces(opened, stream: bytes) -> None:
    """Checks a stream in pieces, and the pages at its end."""
    check = opened.check(opened.writes)
    view = memoryview(stream)
    for at in range(0, len(stream), PIECE):
        check.take(0, view[at : at + PIECE])
    assert check.end_stream(0) is None and check.finish() is None


def time_in_c(table: Table, library: str, text: bytes, stream: bytes) -> None:
    """What checks of one stream take from C, where a piece needs no copy."""
    if not shutil.which("cc"):
        print("bench/library: there is no C compiler for bench/pieces.c", file=sys.stderr)
        return
    path = os.path.realpath(library)
    with tempfile.TemporaryDirectory() as folder:
        program, *files = [os.path.join(folder, name) for name in ("pieces", "trace", "stream")]
        for name, data in zip(files, (text, stream)):
            write_file(data, name)
        source, header = os.path.join(TOP, "bench", "pieces.c"), os.path.join(TOP, "include")
        words = ["cc", "-O2", "-I", header, "-o", program, source, path, f"-Wl,-rpath,{os.path.dirname(path)}"]
        subprocess.run(words, check=True)
        told = subprocess.run([program, *files, str(table.runs)], check=True, capture_output=True, text=True).stdout
    at_once, opening, pieces, large = (float(word) for word in told.split())
    rows = [
        ("all at once", at_once),
        ("in pieces of 64 KiB, without opening", pieces),
        ("the same with memory of large pages", large),
    ]
    for name, took in rows:
        print(f"| from C: {name} | {took:,.1f} ms, {len(stream) / took / 1e3:,.0f} MB a second |")
    ratios = [at_once / took for took in (pieces, opening + pieces, large, opening + large)]
    told = "{:.2f}, and {:.2f} with opening; with large pages {:.2f} and {:.2f}".format(*ratios)
    print(f"| from C: pieces, of the speed at once | {told} |")


def time_streams(precopy, table: Table, text: bytes, library: str) -> None:
    """What checks of one stream take."""
    opened = precopy.OpenTrace(text)
    sizes = precopy.Sizes(opened.shift, opened.pages, opened.writes)
    stops = [opened.writes * (number + 1) // ROUNDS for number in range(ROUNDS)]
    sent = [(page, stamp, opened.page_at(page, stamp)) for page, stamp in sent_of(opened, stops)]
    stream = b"".join(precopy.encode_frame(sizes, *frame) for frame in sent)
    length, moved = len(stream), len(sent) << opened.shift

    def whole() -> None:
        assert precopy.check_streams(text, opened.writes, [stream]) is None

    def without_stamps() -> None:
        check = opened.check(opened.writes)
        for page, _, content in sent:
            assert check.take_page(page, content) is None
        assert check.finish() is None

    print(f"| a stream over `uniform` has | {len(sent):,} frames, {length / 1e6:,.0f} MB |")
    at_once = table.row("`precopy_check_streams`, all at once", whole, length)
    by_pieces = table.row(
        "`precopy_trace_check_piece`, in pieces of 64 KiB, with opening",
        lambda: in_pieces(precopy.OpenTrace(text), stream),
        length,
    )
    table.row("the same without opening", lambda: in_pieces(opened, stream), length)
    table.row("`precopy_trace_check_bytes`, page by page, from Python", without_stamps, moved)
    print(f"| pieces, of the speed at once | {at_once / by_pieces:.2f} |")
    time_in_c(table, library, text, stream)


def time_hot_page(precopy, table: Table) -> None:
    """What checks of one page with many versions take."""
    text = hot_trace()
    opened = precopy.OpenTrace(text)
    sizes = precopy.Sizes(opened.shift, 1, HOT_WRITES)
    stamps = [*range(HOT_STEP, HOT_WRITES, HOT_STEP), HOT_WRITES]
    contents = [opened.page_at(0, stamp) for stamp in stamps]
    stream = b"".join(precopy.encode_frame(sizes, 0, *it) for it in zip(stamps, contents))

    def without_stamps() -> None:
        check = opened.check(HOT_WRITES)
        for content in contents:
            assert check.take_page(0, content) is None
        assert check.finish() is None

    table.row(f"a page with `2^20` writes, {len(stamps):,} frames", lambda: in_pieces(opened, stream), len(stream))
    table.row("the same without stamps", without_stamps, len(contents) << opened.shift)


def main() -> int:
    asked, others = asked_for(), Others()
    precopy = loaded(asked.library)
    traces = made(["full", "uniform"], asked.traces)
    table = Table(asked.n)
    time_trace(precopy, table, read_bytes(traces["full"].path))
    time_streams(precopy, table, read_bytes(traces["uniform"].path), asked.library)
    time_hot_page(precopy, table)
    busy = others.average()
    if busy is not None:
        print(f"\nOther work: {busy:.1f} processors on average.")
    return 0


if __name__ == "__main__":
    sys.exit(main())
