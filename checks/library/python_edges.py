"""Trials of the edges of the Python module: overlaps, memory that runs out, checks of streams that come, arrays."""

import concurrent.futures
import enum
import mmap
import os
import random
import re
import subprocess
import sys
import tempfile
import tracemalloc

import precopy
from checks.lib import stream_rows
from checks.lib import traces as all_traces
from checks.lib.harness import drawn
from checks.lib.library_runs import LIBRARY
from checks.lib.stream_rows import NEW, RIGHT, STOP, frame
from checks.lib.tally import LeftOut, is_installed, tools
from checks.lib.traces import header
from checks.library import traces
from precopy_dev.files import read_bytes
from precopy_dev.tree import TOP, read

SECONDS = 300
SYSTEM = "/usr/bin/python3"


def outcome(call, *words):
    """The name of the error that a call raises, or what it returns."""
    try:
        return call(*words)
    except Exception as fault:  # noqa: BLE001
        return type(fault).__name__


def script(python, text, *words):
    """What a program in Python prints, with this module on its path."""
    paths = os.pathsep.join([TOP, *(os.path.join(TOP, it) for it in ("python", "bindings/python"))])
    environment = {**os.environ, "PYTHONPATH": paths, "PRECOPY_LIBRARY": os.path.join(LIBRARY, "libprecopy.so.6")}
    how = {"stdin": subprocess.DEVNULL, "capture_output": True, "text": True, "timeout": SECONDS}
    return subprocess.run([python, "-Bc", text, *words], env=environment, check=False, **how)


# ---- What a call would write, and what it reads.


def check_overlaps(tally):
    """Memory beside a trace in one buffer, at each distance that matters: it is refused where they share a byte."""
    for chosen in drawn("memory that overlaps a trace", range(40)):
        trace = all_traces.generated(chosen)
        sizes = precopy.check_trace(trace)
        length, wanted = sizes.pages << sizes.shift, precopy.memory(trace)
        edges = (0, 1, len(trace) - 1, len(trace), chosen.randrange(len(trace)))
        for start in sorted({length + it for it in (*edges, -1, -length, 1 - length, -chosen.randint(0, length))}):
            whole = mmap.mmap(-1, 2 * length + len(trace)) if start % 2 else bytearray(2 * length + len(trace))
            whole[length : length + len(trace)] = trace
            view, before = memoryview(whole), bytes(whole)
            given, room = view[length : length + len(trace)], view[start : start + length]
            found = outcome(precopy.OpenTrace(given).memory_step, 0, 1 << 20, room)
            if 0 < start < length + len(trace):
                good = found == "Overlap" and before == bytes(whole)
            else:
                good = found is None and room == wanted and given == trace
            tally.add(good, f"memory of {length} bytes {start - length} bytes behind a trace of {len(trace)}: {found}")
    check_frames_in_memory(tally)


def check_frames_in_memory(tally):
    for chosen in drawn("frames in memory", range(100)):
        sizes = precopy.Sizes(4, 6, 20)
        frames = [(chosen.randrange(6), chosen.randrange(21), chosen.randbytes(16)) for _ in range(3)]
        stream, start = b"".join(traces.frame_text(*it) for it in frames), chosen.randrange(96 - 75)
        flat = precopy.FlatMemory(sizes)
        flat.memory[start : start + len(stream)] = stream
        before = bytes(flat.memory)
        found = outcome(flat.accept, memoryview(flat.memory)[start : start + len(stream)])
        good = found == "Overlap" and bytes(flat.memory) == before and flat.missing() == 0
        tally.add(good, f"frames that stand in the memory that takes them, {chosen}: {found}")
        good = flat.accept(memoryview(flat.memory)[start:start]) == precopy.Taken(0, 0)
        tally.add(good and flat.accept(stream).frames == 3, "no bytes of that memory, and frames beside it")


# ---- Memory that runs out.

SCARCE = """
import resource, sys
import precopy
pages = 65536
empty = b"PCWT" + bytes([1, 12, 0, 0]) + pages.to_bytes(4, "little") + bytes(4)
sizes, half, small = precopy.check_trace(empty), bytes(1 << 27), b"PCWT" + bytes([1, 4, 0, 0, 1]) + bytes(7)
check, long = precopy.OpenTrace(small).check(0), bytes(17 << 20)
check.take(0, b"\\0")
record = bytes(14) + (4096).to_bytes(2, "little") + bytes(4096)
opened = precopy.OpenTrace(empty)
reported = precopy.OpenTrace(empty[:12] + (4352).to_bytes(4, "little") + 4352 * record)
with open("/proc/self/statm") as file:
    now = int(file.read().split()[0]) * resource.getpagesize()
resource.setrlimit(resource.RLIMIT_AS, (now + (64 << 20), now + (64 << 20)))
for call in (
    lambda: precopy.memory(empty), lambda: opened.memory_before(5), lambda: precopy.FlatMemory(sizes),
    lambda: precopy.check_streams(empty, 0, [half, half]), lambda: check.take(0, half),
    lambda: precopy.report(long, precopy.Settings()), lambda: reported.report(precopy.Settings()),
):
    try:
        call()
        print("answered")
    except precopy.NoMemory as fault:
        print("NoMemory", fault.status.name, fault)
    except Exception as fault:
        print(type(fault).__name__)
print(check.take(0, bytes(9)), check.finish())
"""


def check_memory(tally):
    """Calls that need more memory than the process may have are refused. A piece of a stream needs none: it is not
    copied but for the frame that is cut."""
    ran = script(sys.executable, SCARCE)
    *lines, last = ran.stdout.splitlines() or [""]
    told = precopy._LIBRARY.precopy_strerror(16).decode()
    refused = f"NoMemory NO_MEMORY {told}"
    good = lines == [*[refused] * 4, "answered", refused, refused]
    tally.add(good, f"calls without memory: {lines}: {ran.stderr[-1000:]}")
    tally.add(last == "None None", f"a check to which memory came back: {last}")


# ---- Checks of streams that come.

FORKED = """
import os
import precopy
made = precopy.Recording(shift=4, pages=1)
made.write(0, 0, 0, b"\\1")
made.write(1, 0, 1, b"\\2")
opened, sizes = precopy.OpenTrace(bytes(made)), precopy.check_trace(bytes(made))
first, last = (precopy.encode_frame(sizes, 0, stamp, opened.page_at(0, stamp)) for stamp in (1, 2))
check = opened.check(2)
child = os.fork()
if child == 0:
    os._exit(0 if check.take(0, last) is None and check.finish() is None else 1)
print(os.waitstatus_to_exitcode(os.waitpid(child, 0)[1]), check.take(0, first), check.take(0, last), check.finish())
"""


def check_forked(tally):
    """A check goes on by itself in a child of the process: what the child takes is not in the parent's memory."""
    ran = script(sys.executable, FORKED)
    tally.add(
        ran.stdout == "0 None None None\n", f"a check in a child, and then in its parent: {ran.stdout}{ran.stderr}"
    )


def fresh():
    return precopy.OpenTrace(read_bytes(TOP, "examples/a.pcwt")).check(STOP)


def check_cut(tally):
    """What was taken and is no frame counts, whatever is called next."""
    right, more = stream_rows.stream(RIGHT), frame(1, 3, NEW) + frame(1, 3, NEW)[:5]
    cut = (41, 0, 6, len(right) + 25, 0, 0, 0, 0, 0)
    ways = {
        "finish": lambda it: None,
        "end_stream": lambda it: it.end_stream(0),
        "end_stream twice": lambda it: (it.end_stream(0), it.end_stream(0)),
        "another stream": lambda it: (it.end_stream(0), it.take(1, right), it.end_stream(1)),
        "a stream meanwhile": lambda it: (it.take(1, right), it.end_stream(1)),
        "no more bytes": lambda it: (it.take(0, b""), it.finish()),
    }
    for name, act in ways.items():
        check = fresh()
        tally.add(check.take(0, right + more) is None, "all pages, and 30 bytes that are a frame and a part of one")
        act(check)
        found = stream_rows.told_by_library(check.finish())
        tally.add(found == cut, f"a stream that is cut off, {name}: {found}, not {cut}")
    check = fresh()
    check.take(0, right + more)
    found = check.finish()
    tally.add(found and check.take(0, frame(1, 3, NEW)[5:]) == found == check.finish(), "a frame that comes late")


def check_found(tally):
    """What was found first stays, and nothing is kept after it."""
    right, check = stream_rows.stream(RIGHT), fresh()
    first = check.take(0, right + frame(4, 0, NEW))
    tally.add(first and first.status is precopy.Status.FRAME_PAGE, f"a frame of a page that is not there: {first}")
    piece = random.Random(1).randbytes(1 << 16)
    tracemalloc.start()
    for _ in range(100):
        tally.add(check.take(0, piece) == first, "bytes after a finding")
    kept = tracemalloc.get_traced_memory()[0]
    tracemalloc.stop()
    tally.add(kept < 1 << 16, f"after a finding and 100 pieces of 64 KiB {kept} bytes are kept")
    good = check.end_stream(0) == check.take(0, right) == check.finish() == first
    tally.add(good, "what was found is told by each call")
    tally.add(check.take(1, right) is None and check.finish() == first, "what was found in another stream")


def check_threads(tally, check_turns):
    """Several threads may share a check: their pieces are taken one after the other."""
    trace, pages = header(64, 0), 64
    frames = [frame(number % pages, 0, bytes(16)) for number in range(8 * pages)]
    taking, check = precopy.OpenTrace(trace).check(0), precopy.OpenTrace(trace).check(0)
    check_turns(tally, "precopy_trace_check_piece", lambda it: taking.take(0, it), frames[:100])
    with concurrent.futures.ThreadPoolExecutor(8) as threads:
        found = list(threads.map(lambda it: check.take(0, it), frames))
    good = not any(found) and check.end_stream(0) is None and check.finish() is None
    tally.add(good, f"frames of eight threads in one check: {check.finish()}")


def check_copies(tally):
    """What comes behind whole frames is not copied, nor is a single stream."""
    trace, data = header(64, 0), frame(0, 0, bytes(16)) * (1 << 20)
    check, small = precopy.OpenTrace(trace).check(0), 1 << 20
    for name, call in (
        ("take", lambda it: check.take(0, it)),
        ("take of a view", lambda it: check.take(0, memoryview(it)[:-1])),
        ("check_streams", lambda it: precopy.check_streams(trace, 0, [it])),
    ):
        tracemalloc.start()
        call(data)
        most = tracemalloc.get_traced_memory()[1]
        tracemalloc.stop()
        tally.add(most < small, f"{name} over {len(data)} bytes takes {most}")


# ---- Statuses.


def check_statuses(tally):
    """They are an enumeration, with the numbers of the header, and of a number that is not there they know that."""
    numbers = dict(re.findall(r"\bPRECOPY_(\w+) = (\d+)", read("include/precopy.h")))
    reasons = ("FEW", "FAST", "ALL_ROUNDS", "ALL_LOOKS", "CUT", "LEVEL", "FEW_LEFT", "TRACE_ENDS", "NOT_BEGUN")
    for it in ("OK", "YES", "NO", "UNKNOWN", "UNCERTAIN", *reasons):
        del numbers[it]
    found = {it.name: str(int(it)) for it in precopy.Status}
    tally.add(issubclass(precopy.Status, enum.IntEnum) and found == numbers, f"statuses are {found}, not {numbers}")
    refused = outcome(precopy.check_trace, b"")
    tally.add(refused == "TraceRefused", f"no bytes: {refused}")
    try:
        precopy.check_trace(b"")
    except precopy.TraceRefused as fault:
        tally.add(fault.status is precopy.Status.SHORT_HEADER, f"the status of a refusal is {fault.status!r}")
    found = precopy.check_streams(header(1, 0), 0, [])
    tally.add(found.status is precopy.Status.PAGE_MISSING, f"the status of a finding is {found.status!r}")
    later = precopy.Refused(1234)
    tally.add(later.status == 1234 and isinstance(later.status, precopy.Status), f"a later status: {later.status!r}")


# ---- Arrays of numpy.

ARRAYS = """
import sys, tracemalloc
import numpy
import precopy
trace = open(sys.argv[1], "rb").read()
sizes, whole = precopy.check_trace(trace), precopy.memory(trace)
size = sizes.page_length
versions = precopy.OpenTrace(trace).versions_after(sizes.writes)
stream = b"".join(
    precopy.encode_frame(sizes, page, version, whole[page * size :][:size]) for page, version in enumerate(versions)
)
def same(name, good):
    print(name if good else f"not {name}")
array = numpy.frombuffer(trace, numpy.uint8)
same("trace", precopy.plan(array, precopy.Settings()) == precopy.plan(trace, precopy.Settings()))
room = numpy.zeros((sizes.pages, size), numpy.uint8)
opened = precopy.OpenTrace(array)
opened.memory_step(0, sizes.writes, room)
same("written", room.tobytes() == whole)
wide = numpy.frombuffer(bytes(whole), ">u4")
same("wide", precopy.is_zero(wide[:0]) and not precopy.is_zero(wide))
frames = numpy.frombuffer(stream, numpy.uint8)
tracemalloc.start()
check = precopy.OpenTrace(array).check(sizes.writes)
found = check.take(0, frames), precopy.check_streams(array, sizes.writes, [frames]), precopy.FlatMemory(sizes)
found[2].accept(frames)
same("streams", found[:2] == (None, None) and check.finish() is None and found[2].memory == whole)
same("not copied", tracemalloc.get_traced_memory()[1] < len(whole) + (1 << 20))
shared = numpy.zeros(5 + len(trace) + len(whole), numpy.uint8)
beside = shared[5 : 5 + len(trace)]
beside[:] = array
for name, call in (("strided", lambda: precopy.plan(array[::2], precopy.Settings())),
                   ("read-only", lambda: opened.memory_step(0, 1, numpy.frombuffer(bytes(whole), "u1"))),
                   ("overlapping", lambda: precopy.OpenTrace(beside).memory_step(0, 1, shared[:len(whole)]))):
    try:
        call()
        print("answered")
    except Exception as fault:
        print(name, type(fault).__name__)
"""
OF_ARRAYS = ["trace", "written", "wide", "streams", "not copied"]
OF_ARRAYS += ["strided BufferError", "read-only BufferError", "overlapping Overlap"]


def python_with_numpy():
    pythons = [it for it in (sys.executable, SYSTEM) if os.access(it, os.X_OK)]
    return next((it for it in pythons if not script(it, "import numpy").returncode), None)


def check_arrays(tally):
    python = python_with_numpy() or (is_installed(tools()["numpy"]) and python_with_numpy())
    if not python:
        raise LeftOut("no Python here has the module numpy, and python3-numpy could not be installed")
    ran = script(python, ARRAYS, os.path.join(TOP, "examples", "gzip.pcwt"))
    tally.add(ran.stdout.splitlines() == OF_ARRAYS, f"arrays of numpy: {ran.stdout}{ran.stderr}")


# ---- pip.


def check_no_library(tally, packed, pip, environment):
    """Without a built library pip installs nothing, and says what builds it."""
    with tempfile.TemporaryDirectory() as folder:
        ran = subprocess.run(
            [*pip, "install", "--no-deps", "--target", folder, packed],
            env={name: it for name, it in environment.items() if name != "PRECOPY_LIBRARY"},
            stdin=subprocess.DEVNULL,
            capture_output=True,
            text=True,
            timeout=SECONDS,
            check=False,
        )
        said = ran.stdout + ran.stderr
        good = ran.returncode and "make lib" in said and "Traceback" not in said and not os.listdir(folder)
        tally.add(good, f"pip install without a built library: status {ran.returncode}\n{said[-800:]}")


def check(tally, check_turns):
    for name, part, *words in (
        ("overlaps in Python", check_overlaps),
        ("memory that runs out in Python", check_memory),
        ("checks in a child", check_forked),
        ("streams that are cut off in Python", check_cut),
        ("what was found in Python", check_found),
        ("threads and one check in Python", check_threads, check_turns),
        ("streams that are not copied in Python", check_copies),
        ("statuses in Python", check_statuses),
        ("arrays of numpy", check_arrays),
    ):
        with tally.case(name) as case:
            part(case, *words)
