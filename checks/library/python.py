"""Trials of the Python module: numbers out of range, bytes of all kinds, refusals, threads, and pip."""

import array
import concurrent.futures
import ctypes
import mmap
import os
import pickle
import shutil
import sys
import tempfile
import time
import tracemalloc

import precopy
from checks.lib import traces as all_traces
from checks.lib.harness import drawn
from checks.lib.library_runs import run
from checks.lib.tally import LeftOut, is_installed, tools
from checks.lib.traces import header, record
from checks.library import python_edges, traces
from precopy_dev.tree import TOP

LIBRARY = os.path.join(TOP, "out", "library", "libprecopy.so.6")
HOSTILE = [-1, 1 << 31, 1 << 32, (1 << 32) + 1, (1 << 32) + 4, 1 << 63, 1 << 64, (1 << 64) + 1, 10**5000]
HOSTILE += [-(1 << 31), -(1 << 32), -(1 << 63), -(1 << 64), -(10**30)]
OPTIONAL = ("base", "first", "increment of a question", "best_start, to", "best_start, every")
NO_NUMBERS = [1.0, 0.5, -1.0, 2.0**32, float("nan"), float("inf"), "1", b"1", None, [], 1j]
NO_BYTES = [5, -1, 1 << 64, 1.5, None, "text", [1, 2], object()]
SIZES, PAGE = precopy.Sizes(4, 3, 20), bytes(15) + b"\1"
OF_QUESTIONS = ("predict", "agreement", "enough", "forecast", "link_shares", "best_start")


# ---- Numbers.


def taking_numbers(trace):
    """Each number that a call takes: its name, the call, and the ends of its range."""
    opened = precopy.OpenTrace(trace)
    settings = {name: (low, high) for name, low, high in traces.RANGES if name not in ("max", "base")}
    for name, ends in (*settings.items(), ("max", (1000, 1_000_000)), ("base", (0, 0)), ("skip", (0, 1))):
        for call in (precopy.plan, precopy.report):
            yield f"{call.__name__}, {name}", lambda it, n=name, c=call: c(trace, of_setting(n, it)), ends
        for call in (opened.plan, opened.report, opened.rounds):
            yield f"OpenTrace.{call.__name__}, {name}", lambda it, n=name, c=call: c(of_setting(n, it)), ends
        yield f"sweep, {name}", lambda it, n=name: opened.sweep([of_setting(n, it)]), ends
        yield f"check_settings, {name}", lambda it, n=name: precopy.check_settings(of_setting(n, it)), ends
    for name, ends in (("shift", (4, 12)), ("pages", (1, 1 << 16)), ("writes", (0, 1 << 20))):
        yield f"Sizes, {name}", lambda it, n=name: precopy.Sizes(**{"shift": 4, "pages": 1, "writes": 0, n: it}), ends
    yield from numbers_of_questions(opened)
    yield from numbers_of_open_traces(opened, quiet_page(trace), precopy.memory(trace))
    yield "check_streams, stop", lambda it: precopy.check_streams(trace, it, []), (0, (1 << 32) - 1)
    yield "encode_frame, page", lambda it: precopy.encode_frame(SIZES, it, 0, PAGE), (0, 2)
    yield "encode_frame, stamp", lambda it: precopy.encode_frame(SIZES, 0, it, PAGE), (0, 20)
    yield "stamp, page", precopy.FlatMemory(SIZES).stamp, (0, 2)


def numbers_of_open_traces(opened, quiet, memory):
    """Each number that a call over an open trace takes. To its page `quiet` no write goes."""
    pages, page, counts, ticks = (0, opened.pages - 1), opened.page_at(quiet, 0), (0, (1 << 32) - 1), (0, (1 << 64) - 1)
    yield "writes_before, tick", opened.writes_before, ticks
    yield "memory_before, tick", opened.memory_before, ticks
    yield "memory_step, start", lambda it: opened.memory_step(it, 7, memory), (0, 7)
    yield "memory_step, end", lambda it: opened.memory_step(7, it, memory), (7, (1 << 32) - 1)
    yield "page_writes, page", opened.page_writes, pages
    yield "version_after, page", lambda it: opened.version_after(it, 1), pages
    yield "version_after, count", lambda it: opened.version_after(0, it), counts
    yield "versions_after, count", opened.versions_after, counts
    yield "versions_before, tick", opened.versions_before, ticks
    yield "page_at, page", lambda it: opened.page_at(it, 0), pages
    yield "page_at, stamp", lambda it: opened.page_at(quiet, it), (0, 0)
    yield "OpenTrace.check, stop", opened.check, counts
    yield "OpenTrace.check, base", lambda it: opened.check(0, it), ticks
    yield "take, stream", lambda it: opened.check(0).take(it, b""), ticks
    yield "end_stream, stream", lambda it: opened.check(0).end_stream(it), ticks
    yield "take_page, page", lambda it: opened.check(0).take_page(it, page), pages
    yield "difference, count", lambda it: opened.difference(it, memory), counts


def numbers_of_questions(opened):
    """Each number of a question about a trace that has all pages, by rounds of 1,000 pages in as many ticks."""
    page, pages = 1 << opened.shift, opened.pages
    ends = {"link": (page, 1_000_001 * page - 1), "first": (page, 1_001 * page - 1), "downtime": (0, 65_535_999)}
    ends |= {"reserve": (0, 0), "tick": (1, 1_000_000), "page": (page, page), "sampled": (pages, pages)}
    ends |= {"guest": (pages, 1_000 * pages), "increment of a question": (0, 1_000_000), "rounds": (1, 64)}
    ends |= {"start": (0, (1 << 40) - 1), "base": (0, 0), "skip": (0, 1), "clark": (0, 1)}
    asked = {"link": 1_000 * page, "downtime": 0, "page": page, "sampled": pages, "guest": pages, "clark": True}
    for name, each in ends.items():
        for call in OF_QUESTIONS:
            yield f"{call}, {name}", answered_with(getattr(opened, call), asked, name.split()[0]), each
    whole = precopy.Question(**asked)
    yield "best_start, to", lambda it: opened.best_start(whole, it, 1 << 28), (0, (1 << 40) - 1)
    yield "best_start, every", lambda it: opened.best_start(whole, 4096, it), (2, (1 << 64) - 1)


def answered_with(call, asked, name):
    """What a call answers to a question, by one more of its numbers."""
    return lambda it: call(precopy.Question(**{**asked, name: it}))


def of_setting(name, value):
    return precopy.Settings(**{"min": 1, "max": 1_000_000, name: value} if name != "max" else {"max": value})


def outcome(call, *words):
    """The name of the error that a call raises, or `answered`."""
    try:
        call(*words)
        return "answered"
    except precopy.Refused:
        return "Refused"
    except Exception as fault:  # noqa: BLE001
        return type(fault).__name__


class Index:
    """An integer that is no int, as numpy has them."""

    def __init__(self, value):
        self.value = value

    def __index__(self):
        return self.value


def check_number(tally, chosen, name, call, low, high):
    values = [*HOSTILE, low - 1, high + 1, low, high, *(chosen.getrandbits(70) for _ in range(10))]
    for value in [*values, *(Index(value) for value in values)]:
        found = outcome(call, value)
        number = value.value if isinstance(value, Index) else value
        wanted = {"answered"} if low <= number <= high else {"OverflowError", "Refused"}
        tally.add(found in wanted, f"{name} {str(hex(number))[:40]}: {found}, not {wanted}")
    for value in NO_NUMBERS:
        found = outcome(call, value)
        wanted = "answered" if value is None and name.endswith(OPTIONAL) else "TypeError"
        tally.add(found == wanted, f"{name} {value!r}: {found}")


def quiet_page(trace):
    """A page that no write goes to, or None."""
    opened = precopy.OpenTrace(trace)
    return next((page for page in range(opened.pages) if not opened.page_writes(page)), None)


def check_numbers(tally):
    for chosen in drawn("numbers", range(1)):
        trace = all_traces.generated(chosen)
        while quiet_page(trace) is None:
            trace = all_traces.generated(chosen)
        for name, call, (low, high) in taking_numbers(trace):
            with tally.case(f"numbers in Python: {name}") as case:
                check_number(case, chosen, name, call, low, high)
        before = precopy.OpenTrace(trace).memory_before
        good = before(1 << 40) == precopy.memory(trace) == before(1 << 63)
        tally.add(good, "memory before a tick after all writes")


# ---- Bytes.


def taking_bytes(trace, stream):
    """Each call over bytes: its name, the bytes, and the call."""
    settings = precopy.Settings(min=2, max=4, increment=1, threshold=1, rounds=8)
    for call in (precopy.plan, precopy.report):
        yield call.__name__, trace, lambda it, c=call: c(it, settings)
    for call in (precopy.check_trace, precopy.memory, precopy.is_zero):
        yield call.__name__, trace, call
    for name, act in acts_on_open_traces(trace, settings):
        yield f"OpenTrace, {name}", trace, lambda it, a=act: a(precopy.OpenTrace(it))
    yield "check_streams, trace", trace, lambda it: precopy.check_streams(it, 9, [b""])
    for name, call in taking_streams():
        yield name, stream, call
    opened = precopy.OpenTrace(header(3, 0))
    yield "take_page", PAGE, lambda it: opened.check(0).take_page(1, it)
    yield "difference", 3 * PAGE, lambda it: opened.difference(0, it)
    yield "encode_frame", PAGE, lambda it: precopy.encode_frame(SIZES, 2, 3, it)
    yield "decode_frame", stream, lambda it: precopy.decode_frame(SIZES, it)
    yield "accept", stream, lambda it: (lambda flat: (flat.accept(it), traces.state(flat)))(precopy.FlatMemory(SIZES))


def acts_on_open_traces(trace, settings):
    """What is done with a trace as soon as it is open."""
    for name in ("plan", "rounds", "report"):
        yield name, lambda it, n=name: getattr(it, n)(settings)
    yield "sweep", lambda it: it.sweep([settings, settings])
    page = 1 << trace[5] if trace[5:6] and 4 <= trace[5] <= 12 else 4096
    question = precopy.Question(link=100 * page, downtime=5000, page=page)
    for name in OF_QUESTIONS:
        yield name, lambda it, n=name: getattr(it, n)(question)
    yield "memory_before", lambda it: it.memory_before(700)
    yield "memory_step", stepped
    yield "writes_before", lambda it: it.writes_before(700)
    yield "page_writes", lambda it: it.page_writes(0)
    yield "versions_after", lambda it: it.versions_after(9)


def taking_streams():
    """Each call over streams of a guest without writes: its name, and the call."""
    trace = header(3, 0)
    opened = precopy.OpenTrace(trace)
    yield "check_streams, a stream", lambda it: precopy.check_streams(trace, 0, [it])
    yield "check_streams, streams", lambda it: precopy.check_streams(trace, 0, [b"", it])
    yield "take", lambda it: opened.check(0).take(0, it)
    for name, first in (("behind a byte", b"\0"), ("after a finding", b"\4" * 9)):
        yield f"take, {name}", lambda it, f=first: (lambda check: (check.take(0, f), check.take(0, it)))(
            opened.check(0)
        )


def stepped(opened):
    """The memory after nine writes of a trace."""
    room = bytearray(opened.pages << opened.shift)
    opened.memory_step(0, 9, room)
    return room


def kinds_of(data, folder):
    """Objects that have these bytes."""
    yield from (data, bytearray(data), memoryview(data), memoryview(bytearray(data)))
    yield memoryview(b"..." + data + b"....")[3 : 3 + len(data)]
    yield from (array.array("B", data), (ctypes.c_ubyte * len(data)).from_buffer_copy(data))
    if len(data) % 4 == 0:
        yield from (array.array("I", data), memoryview(data).cast("I"))
    with tempfile.TemporaryFile(dir=folder) as file:
        file.write(data)
        file.flush()
        for access in (mmap.ACCESS_READ, mmap.ACCESS_COPY, mmap.ACCESS_WRITE):
            with mmap.mmap(file.fileno(), 0, access=access) as mapped:
                yield mapped


def check_kinds(tally, name, data, call, folder):
    wanted = call(data)
    for kind in kinds_of(data, folder):
        tally.add(call(kind) == wanted, f"{name} over {type(kind).__name__}")
    for other in NO_BYTES:
        tally.add(outcome(call, other) == "TypeError", f"{name} over {other!r}: {outcome(call, other)}")
    found = outcome(call, memoryview(data)[::2])
    tally.add(found == "BufferError", f"{name} over bytes that are not in one piece: {found}")


def check_bytes(tally, folder):
    for chosen in drawn("traces over all kinds of bytes", range(20)):
        trace = all_traces.generated(chosen)
        frames = [(chosen.randrange(3), chosen.randrange(21), chosen.choice([bytes(16), PAGE])) for _ in range(5)]
        stream = b"".join(traces.frame_text(*frame) for frame in frames)
        for name, data, call in taking_bytes(trace, stream):
            with tally.case(f"bytes in Python: {name}, {chosen}") as case:
                check_kinds(case, name, data, call, folder)


def peak(call, *words):
    """The most bytes that Python had for a call, and what it returned."""
    tracemalloc.start()
    try:
        answer = call(*words)
        return tracemalloc.get_traced_memory()[1], answer
    finally:
        tracemalloc.stop()


def check_copies(tally):
    """A long trace is not copied, nor is memory a second time, and a report is made once."""
    pages, size = 4096, 4096
    writes = (record(tick, tick * 7 % pages, 0, b"\1" * size) for tick in range(2000))
    trace = header(pages, 2000, 12) + b"".join(writes)
    settings, whole, small = precopy.Settings(), pages * size, 1 << 20
    for kind in (trace, bytearray(trace), memoryview(trace)):
        opened = precopy.OpenTrace(kind)
        calls = [(call, kind, settings) for call in (precopy.plan, precopy.report)]
        calls += [(call, settings) for call in (opened.plan, opened.rounds, opened.report)]
        for call, *words in calls:
            most = peak(call, *words)[0]
            tally.add(most < small, f"{call.__name__} over {type(kind).__name__} of {len(trace)} bytes takes {most}")
        for call, *words in ((precopy.memory, kind), (opened.memory_before, 1 << 40)):
            most, found = peak(call, *words)
            tally.add(most < whole + small and len(found) == whole, f"memory of {whole} bytes takes {most}")
    check_reports(tally, trace)


def check_reports(tally, trace):
    """However long a report is, it is made once."""
    settings, none = precopy.Settings(window=1, hot=1, start=(1 << 40) - 1, min=1, max=1), (b"", b"none")
    for name, call, all_of in (
        ("precopy_report", precopy.report, (*longest_reports(), *none, trace)),
        ("precopy_trace_report", lambda it, _: precopy.OpenTrace(it).report(settings), (*longest_reports(), trace)),
    ):
        counted, right = [], getattr(precopy._LIBRARY, name)

        def count(*words, counted=counted, right=right):
            counted.append(words)
            return right(*words)

        setattr(precopy._LIBRARY, name, count)
        try:
            for each in all_of:
                counted.clear()
                outcome(call, each, settings)
                tally.add(len(counted) == 1, f"{name} over {len(each)} bytes is called {len(counted)} times")
        finally:
            setattr(precopy._LIBRARY, name, right)


def longest_reports():
    """Traces whose reports are long: each write, the shortest there is, has a window with a great number and a page."""
    for writes in (0, 1, 2, 70, 5000):
        late = [((1 << 40) - 1 - writes + number, 65_535 - number) for number in range(writes)]
        yield all_traces.made(1 << 16, late, version=2)


# ---- Refusals and flat memory.


def check_refusal(tally, trace, wanted):
    for name, _, call in taking_bytes(trace, b""):
        over_others = ("is_zero", "encode_frame", "decode_frame", "accept", "check_trace", "take_page", "difference")
        if name not in (*over_others, *(it for it, _ in taking_streams())):
            try:
                call(trace)
                tally.add(False, f"{name} takes it")
            except precopy.TraceRefused as found:
                same = (found.status, found.record, str(found)) == (wanted.status, wanted.record, str(wanted))
                tally.add(same, f"{name}: {found}, and check_trace {wanted}")
    again = pickle.loads(pickle.dumps(wanted))
    tally.add((type(again), vars(again), str(again)) == (type(wanted), vars(wanted), str(wanted)), f"{again!r}")


def check_refusals(tally):
    """A refused record is named by each call over a trace, and a refusal goes from process to process."""
    settings, named = precopy.Settings(), 0
    for chosen in drawn("damaged traces", range(200)):
        trace = all_traces.damaged(chosen, all_traces.generated(chosen))
        try:
            precopy.check_trace(trace)
        except precopy.TraceRefused as fault:
            named += fault.record is not None
            with tally.case(f"{chosen} in Python") as case:
                check_refusal(case, trace, fault)
    tally.add(named > 20, f"only {named} damaged traces have a record that is named")
    tally.add(outcome(precopy.plan, b"", settings) == "Refused", "a trace without bytes")
    try:
        precopy.FlatMemory(SIZES).accept(b"\1")
    except precopy.FrameRefused as fault:
        again = pickle.loads(pickle.dumps(fault))
        tally.add((again.status, again.taken) == (41, precopy.Taken(0, 0)), f"a refused frame becomes {vars(again)}")


def check_flat(tally):
    """Threads that share one memory."""
    frame = precopy.encode_frame(SIZES, 0, 7, bytes(range(1, 17)))
    frames = [precopy.encode_frame(SIZES, number % 3, number % 20, PAGE) for number in range(100)]
    check_turns(tally, "precopy_accept", precopy.FlatMemory(SIZES).accept, frames)
    for chosen in drawn("frames of eight threads", range(10)):
        sizes, frames = traces.frames(chosen)
        frames *= 40
        chosen.shuffle(frames)
        flat = precopy.FlatMemory(sizes)
        with concurrent.futures.ThreadPoolExecutor(8) as threads:
            list(threads.map(lambda it: flat.accept(traces.frame_text(*it)), frames))
        tally.add(traces.state(flat) == traces.joined(sizes, frames), f"eight threads and one memory, {chosen}")
    flat = precopy.FlatMemory(SIZES)
    del flat.memory[5:]
    tally.add(outcome(flat.accept, frame) == "Refused", "memory that was cut")


def check_turns(tally, name, act, data):
    """Calls of several threads over one object take turns: no two are in the library at once."""
    inside, most, call = [], [], getattr(precopy._LIBRARY, name)

    def watched(*words):
        inside.append(1)
        most.append(len(inside))
        time.sleep(0.001)
        answer = call(*words)
        inside.pop()
        return answer

    setattr(precopy._LIBRARY, name, watched)
    try:
        with concurrent.futures.ThreadPoolExecutor(8) as threads:
            list(threads.map(act, data))
    finally:
        setattr(precopy._LIBRARY, name, call)
    tally.add(len(most) == len(data) and max(most) == 1, f"{max(most)} calls of {name} over one object at once")


# ---- pip.


def check_pip(tally, folder):
    """The module by pip in a fresh environment without an index: from these sources with the library, and from a packed
    copy without it."""
    python = "/usr/bin/python3" if os.access("/usr/bin/python3", os.X_OK) else sys.executable
    fresh, packed = os.path.join(folder, "a venv"), os.path.join(folder, "packed")
    made = run(python, "-m", "venv", fresh)
    if made.returncode and is_installed(tools()["venv"]):
        made = run(python, "-m", "venv", fresh)
    if made.returncode:
        raise LeftOut(f"{python} makes no environment: {made.stdout.decode()[-200:]}")
    shutil.copytree(f"{TOP}/bindings/python", packed, ignore=shutil.ignore_patterns("__pycache__"))
    pack = run(python, "-Bc", "import wheels; print(wheels.build_sdist('.'))", cwd=packed)
    tally.add(pack.returncode == 0, f"the sources are packed: {pack.stderr.decode()}")
    alone = os.path.join(packed, pack.stdout.decode().strip())
    environment = {"PATH": "/usr/bin:/bin", "PIP_NO_INDEX": "1", "PIP_DISABLE_PIP_VERSION_CHECK": "1", "HOME": folder}
    environment |= {"LC_ALL": "C.UTF-8", "PYTHONDONTWRITEBYTECODE": "1"}
    line = "import precopy, os; print(os.path.dirname(precopy.__file__), precopy.version(),"
    line += " os.path.exists(os.path.join(os.path.dirname(precopy.__file__), 'py.typed')))"
    for source, library in ((f"{TOP}/bindings/python", {}), (alone, {"PRECOPY_LIBRARY": LIBRARY})):
        where = {**environment, **library}
        ran = run(f"{fresh}/bin/pip", "install", "--force-reinstall", source, env=where, cwd="/")
        if not tally.add(ran.returncode == 0, f"pip install {source}: {(ran.stdout + ran.stderr).decode()[-800:]}"):
            continue
        ran = run(f"{fresh}/bin/python", "-c", line, env=where, cwd="/")
        words = ran.stdout.decode()
        good = words.startswith(fresh) and words.endswith(f"/precopy {precopy.version()} True\n")
        tally.add(good, f"the module that pip installs from {source}: {ran}")
    python_edges.check_no_library(tally, alone, [f"{fresh}/bin/pip"], environment)
    ran = run(f"{fresh}/bin/pip", "uninstall", "-y", "precopy", env=environment, cwd="/")
    left = [at for at, _, _ in os.walk(fresh) if "precopy" in os.path.relpath(at, fresh)]
    tally.add(ran.returncode == 0 and not left, f"pip uninstall leaves {left}")


def check(tally, folder):
    check_numbers(tally)
    check_bytes(tally, folder)
    with tally.case("no copies in Python") as case:
        check_copies(case)
    check_refusals(tally)
    check_flat(tally)
    python_edges.check(tally, check_turns)
    with tally.case("the Python module by pip") as case:
        check_pip(case, folder)
