"""Random traces and streams with a mistake planted in a random frame: the library's check of streams must name it. The
tool over it, tools/check, tells worked examples."""

import collections
import itertools
import os
import tempfile
import time

import precopy
from checks.lib import stream_model, stream_rows
from checks.lib.harness import drawn
from checks.lib.library_runs import run
from checks.lib.stream_rows import frame
from checks.lib.traces import generated, header, record
from precopy_dev.files import write_file
from precopy_dev.tree import TOP
from precopy_tools import check as tool

TRIALS = 2000
HEAD = 9


def right_streams(chosen, guest, stop):
    """Streams of frames in which all is right: a list of (page, stamp) for each. Each page comes at its version at the
    stop, and before that in the same stream at some earlier ones."""
    streams = [[] for _ in range(chosen.randint(1, 3))]
    for number, page in enumerate(guest.pages):
        last = page.version(stop)
        earlier = sorted({page.version(chosen.randint(0, stop)) for _ in range(chosen.randint(0, 2))})
        stream = chosen.choice(streams)
        places = sorted(chosen.choices(range(len(stream) + 1), k=len(earlier) + 1))
        for added, (place, stamp) in enumerate(zip(places, [*earlier, last])):
            stream.insert(place + added, (number, stamp))
    return streams


def content_of(guest, page, stamp):
    return bytes(guest.pages[page].after(stamp))


def texts_of(guest, streams):
    return [[frame(page, stamp, content_of(guest, page, stamp)) for page, stamp in stream] for stream in streams]


# ---- Mistakes. Each changes a frame of the streams, or returns False if this frame has no room for it.


def other_bytes(chosen, guest, streams, texts, at, number):
    page, stamp = streams[at][number]
    content = bytearray(content_of(guest, page, stamp))
    content[chosen.randrange(len(content))] ^= 1 << chosen.randrange(8)
    texts[at][number] = frame(page, stamp, bytes(content))
    return True


def old_bytes(chosen, guest, streams, texts, at, number):
    """The page as an earlier write left it, under the new stamp."""
    page, stamp = streams[at][number]
    earlier = content_of(guest, page, guest.pages[page].version(max(0, stamp - 1)))
    if not stamp or earlier == content_of(guest, page, stamp):
        return False
    texts[at][number] = frame(page, stamp, earlier)
    return True


def other_stamp(chosen, guest, streams, texts, at, number):
    page, stamp = streams[at][number]
    texts[at][number] = frame(page, chosen.randrange(guest.write_count + 2), content_of(guest, page, stamp))
    return True


def other_page(chosen, guest, streams, texts, at, number):
    page, stamp = streams[at][number]
    texts[at][number] = frame(chosen.randrange(len(guest.pages) + 1), stamp, content_of(guest, page, stamp))
    return True


def left_out(chosen, guest, streams, texts, at, number):
    texts[at][number] = b""
    return True


def old_frame_late(chosen, guest, streams, texts, at, number):
    """A frame comes once more after a newer one of its page."""
    last = dict(streams[at][: number + 1])
    old = [place for place, (page, stamp) in enumerate(streams[at][:number]) if stamp < last[page]]
    if not old:
        return False
    texts[at][number] += texts[at][chosen.choice(old)]
    return True


def damaged(chosen, guest, streams, texts, at, number):
    text = bytearray(texts[at][number])
    text[chosen.randrange(HEAD)] = chosen.choice([0, 1, 2, 255])
    texts[at][number] = bytes(text)
    return True


def cut_off(chosen, guest, streams, texts, at, number):
    texts[at][number] = texts[at][number][: -chosen.randint(1, HEAD - 1)]
    del texts[at][number + 1 :]
    return True


MISTAKES = [other_bytes, old_bytes, other_stamp, other_page, left_out, old_frame_late, damaged, cut_off]


def is_named(told, page, at, number, offset, length):
    """Whether what is told is the frame in which a mistake was planted, or the one behind it if the mistake is one more
    frame, or the frame's page, which does not come as it must."""
    if told[0] in stream_rows.OF_PAGES:
        return told[4] == page
    return told[1] == at and told[2] in (number, number + 1) and offset <= told[3] <= offset + length


def trial(chosen, tally):
    """Plants a mistake in streams of a random trace. Returns which, or None if nothing is wrong with it: its frame has
    no room for the mistake, or is as right as before."""
    trace = generated(chosen)
    guest = stream_model.Guest(trace)
    stop = chosen.randint(0, guest.write_count)
    streams = right_streams(chosen, guest, stop)
    texts = texts_of(guest, streams)
    right = [b"".join(it) for it in texts]
    found = precopy.check_streams(trace, stop, right)
    tally.add(found is None, f"{found} where nothing was planted")
    tick = chosen.choice([0, stop, guest.ticks[stop - 1] if stop else 0, 1 << 40])
    count = precopy.OpenTrace(trace).writes_before(tick)
    tally.add(count == guest.writes_before(tick), f"{count} writes before tick {tick}")
    at = chosen.choice([at for at, it in enumerate(streams) if it])
    place, mistake = chosen.randrange(len(streams[at])), chosen.choice(MISTAKES)
    offset = sum(map(len, texts[at][:place]))
    if not mistake(chosen, guest, streams, texts, at, place):
        return None
    sent = [b"".join(it) for it in texts]
    wrong = stream_model.first_wrong(guest, stop, sent)
    told = stream_rows.told_by_library(precopy.check_streams(trace, stop, sent))
    name = f"{mistake.__name__} in frame {place} of stream {at}"
    tally.add(told == stream_rows.told_by_model(wrong), f"{name}: the library tells {told}, and the model {wrong}")
    pieces = stream_rows.told_by_library(in_pieces(chosen, trace, stop, sent))
    tally.add(pieces == told, f"{name}: in pieces the library tells {pieces}, and at once {told}")
    mixed = stream_rows.told_by_library(in_any_order(chosen, trace, stop, sent))
    tally.add(mixed == told, f"{name}: in pieces in any order the library tells {mixed}, and at once {told}")
    if wrong is None:
        return None
    named = told and is_named(told, streams[at][place][0], at, place, offset, len(texts[at][place]))
    tally.add(named, f"{name}, and the library tells {told}")
    return mistake.__name__


def in_pieces(chosen, trace, stop, streams):
    """What is wrong first in streams that come one after the other, in pieces of random lengths, or None. Often only
    the last call is asked, and it finds what a call before it found."""
    check, is_asked, last = precopy.OpenTrace(trace).check(stop), chosen.random() < 0.5, len(streams) - 1
    for number, stream in enumerate(streams):
        while stream:
            length = chosen.choice([1, 8, 30, 500])
            if (found := check.take(number, stream[:length])) and is_asked:
                return found
            stream = stream[length:]
        # The end of the last stream may be left out.
        if (number < last or chosen.random() < 0.5) and (found := check.end_stream(number)) and is_asked:
            return found
    return check.finish()


def in_any_order(chosen, trace, stop, streams, base=None):
    """What is found in streams of which pieces of random lengths come in a random order."""
    check, left = precopy.OpenTrace(trace).check(stop, base), dict(enumerate(streams))
    while left:
        number, length = chosen.choice([*left]), chosen.choice([1, 8, 30, 500])
        check.take(number, left[number][:length])
        left[number] = left[number][length:]
        if not left[number]:
            del left[number]
            # The end of a stream may be left out.
            if chosen.random() < 0.5:
                check.end_stream(number)
    return check.finish()


def told_by_tool(folder, streams, *words):
    """The status of tools/check over the streams of the guest of examples/a.pcwt, and what it prints."""
    paths = [os.path.join(folder, f"stream{number}") for number in range(len(streams))]
    for path, stream in zip(paths, streams):
        write_file(stream, path)
    done = run(f"{TOP}/tools/check", f"{TOP}/examples/a.pcwt", *paths, *words)
    return done.returncode, (done.stdout + done.stderr).decode()


def check_tool(tally, folder):
    right = stream_rows.stream(stream_rows.RIGHT)
    late = frame(1, 2, stream_rows.OLD)
    older = "page 1 at 2 for 3, a frame of the page with a greater stamp came before in the stream"
    lacks = "page 1 at 3 for 5, a page is not at its version at the stop; it lacks write 5, at tick 2500"
    # A stream of more than two pieces that are read at once, within frames of which they end.
    count = tool.PIECE // 10
    long = right + stream_rows.stream(stream_rows.RIGHT[-1:] * (count - len(stream_rows.RIGHT)))
    rows = [
        ([right], ["--tick", "2000"], 0, "all is right at the stop, after 3 of 5 writes\n"),
        ([right, late], ["--after", "3"], 0, "all is right at the stop, after 3 of 5 writes\n"),
        ([late, right + late], ["--tick", "2500"], 3, f"stream 1, frame 5, byte 93: {older}\n"),
        ([right[:-1]], ["--after", "3"], 3, "stream 0, frame 4, byte 68: frame F1: a frame is cut off\n"),
        ([right], [], 3, f"at the stop: {lacks}\n"),
        ([right], ["--after", "9"], 3, f"at the stop: {lacks}\n"),
        ([long], ["--after", "3"], 0, "all is right at the stop, after 3 of 5 writes\n"),
        ([long + late, late[:-1]], ["--after", "3"], 3, f"stream 0, frame {count}, byte {len(long)}: {older}\n"),
        ([long, late[:-1]], ["--after", "3"], 3, "stream 1, frame 0, byte 0: frame F1: a frame is cut off\n"),
    ]
    for streams, words, status, text in rows:
        found = told_by_tool(folder, streams, *words)
        tally.add(found == (status, text), f"tools/check {' '.join(words)} tells {found}, not {status} and {text}")
    for words, status in (([], 2), (["--tick", "-1"], 2), (["--tick", "1", "--after", "1"], 2)):
        found = told_by_tool(folder, [right][: len(words)], *words)
        tally.add(found[0] == status, f"tools/check {' '.join(words)} has status {found}")
    done = run(f"{TOP}/tools/check", f"{TOP}/README.md", f"{TOP}/README.md")
    tally.add(done.returncode == 1 and b"trace E2" in done.stderr, f"tools/check of no trace: {done}")
    done = run(
        "sh", "-c", 'ulimit -v 4000000 && exec "$@"', "sh", f"{TOP}/tools/check", "/dev/zero", f"{TOP}/README.md"
    )
    tally.add(done.returncode == 1 and b"trace E15" in done.stderr, f"tools/check of a trace without end: {done}")
    environment = {**os.environ, "PRECOPY_LIBRARY": "/there/is/none"}
    done = run(f"{TOP}/tools/check", f"{TOP}/examples/a.pcwt", "none", env=environment)
    tally.add(done.returncode == 2 and b"is not there" in done.stderr, f"tools/check without the library: {done}")


def check_speed(tally, chosen):
    """The check beside `accept`, over streams of a guest that was written all over."""
    pages, writes = 4096, 20000
    drawn = (record(tick, chosen.randrange(pages), 0, chosen.randbytes(8)) for tick in range(writes))
    text = header(pages, writes, 12) + b"".join(drawn)
    guest = stream_model.Guest(text)
    stream = b"".join(
        frame(page, stamp, content_of(guest, page, stamp))
        for count in range(0, writes + 1, writes // 8)
        for page in range(pages)
        for stamp in [guest.pages[page].version(count)]
    )
    sizes = precopy.check_trace(text)
    flat = precopy.FlatMemory(sizes)
    begin = time.perf_counter()
    flat.accept(stream)
    middle = time.perf_counter()
    found = precopy.check_streams(text, writes, [stream])
    end = time.perf_counter()
    times = f"accept {1000 * (middle - begin):.1f} ms, check {1000 * (end - middle):.1f} ms"
    told = f"{len(stream) >> 20} MiB of frames: {times}"
    print(told, flush=True)
    tally.add(found is None, f"{told}: {found}")


def check(tally):
    planted, number = collections.Counter(), 0
    for chosen in drawn(
        "mistakes in streams", itertools.takewhile(lambda _: planted.total() < TRIALS, itertools.count())
    ):
        with tally.case(str(chosen)) as case:
            if name := trial(chosen, case):
                planted[name] += 1
        number += 1
    tally.add(len(planted) == len(MISTAKES), f"of the mistakes only {sorted(planted)} were planted")
    print(f"mistakes in streams of {number} traces: {dict(planted)}", flush=True)
    with tempfile.TemporaryDirectory() as folder:
        with tally.case("tools/check") as case:
            check_tool(case, folder)
    for chosen in drawn("speed", range(1)):
        with tally.case("the check of streams beside accept") as case:
            check_speed(case, chosen)
