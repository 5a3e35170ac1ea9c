"""Traces that are written into lent bytes, over random calls: the bytes after each call must be those of
checks/lib/traces.py, and each refusal the first cause, with nothing changed."""

import ctypes
import itertools

import precopy
from checks.lib import traces
from checks.lib.harness import drawn
from precopy_tools.formats import traces as formats

SEQUENCES, CUTS, STRANGE = 300, 12, 300
TOO_LONG, TOO_MANY, SHORT = precopy.Status.TOO_LONG, precopy.Status.TOO_MANY_WRITES, precopy.Status.SHORT_BUFFER
EMPTY = precopy.Status.EMPTY_WRITE
PATTERN, GUARD = 0xA5, 64
LIBRARY, State = precopy._LIBRARY, precopy._interface.Recording


class Room:
    """Bytes that are lent, with others in front of them and behind, which no call may change."""

    def __init__(self, length):
        self.length, self.all = length, bytearray([PATTERN]) * (GUARD + length + GUARD)
        self.held = (ctypes.c_char * len(self.all)).from_buffer(self.all)
        self.lent = ctypes.addressof(self.held) + GUARD, length
        self.state = State(*[PATTERN] * 5)

    def fields(self):
        return tuple(getattr(self.state, name) for name, _ in State._fields_)

    def shown(self):
        return bytes(self.all), self.fields()

    def begin(self, shift, pages):
        return LIBRARY.precopy_record_begin(*self.lent, shift, pages, self.state)

    def write(self, tick, page, offset, data):
        return LIBRARY.precopy_record_write(*self.lent, self.state, tick, page, offset, data, len(data))

    def release(self, tick, page):
        return LIBRARY.precopy_record_release(*self.lent, self.state, tick, page)


class Model:
    """A trace that is written, by docs/FORMATS.md."""

    def __init__(self, shift, pages):
        self.shift, self.pages, self.count, self.last = shift, pages, 0, 0
        self.records = b""

    def text(self):
        return traces.header(self.pages, self.count, self.shift, version=2) + self.records

    def fields(self):
        return 16 + len(self.records), self.last, self.count, self.pages, self.shift

    def refusal_of_begin(self, room):
        name = traces.refusal(traces.header(max(self.pages, 0), 0, min(self.shift, 255), version=2))
        return int(name[1:]) if name else SHORT * (room < 16)

    def refusal(self, tick, page, offset, data, room):
        """The status for a write, or for a release if there are no data at offset None, or 0."""
        if not data and offset is not None:
            return EMPTY
        end, next_one = 16 + len(self.records) + 16 + len(data), self.count + 1
        causes = [(TOO_LONG, end > traces.MOST_BYTES), (TOO_MANY, next_one > traces.MOST_WRITES)]
        causes += [(precopy.Status.TICK_ORDER, tick < self.last), (precopy.Status.TICK_TOO_LARGE, tick >= 1 << 40)]
        causes += [(precopy.Status.PAGE_OUT_OF_RANGE, page >= self.pages)]
        causes += [(precopy.Status.OUT_OF_PAGE, (offset or 0) + len(data) > 1 << self.shift), (SHORT, end > room)]
        return next((status for status, holds in causes if holds), 0)

    def append(self, tick, page, offset, data):
        self.records += traces.record(tick, page, offset or 0, data)
        self.count, self.last = self.count + 1, tick


def near(chosen, *limits):
    """A number at one of these limits, beside it, or anywhere below 2^32."""
    at = chosen.choice(limits) + chosen.randint(-1, 1)
    return chosen.choice([max(at, 0), max(at, 0), chosen.randrange(1 << 32)])


def drawn_call(chosen, model):
    """Tick, page, offset and data of a write that is right in three cases of four, or of a release, whose offset is
    None."""
    size = 1 << min(model.shift, 12)
    tick, page = model.last + chosen.choice([0, 0, 1, chosen.randrange(1 << 20)]), chosen.randrange(model.pages)
    if chosen.randrange(4) == 0:
        return tick, page, None, b""
    offset = chosen.randrange(size)
    data = chosen.randbytes(chosen.randint(1, size - offset))
    if chosen.randrange(4) == 0:
        wrong = chosen.randrange(5)
        tick = chosen.choice([max(tick - 1, 0), (1 << 40) - 1, 1 << 40, (1 << 64) - 1]) if wrong == 0 else tick
        page = near(chosen, model.pages) if wrong == 1 else page
        offset = near(chosen, 0, size, 1 << 16) if wrong == 2 else offset
        data = chosen.choice([b"", chosen.randbytes(size), bytes(size + 1), bytes(70_000)]) if wrong > 2 else data
    return tick, page, offset, data


def called(room, call):
    tick, page, offset, data = call
    return room.release(tick, page) if offset is None else room.write(*call)


def check_call(tally, room, model, call):
    """One call beside the model: what it returns, and all bytes after it."""
    before = room.shown()
    wanted, found = model.refusal(*call, room.length), called(room, call)
    tally.add(found == wanted, f"{call[:3]} with {len(call[3])} bytes after {model.fields()}: {found}, not {wanted}")
    if wanted:
        tally.add(room.shown() == before, f"{call[:3]} is refused with {found}, and changes something")
        return
    model.append(*call)
    text = model.text()
    good = room.all[GUARD : GUARD + len(text)] == text and room.fields() == model.fields()
    behind = GUARD + len(text)
    good = good and room.all[:GUARD] == before[0][:GUARD] and room.all[behind:] == before[0][behind:]
    tally.add(good, f"{call[:3]} with {len(call[3])} bytes leaves other bytes")


def check_begin(tally, room, shift, pages):
    """A trace that is begun, or None."""
    before, model = room.shown(), Model(shift, pages)
    wanted, found = model.refusal_of_begin(room.length), room.begin(shift, pages)
    tally.add(found == wanted, f"begun with {shift}, {pages} in {room.length} bytes: {found}, not {wanted}")
    if wanted:
        tally.add(room.shown() == before, f"begun with {shift}, {pages} is refused, and changes something")
        return None
    made = bytes(room.all[:GUARD]) + model.text() + before[0][GUARD + 16 :]
    tally.add(bytes(room.all) == made and room.fields() == model.fields(), f"begun with {shift}, {pages}: other bytes")
    return model


def check_sequence(tally, chosen):
    """Calls over one room, which ends somewhere among them."""
    sizes = near(chosen, 4, 8, 12), near(chosen, 1, 3, 65_536)
    check_begin(tally, Room(chosen.choice([0, 15, 16, 100])), *sizes)
    model = check_begin(tally, room := Room(chosen.randint(16, 20_000)), chosen.randint(4, 12), chosen.randint(1, 9))
    for _ in range(chosen.randint(1, 60)):
        check_call(tally, room, model, drawn_call(chosen, model))
    text = bytes(room.all[GUARD : GUARD + room.state.length])
    sizes, read = precopy.check_trace(text), list(formats.read(text).records())
    tally.add((sizes.shift, sizes.pages, sizes.writes) == (model.shift, model.pages, len(read)), "the sizes at the end")


def check_cuts(tally, chosen):
    """The same calls in each room that is too short for them."""
    model, calls = Model(4, 3), []
    while len(model.records) < 120:
        call = drawn_call(chosen, model)
        if not model.refusal(*call, 1 << 28):
            model.append(*call)
            calls.append(call)
    for length in range(len(model.text()) + 2):
        cut = check_begin(tally, room := Room(length), 4, 3)
        for call in calls if cut else ():
            check_call(tally, room, cut, call)


def check_strange(tally, chosen):
    """A recording that no call left: whatever is answered, only lent bytes are written, and a refusal changes none."""
    room = Room(chosen.choice([0, 1, 11, 12, 15, 16, 17, 31, 32, 33, 300]))
    wide = [0, 1, 16, room.length, room.length - 16, (1 << 28) - 16, (1 << 63) - 1, (1 << 64) - 17, (1 << 64) - 1]
    narrow = [0, 1, 4, 12, 13, 63, 64, 65_536, (1 << 20) - 1, 1 << 20, (1 << 32) - 1]
    wide, narrow = [max(it, 0) for it in wide], [*narrow, chosen.randrange(1 << 32)]
    room.state = State(chosen.choice(wide), chosen.choice(wide), *(chosen.choice(narrow) for _ in range(3)))
    before, offset = room.shown(), chosen.choice([None, 0, 1, 16, (1 << 32) - 1])
    data = b"" if offset is None else bytes(chosen.choice([0, 1, 16, 17, 400]))
    found = called(room, (chosen.choice(wide), chosen.choice(narrow), offset, data))
    edges = room.all[:GUARD] + room.all[GUARD + room.length :]
    tally.add(edges == bytes([PATTERN]) * (2 * GUARD), f"{before[1]}: {found}, and bytes beside the lent ones change")
    tally.add(found == 0 or room.shown() == before, f"{before[1]} is refused with {found}, and changes something")


def check_most(tally):
    """The most writes, and the most bytes."""
    room, call = Room(16 + 17 * traces.MOST_WRITES), (1, 0, 0, b"x")
    found = {room.begin(4, 1), *(room.write(*call) for _ in range(traces.MOST_WRITES))}
    tally.add(found == {0} and room.write(*call) == TOO_MANY, f"2^20 writes: {found}")
    tally.add(room.release(0, 9) == TOO_MANY, "too many writes, before a tick and a page")
    most, last = divmod(traces.MOST_BYTES - 16, 4_112)
    room = Room(traces.MOST_BYTES + 1)
    found = {room.begin(12, 1), *(room.write(1, 0, 0, bytes(4_096)) for _ in range(most))}
    tally.add(found == {0} and room.write(1, 0, 0, bytes(last - 15)) == TOO_LONG, f"2^28 bytes: {found}")
    tally.add(room.write(0, 0, 0, bytes(last - 15)) == TOO_LONG, "too long, before the order of ticks")
    tally.add(room.write(1, 0, 0, bytes(last - 16)) == 0, "a trace of 2^28 bytes")
    tally.add(room.state.length == traces.MOST_BYTES, f"the longest trace has {room.state.length} bytes")


def check_class(tally, chosen):
    """The same by `Recording`, which has room for all."""
    made, model = precopy.Recording(8, 5), Model(8, 5)
    for _ in range(chosen.randint(1, 80)):
        tick, page, offset, data = call = drawn_call(chosen, model)
        wanted, status, named = model.refusal(*call, traces.MOST_BYTES), 0, None
        try:
            made.release(tick, page) if offset is None else made.write(tick, page, offset, data)
        except precopy.TraceRefused as refused:
            status, named = refused.status, refused.record
        record = model.count if precopy.Status.TICK_ORDER <= wanted <= precopy.Status.OUT_OF_PAGE else None
        tally.add((status, named) == (wanted, record), f"{call[:3]}: {status}, {named}, not {wanted}, {record}")
        if not wanted:
            model.append(*call)
        tally.add(bytes(made) == model.text(), f"{call[:3]} leaves other bytes")


def check_words(tally):
    """What no recording is made of, and what is no number."""
    for shift, pages in itertools.product((3, 4, 12, 13, 300), (0, 1, 65_536, 65_537)):
        status = Model(shift, pages).refusal_of_begin(16)
        try:
            found = bytes(precopy.Recording(shift, pages)) == Model(shift, pages).text()
        except precopy.TraceRefused as refused:
            found = refused.status == status and status
        tally.add(found, f"a recording with {shift}, {pages}: {found}")
    made = precopy.Recording(4, 4)
    for fault, words in (
        (OverflowError, (-1, 0, 0, b"x")),
        (OverflowError, (0, 1 << 32, 0, b"x")),
        (TypeError, (0, 0, 0, 5)),
    ):
        try:
            made.write(*words)
            tally.add(False, f"{words} is written")
        except fault:
            tally.add(bytes(made) == Model(4, 4).text(), f"{words} changes something")


def check(tally):
    for kind, numbers, part in (
        ("traces that are written", SEQUENCES, check_sequence),
        ("traces that are written in each room", CUTS, check_cuts),
        ("recordings that no call left", STRANGE, check_strange),
        ("recordings in Python", SEQUENCES, check_class),
    ):
        for chosen in drawn(kind, range(numbers)):
            with tally.case(str(chosen)) as case:
                part(case, chosen)
    with tally.case("the most that is written") as case:
        check_most(case)
    with tally.case("words of a recording") as case:
        check_words(case)
