"""Pages that come without stamps, destinations with a base, and memory that is compared, over random traces: what the
library takes, refuses and finds must be what checks/lib/unstamped_model.py works out from the bytes."""

import ctypes

import precopy
from checks.lib import stream_model, stream_rows
from checks.lib.harness import drawn
from checks.lib.traces import generated, header, record
from checks.lib.unstamped_model import Destination, Pages, difference
from checks.library import streams

TAKES, MIGRATIONS, MEMORIES, WARM_STREAMS = 200, 600, 200, 300
OK, OTHER_BYTES = 0, 74


def repeating(chosen):
    """A trace of a small guest that releases pages, writes bytes that are there already, and takes pages back to what
    they were before."""
    pages, ticks = chosen.randint(1, 5), sorted(chosen.randrange(12) for _ in range(chosen.choice([0, 3, 12, 40])))
    text = header(pages, len(ticks), 4, version=2)
    for tick in ticks:
        offset = chosen.choice([0, 0, 3, 15])
        data = bytes([chosen.choice([0, 1, 2])]) * chosen.choice([1, 16 - offset])
        if chosen.random() < 0.2:
            offset, data = 0, b""
        text += record(tick, chosen.randrange(pages), offset, data)
    return text


def drawn_trace(chosen):
    return repeating(chosen) if chosen.random() < 0.7 else generated(chosen)


def drawn_base(chosen, pages, stop):
    """A tick before which no write is after the stop, or None."""
    ticks = [at for at, *_ in pages.records[:stop]]
    return chosen.choice([None, 0, *ticks])


# ---- Single calls, which may be refused one after the other.


class Lent:
    """What the calls of C are lent, as a program in C lends it."""

    def __init__(self, trace):
        self.opened = precopy.OpenTrace(trace)
        pages = self.opened.pages
        self.words = (ctypes.c_uint32 * pages)(*range(7, 7 + pages))
        self.memory = ctypes.create_string_buffer(b"\7" * (pages << self.opened.shift), pages << self.opened.shift)

    def both(self):
        return self.words, len(self.words), ctypes.addressof(self.memory), len(self.memory)

    def clear(self):
        ctypes.memset(self.words, 0, ctypes.sizeof(self.words))
        ctypes.memset(self.memory, 0, len(self.memory))

    def begin(self, tick):
        return precopy._LIBRARY.precopy_trace_check_base(self.opened._trace, tick, *self.both())

    def take(self, stop, page, content):
        bytes_of_page = ctypes.create_string_buffer(content, len(content))
        lent = ctypes.addressof(bytes_of_page), len(content)
        return precopy._LIBRARY.precopy_trace_check_bytes(self.opened._trace, stop, page, *lent, *self.both())


def some_content(chosen, pages, number):
    """Bytes that the page has at some time, or that are near them."""
    content = bytearray(chosen.choice(pages.versions[number])[1])
    if chosen.random() < 0.2:
        content[chosen.randrange(pages.size)] ^= 1 << chosen.randrange(8)
    return bytes(content)


def check_takes(tally, chosen):
    trace = drawn_trace(chosen)
    pages, lent = Pages(trace), Lent(trace)
    stop = chosen.choice([chosen.randint(0, len(pages.records)), (1 << 32) - 1])
    base = chosen.choice([None, (1 << 64) - 1, drawn_base(chosen, pages, stop)])
    if base is None:
        lent.clear()
    else:
        tally.add(lent.begin(base) == OK, f"a check with the base {base} is refused")
    destination = Destination(pages, stop, base)
    for turn in range(40):
        good = [*lent.words] == destination.words() and lent.memory.raw == destination.memory()
        tally.add(good, f"after {turn} pages: words {[*lent.words]}, not {destination.words()}, or other memory")
        number = chosen.randrange(len(pages.versions))
        content = some_content(chosen, pages, number)
        wanted = OK if destination.take(number, content) else OTHER_BYTES
        found = lent.take(stop, number, content)
        tally.add(found == wanted, f"page {number} with {content.hex()}: {found}, not {wanted}")


# ---- Migrations: pages come in some order, and the last of each at its version at the stop.


def right_pages(chosen, pages, stop, base):
    """Numbers and bytes of pages, with the place that each was read at. Without a base each page comes; with one, those
    that are written from there to the stop."""
    first = 0 if base is None else pages.writes_before(base)
    sent = []
    for number in range(len(pages.versions)):
        if base is not None and pages.at(number, first)[0] == pages.at(number, stop)[0] and chosen.random() < 0.8:
            continue
        reads = sorted(chosen.randint(first, stop) for _ in range(chosen.randint(0, 3)))
        places = sorted(chosen.choices(range(len(sent) + 1), k=len(reads) + 1))
        for added, (place, read) in enumerate(zip(places, [*reads, stop])):
            sent.insert(place + added, (number, read, pages.at(number, read)[1]))
    return sent


def left_out(chosen, pages, stop, sent, at):
    """The page does not come as it is at the stop."""
    del sent[max(place for place, it in enumerate(sent) if it[0] == sent[at][0])]


def older(chosen, pages, stop, sent, at):
    """The page as it was before, late."""
    number, read, _ = sent[at]
    sent.insert(at + 1, (number, 0, pages.at(number, chosen.randint(0, read))[1]))


def after_stop(chosen, pages, stop, sent, at):
    number, _, _ = sent[at]
    count = chosen.randint(stop, len(pages.records))
    sent[at] = number, count, pages.at(number, count)[1]


def other_byte(chosen, pages, stop, sent, at):
    number, read, content = sent[at]
    changed = bytearray(content)
    changed[chosen.randrange(pages.size)] ^= 1 << chosen.randrange(8)
    sent[at] = number, read, bytes(changed)


MISTAKES = [left_out, older, after_stop, other_byte]


def taken(check, sent):
    """What a check of pages without stamps finds."""
    for number, _, content in sent:
        check.take_page(number, content)
    return check.finish()


def wanted_of(pages, stop, base, sent):
    """What it is to find: the first page that is refused, or else the difference at the stop."""
    destination = Destination(pages, stop, base)
    for number, _, content in sent:
        if not destination.take(number, content):
            return "page", number, destination.taken[number][0] or 0, pages.at(number, stop)[0]
    found = difference(pages, stop, destination.memory())
    return found and ("memory", *found)


def told(found):
    if found is None:
        return None
    if isinstance(found, precopy.Unstamped):
        return "page", found.page, found.stamp, found.wanted
    return "memory", found.offset, found.page, found.wanted, found.missing, found.tick


def migration(chosen, tally):
    """Plants a mistake in a migration of a random trace. Returns which, or None if nothing is wrong with it."""
    trace = drawn_trace(chosen)
    pages, opened = Pages(trace), precopy.OpenTrace(trace)
    stop = chosen.randint(0, len(pages.records))
    base = drawn_base(chosen, pages, stop)
    sent = right_pages(chosen, pages, stop, base)
    check = opened.check(stop, base)
    found = taken(check, sent)
    tally.add(found is None or not sent, f"{found} where nothing was planted, with the base {base}")
    tally.add(not sent or check._memory.raw == pages.memory(stop), "memory of a right migration")
    if not sent:
        return None
    mistake, at = chosen.choice(MISTAKES), chosen.randrange(len(sent))
    number = sent[at][0]
    mistake(chosen, pages, stop, sent, at)
    if not sent:
        return None
    found, wanted = taken(opened.check(stop, base), sent), wanted_of(pages, stop, base, sent)
    name = f"{mistake.__name__} of page {number}, with the base {base}"
    tally.add(told(found) == wanted, f"{name}: the library finds {told(found)}, and the model {wanted}")
    if wanted is None:
        return None
    tally.add(found.page == number, f"{name}: page {found.page} is named")
    return mistake.__name__


def check_migrations(tally):
    planted = []
    for chosen in drawn("pages without stamps", range(MIGRATIONS)):
        with tally.case(str(chosen)) as case:
            planted.append(migration(chosen, case))
    few = [it.__name__ for it in MISTAKES if planted.count(it.__name__) < MIGRATIONS // 60]
    tally.add(not few, f"of {few} few were wrong")


# ---- Streams of frames to a destination with a base.


def check_warm_streams(tally, chosen):
    """Pages that are not written from the base to the stop are left out, or come; and a mistake may be planted."""
    trace = generated(chosen)
    guest = stream_model.Guest(trace)
    stop = chosen.randint(0, guest.write_count)
    base = chosen.choice([0, *guest.ticks[:stop]])
    first, sent = guest.writes_before(base), streams.right_streams(chosen, guest, stop)
    same = {number for number, page in enumerate(guest.pages) if page.version(first) == page.version(stop)}
    sent = [[it for it in stream if it[0] not in same or chosen.random() < 0.3] for stream in sent]
    texts = streams.texts_of(guest, sent)
    found = streams.in_any_order(chosen, trace, stop, [b"".join(it) for it in texts], base)
    tally.add(found is None, f"{found} where nothing was planted, with the base {base}")
    if not any(sent):
        return
    at = chosen.choice([at for at, it in enumerate(sent) if it])
    mistake = chosen.choice(streams.MISTAKES)
    mistake(chosen, guest, sent, texts, at, chosen.randrange(len(sent[at])))
    texts = [b"".join(it) for it in texts]
    found = stream_rows.told_by_library(streams.in_any_order(chosen, trace, stop, texts, base))
    wanted = stream_rows.told_by_model(stream_model.first_wrong(guest, stop, texts, base))
    tally.add(found == wanted, f"{mistake.__name__}, with the base {base}: {found}, and the model {wanted}")


# ---- Memory.


def check_memory(tally, chosen):
    trace = drawn_trace(chosen)
    pages, opened = Pages(trace), precopy.OpenTrace(trace)
    for _ in range(10):
        count = chosen.choice([chosen.randint(0, len(pages.records)), (1 << 32) - 1])
        memory = bytearray(pages.memory(chosen.choice([count, chosen.randint(0, len(pages.records))])))
        for _ in range(chosen.randint(0, 2)):
            memory[chosen.randrange(len(memory))] ^= 1 << chosen.randrange(8)
        before = bytes(memory)
        found, wanted = told(opened.difference(count, memory)), difference(pages, count, before)
        tally.add(found == (wanted and ("memory", *wanted)), f"memory after {count} writes: {found}, not {wanted}")
        tally.add(bytes(memory) == before, "memory that is compared has changed")


def check(tally):
    for what, count, part in (
        ("single pages without stamps", TAKES, check_takes),
        ("streams with a base", WARM_STREAMS, check_warm_streams),
        ("memory that is compared", MEMORIES, check_memory),
    ):
        for chosen in drawn(what, range(count)):
            with tally.case(str(chosen)) as case:
                part(case, chosen)
    check_migrations(tally)
