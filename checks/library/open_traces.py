"""Traces that stay open, over random traces: what they answer must be what stream_model.py works out from the bytes.
Plans and reports, memory after all writes, and the refusals of damaged traces are those of the calls over bytes. No
call changes the bytes or the words of the index, and eight threads are answered as one is."""

import concurrent.futures

import precopy
from checks.lib import stream_model
from checks.lib.harness import drawn
from checks.lib.traces import damaged, generated
from checks.library import traces

TRACES, DAMAGED = 150, 150
NO_PAGE, NO_VERSION = 67, 71


def status_of(call, *words):
    """The status with which a call refuses, with the record that it names, or what it returns."""
    try:
        return call(*words)
    except precopy.TraceRefused as refused:
        return refused.status, refused.record
    except precopy.Refused as refused:
        return refused.status


def check_page(tally, opened, guest, number, chosen):
    page = guest.pages[number]
    places = {0, 1, guest.write_count, guest.write_count + 1, chosen.randrange(1 << 32), *page.places}
    for place in sorted(places, key=lambda _: chosen.random()):
        found, wanted = opened.version_after(number, place), page.version(place)
        tally.add(found == wanted, f"page {number} after {place} writes: version {found}, not {wanted}")
        found = status_of(opened.page_at, number, place)
        wanted = bytes(page.after(place)) if page.version(place) == place else NO_VERSION
        tally.add(found == wanted, f"page {number} at {place}: {found}, not {wanted}")


def check_all(tally, opened, guest, chosen):
    """All pages, after some writes and before some ticks."""
    drawn_places = (chosen.randint(0, guest.write_count + 2) for _ in range(3))
    for count in {0, guest.write_count, (1 << 32) - 1, *drawn_places}:
        found, wanted = opened.versions_after(count), [it.version(count) for it in guest.pages]
        tally.add(found == wanted, f"versions after {count} writes: {found}, not {wanted}")
    ticks = sorted(tick for page in guest.pages for tick, _, _ in page.writes)
    drawn_ticks = {tick + chosen.randint(0, 1) for tick in chosen.sample(ticks, min(len(ticks), 4))}
    for tick in {0, (1 << 64) - 1, *drawn_ticks}:
        count = sum(it < tick for it in ticks)
        found = opened.writes_before(tick)
        tally.add(found == count, f"writes before tick {tick}: {found}, not {count}")
        found, wanted = opened.versions_before(tick), [it.version(count) for it in guest.pages]
        tally.add(found == wanted, f"versions before tick {tick}: {found}, not {wanted}")
        found = opened.memory_before(tick)
        tally.add(found == guest.memory_after(count), f"memory before tick {tick}")


def question(opened, chosen):
    """A question about a trace, of which all pages were recorded or a part of them."""
    page, guest = 1 << opened.shift, opened.pages * chosen.choice([1, 3])
    how = {"page": page, "sampled": opened.pages, "guest": guest, "clark": chosen.random() < 0.5}
    return precopy.Question(link=page * chosen.choice([50, 1000, 20_000]), downtime=5000, **how)


def answering(opened, guest, chosen):
    """Calls over an open trace: each with a name, for the same answer as often as it is made."""
    settings, asked = traces.settings(chosen), question(opened, chosen)
    count, page = chosen.randint(0, opened.writes), chosen.randrange(opened.pages)
    memory, every = opened.memory_before(1 << 40), max(1, max(guest.ticks, default=0) // 5)

    def stepped():
        room = bytearray(len(memory))
        opened.memory_step(0, count, room)
        return room

    last = opened.version_after(page, opened.writes)
    yield "plan", lambda: opened.plan(settings)
    yield "report", lambda: opened.report(settings)
    yield "rounds", lambda: opened.rounds(settings)
    yield "sweep", lambda: opened.sweep(traces.cases_like(settings))
    for name in ("predict", "agreement", "enough", "forecast", "link_shares"):
        yield name, lambda call=getattr(opened, name): call(asked)
    yield "best_start", lambda: opened.best_start(asked, None, every)
    yield "memory_before", lambda: opened.memory_before(count)
    yield "memory_step", stepped
    yield "writes_before", lambda: opened.writes_before(count)
    yield "page_writes", lambda: opened.page_writes(page)
    yield "version_after", lambda: opened.version_after(page, count)
    yield "versions_after", lambda: opened.versions_after(count)
    yield "versions_before", lambda: opened.versions_before(count)
    yield "page_at", lambda: opened.page_at(page, last)
    yield "difference", lambda: opened.difference(count, memory)
    yield "check", lambda: opened.check(count, 0).finish()


def check_alike(tally, opened, trace, chosen):
    """What is asked of bytes and of the open trace has one answer."""
    for settings in (traces.settings(chosen), precopy.Settings()):
        found, wanted = opened.plan(settings), precopy.plan(trace, settings)
        tally.add(found == wanted, f"the plan of an open trace: {found}, not {wanted}")
        found, wanted = opened.report(settings), precopy.report(trace, settings)
        tally.add(found == wanted, f"the report on an open trace: {found}, not {wanted}")
    found, wanted = opened.memory_before((1 << 64) - 1), precopy.memory(trace)
    tally.add(found == wanted, "memory after all writes to an open trace")


def check_threads(tally, opened, guest, chosen):
    """One trace for eight threads at once, each of which makes all calls in an order of its own."""
    calls = dict(answering(opened, guest, chosen))
    wanted = {name: call() for name, call in calls.items()}
    orders = [chosen.sample([*calls], len(calls)) for _ in range(8)]
    with concurrent.futures.ThreadPoolExecutor(8) as threads:
        found = threads.map(lambda order: {name: calls[name]() for name in order}, orders)
        tally.add(all(it == wanted for it in found), "eight threads over an open trace")


def check_trace(tally, trace, chosen):
    held = bytearray(trace)
    guest, opened = stream_model.Guest(trace), precopy.OpenTrace(held)
    words, handle = bytes(opened._words), bytes(opened._trace)
    sizes = precopy.check_trace(trace)
    found = opened.shift, opened.pages, opened.writes
    tally.add(found == (sizes.shift, sizes.pages, sizes.writes), f"sizes {found}, not {sizes}")
    numbers = range(len(guest.pages))
    for number in chosen.sample(numbers, min(len(numbers), 5)):
        check_page(tally, opened, guest, number, chosen)
    check_all(tally, opened, guest, chosen)
    check_alike(tally, opened, trace, chosen)
    check_threads(tally, opened, guest, chosen)
    for number in (len(numbers), chosen.randrange(len(numbers), 1 << 32)):
        found = {status_of(opened.version_after, number, 1), status_of(opened.page_at, number, 0)}
        tally.add(found == {NO_PAGE}, f"page {number} of {len(numbers)}: {found}")
    tally.add(held == trace, "the bytes of an open trace changed")
    tally.add(bytes(opened._words) == words and bytes(opened._trace) == handle, "the words of an open trace changed")


def check_damaged(tally, trace):
    wanted = status_of(precopy.check_trace, trace)
    found = status_of(precopy.OpenTrace, trace)
    if isinstance(wanted, precopy.Sizes):
        tally.add(isinstance(found, precopy.OpenTrace), f"a trace is not opened: {found}")
    else:
        tally.add(found == wanted, f"a damaged trace is refused with {found}, not {wanted}")


def check(tally):
    for chosen in drawn("open traces", range(TRACES)):
        with tally.case(str(chosen)) as case:
            check_trace(case, generated(chosen), chosen)
    for chosen in drawn("damaged traces that are opened", range(DAMAGED)):
        with tally.case(str(chosen)) as case:
            check_damaged(case, damaged(chosen, generated(chosen)))
