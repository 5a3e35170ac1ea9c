"""Writes of pages, and memory that is brought on from place to place, over random traces. stream_model.py works them
out from the bytes of the trace."""

import precopy
from checks.lib import stream_model
from checks.lib.harness import drawn
from checks.lib.traces import generated
from checks.library.open_traces import status_of

TRACES = 150
NO_PAGE, BACKWARDS = 67, 68


def check_page(tally, opened, guest, number):
    page = guest.pages[number]
    rows = [precopy.Write(place, tick, at, len(data)) for place, (tick, at, data) in zip(page.places, page.writes)]
    found = opened.page_writes(number)
    tally.add(found == rows, f"writes to page {number}: {found}, not {rows}")


def check_steps(tally, opened, guest, chosen):
    """Memory from place to place, each step in the memory that the last one left."""
    places = sorted(chosen.randint(0, guest.write_count + 2) for _ in range(6))
    memory = bytearray(len(guest.pages) * guest.size)
    for start, end in zip([0, *places], [*places, (1 << 32) - 1]):
        opened.memory_step(start, end, memory)
        tally.add(memory == guest.memory_after(end), f"memory from {start} to {end}")
    for place in places:
        found, wanted = status_of(opened.memory_step, place + 1, place, memory), BACKWARDS
        tally.add(found == wanted, f"memory from {place + 1} to {place}: {found}")
    # What was in memory stays where no write comes.
    start, end = sorted(chosen.randint(0, guest.write_count) for _ in range(2))
    old = bytearray(chosen.randbytes(len(memory)))
    memory = bytearray(old)
    opened.memory_step(start, end, memory)
    for number, page in enumerate(guest.pages):
        for place, (_, offset, data) in zip(page.places, page.writes):
            if start < place <= end:
                data = data or bytes(guest.size)
                at = number * guest.size + offset
                old[at : at + len(data)] = data
    tally.add(memory == old, f"other memory from {start} to {end}")


def check(tally):
    for chosen in drawn("places in traces", range(TRACES)):
        with tally.case(str(chosen)) as case:
            check_trace(case, generated(chosen), chosen)


def check_trace(tally, trace, chosen):
    guest, opened = stream_model.Guest(trace), precopy.OpenTrace(trace)
    numbers = range(len(guest.pages))
    for number in chosen.sample(numbers, min(len(numbers), 5)):
        check_page(tally, opened, guest, number)
    check_steps(tally, opened, guest, chosen)
    for number in (len(numbers), chosen.randrange(len(numbers), 1 << 32)):
        found = status_of(opened.page_writes, number)
        tally.add(found == NO_PAGE, f"writes to page {number} of {len(numbers)}: {found}")
