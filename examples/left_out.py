#!/usr/bin/env python3
"""A migration with a bug, and how the reference finds it.

    examples/left_out.py TRACE [--mended]

It needs the module of bindings/python: installed, or by `export PYTHONPATH=bindings/python` after `make lib`.

It migrates the guest of a trace by the planned rounds: a round sends the pages that the round before left dirty, as
they are when it begins. The log of dirty pages has a bug: a write at the tick at which a round begins is not seen. At
the stop the memory that arrived is compared with the memory before that tick. --mended leaves the bug out.
"""

import sys

import precopy


def is_seen(tick, start, mended):
    """Whether the log of a round that begins at a tick has a write at another: the bug is `<` in place of `<=`."""
    return start <= tick if mended else start < tick


def dirty_pages(trace, start, end, mended):
    """The pages that are written from one tick on and before another, by the log."""
    ticks = ((page, it.tick) for page in range(trace.pages) for it in trace.page_writes(page))
    return {page for page, tick in ticks if is_seen(tick, start, mended) and tick < end}


def send(trace, flat, pages, tick):
    """Sends pages as they are before a tick, each with the place of the last write in it as its stamp."""
    memory, stamps, size = trace.memory_before(tick), trace.versions_before(tick), flat.sizes.page_length
    for page in sorted(pages):
        content = bytes(memory[page * size : (page + 1) * size])
        flat.accept(precopy.encode_frame(flat.sizes, page, stamps[page], content))


def migrate(trace, settings, mended):
    """Returns the memory that arrives, and the tick at which the guest is stopped."""
    flat = precopy.FlatMemory(precopy.Sizes(trace.shift, trace.pages, trace.writes))
    due, stop = set(range(trace.pages)), settings.start
    for it in trace.rounds(settings):
        send(trace, flat, due, it.start)
        due, stop = dirty_pages(trace, it.start, it.end, mended), it.end
    send(trace, flat, due, stop)
    return flat, stop


def main(words):
    with open(words[0], "rb") as file:
        trace = precopy.OpenTrace(file.read())
    flat, stop = migrate(trace, precopy.Settings(min=500, max=4000, threshold=6), "--mended" in words)
    wanted, size = trace.memory_before(stop), flat.sizes.page_length
    wrong = [at // size for at in range(0, len(wanted), size) if flat.memory[at : at + size] != wanted[at : at + size]]
    for page in wrong:
        it = [it for it in trace.page_writes(page) if it.tick < stop][-1]
        print(f"page {page} arrived as write {flat.stamp(page)} left it, and write {it.place} came at tick {it.tick}")
    if not wrong:
        print(f"equal at the stop, tick {stop}")
    return 1 if wrong else 0


if __name__ == "__main__":
    sys.exit(main(sys.argv[1:]))
