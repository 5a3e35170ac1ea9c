"""Recordings of all of a guest's memory, with the bytes that were written."""

import time

from precopy_tools.formats import traces
from precopy_tools.record import memory
from precopy_tools.record.ticks import spread


class WholeRecorder:
    """Takes samples of a source into a writer. A sample is taken whole or not at all."""

    def __init__(self, source, writer, options):
        self.copy = memory.Copy(source)
        self.writer = writer
        self.options = options
        self.numbers = {} if options.compact else None
        self.samples = 0
        self.last = 0
        self.late = 0
        self.times = []

    def pages(self):
        """How many pages the trace has. It has at least one, even if none was ever written."""
        return max(1, len(self.numbers)) if self.options.compact else self.copy.pages

    def guest_pages(self):
        return self.copy.pages

    def close(self):
        """Nothing is held of the guest."""

    def look(self, tick):
        """What a guest is paused for, if it is: one look at all memory."""
        begun = time.monotonic()
        if tick >= traces.TICKS:
            raise traces.Full("ticks of a trace are below 2^40")
        added = self.copy.added()
        if not self.options.compact:
            self._allow(self.copy.pages + memory.pages_of(added))
        return tick, begun, added, self.copy.look(added)

    def take(self, tick, begun, added, looked):
        """Writes what look() saw. The ticks are after those of the sample before, and at most `tick`."""
        fresh, records, room = {}, [], self.writer.room()[1]
        for chunk, new in looked:
            for page, offset, data in self.copy.changes(chunk, new, self.options.light):
                records.append((self._tick(page, tick), self._number(page, fresh), offset, data))
                room -= traces.RECORD.size + len(data)
            if room < 0:
                raise traces.Full(f"a trace has at most {self.writer.limits.bytes:,} bytes")
        if self.options.spread:
            records.sort(key=lambda record: record[0])
        self.writer.append(records)
        self.copy.grow(added)
        for chunk, new in looked:
            chunk.seen = new
        if self.options.compact:
            self.numbers.update(fresh)
        self.samples += 1
        self.last = tick
        self.times.append(time.monotonic() - begun)

    def _allow(self, pages):
        if pages > self.writer.limits.pages:
            raise traces.Full(f"{pages:,} pages are too many: a trace has at most {self.writer.limits.pages:,}")

    def _number(self, page, fresh):
        """The page's number in the trace: with --compact by its first write."""
        if not self.options.compact:
            return page
        number = self.numbers.get(page)
        if number is None:
            number = fresh.get(page)
        if number is None:
            number = fresh[page] = len(self.numbers) + len(fresh)
            self._allow(number + 1)
        return number

    def _tick(self, page, tick):
        """The tick of a write in this sample; with --spread one of the interval's, by page and sample."""
        return spread(page, self.samples, self.last, tick) if self.options.spread else tick

    def places(self):
        """Runs of pages as (number in the trace, how many, place in the source)."""
        wanted = self.numbers if self.options.compact else range(self.copy.pages)
        run = None
        for number, page in enumerate(wanted):
            place, _ = self.copy.page(page)
            if run and place == run[2] + run[1] * memory.PAGE:
                run = run[0], run[1] + 1, run[2]
                continue
            if run:
                yield run
            run = number, 1, place
        if run:
            yield run

    def image(self):
        """The bytes of the trace's pages as they were last seen."""
        if not self.options.compact:
            yield from (chunk.seen for chunk in self.copy.chunks)
        elif self.numbers:
            yield from (self.copy.page(page)[1] for page in self.numbers)
        else:
            yield bytes(memory.PAGE)
