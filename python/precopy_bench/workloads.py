"""Makes the traces of the benchmark: the same bytes for the same seed.

    bench/workloads [--traces DIR] [--seed N] [--recorded] [--list] [NAME..]

Without names it makes those of docs/MEASUREMENTS.md and of the growth tables: 1.1 GB. --recorded adds gzip and sort,
the stores of these programs under valgrind, which must be installed. The names small-* are for short runs. An
existing trace with this seed stays. DIR/manifest.json has the sizes of each trace and its SHA-256.
"""

import bisect
import hashlib
import itertools
import json
import os
import random
import shutil
import struct
import subprocess
import sys
import tempfile
from dataclasses import dataclass

from precopy_bench.programs import TRACES
from precopy_dev.files import read_json
from precopy_dev.words import parser_of

LONGEST = 1 << 28
MOST_WRITES = 1 << 20
MOST_PAGES = 1 << 16
SEED = 2005
POOL = 1 << 20
ZIPF = 0.99
RECORD = struct.Struct("<QIHH")


class Fault(Exception):
    """What ends the program with a line."""


@dataclass(frozen=True)
class Workload:
    kind: str
    shift: int
    pages: int
    writes: int
    ticks: int
    # The workload whose draws these are, if not its own.
    draws: str = ""

    def smaller(self, by):
        draws = f"small-{self.draws}" if self.draws else ""
        return Workload(self.kind, self.shift, self.pages // by, self.writes // by, self.ticks // by, draws)


# Sixteen writes take ten ticks in most traces.
MAIN = {
    "uniform": Workload("uniform", 12, 1 << 16, 1 << 20, 655_360),
    "zipf": Workload("zipf", 12, 1 << 16, 1 << 20, 655_360),
    "seq": Workload("seq", 12, 1 << 13, 1 << 20, 81_920),
    "phase": Workload("phase", 12, 1 << 16, 1 << 20, 655_360),
    "big": Workload("big", 12, 1 << 16, 65_280, 131_072),
    "full": Workload("full", 12, 1 << 15, 1 << 20, 327_680),
    "tiny": Workload("uniform", 4, 1 << 16, 1 << 20, 655_360),
    "released": Workload("released", 12, 1 << 16, 1 << 20, 655_360),
    "kept": Workload("kept", 12, 1 << 16, 1 << 20, 655_360, "released"),
}
GROWTH = {
    **{f"writes-{k}": Workload("uniform", 12, 1 << 10, 1 << k, (1 << k) * 10 // 16) for k in (14, 16, 18, 20)},
    **{f"pages-{k}": Workload("uniform", 12, 1 << k, 1 << 18, 163_840) for k in (10, 12, 14, 16)},
}
# So short that a program over it does little more than start.
SHORT = {"short": Workload("uniform", 12, 16, 16, 10)}
SMALL = {f"small-{name}": it.smaller(64) for name, it in MAIN.items()}
MADE = {**MAIN, **GROWTH, **SHORT, **SMALL}

# ---- Made traces. Only random() is drawn from, since Python promises its numbers for a seed and no others.


class Dice:
    def __init__(self, seed, name):
        self.unit = random.Random(f"{seed} {name}").random

    def below(self, limit):
        return int(self.unit() * limit)

    def shuffled(self, count):
        items = list(range(count))
        for i in range(count - 1, 0, -1):
            j = self.below(i + 1)
            items[i], items[j] = items[j], items[i]
        return items


def short(dice, size):
    """A length of 1 to 16 bytes."""
    return 1 + dice.below(min(16, size))


def uniform(dice, it, size):
    while True:
        length = short(dice, size)
        yield dice.below(it.pages), dice.below(size - length + 1), length


def ranked(dice, it):
    """Pages of which the one at rank k comes as often as 1 / k ** 0.99."""
    order = dice.shuffled(it.pages)
    sums = list(itertools.accumulate((k + 1) ** -ZIPF for k in range(it.pages)))
    while True:
        yield order[min(bisect.bisect_left(sums, dice.unit() * sums[-1]), it.pages - 1)]


def zipf(dice, it, size):
    for page in ranked(dice, it):
        length = short(dice, size)
        yield page, dice.below(size - length + 1), length


def seq(dice, it, size):
    """64 bytes after 64 bytes, over all pages and again."""
    for i in itertools.count():
        yield i * 64 // size % it.pages, i * 64 % size, 64


def phase(dice, it, size):
    """Eight hot sets in turn, each of a thirty-second of the pages; a tenth of the writes go anywhere."""
    order = dice.shuffled(it.pages)
    for i in itertools.count():
        first = i * 8 // it.writes * it.pages // 8
        is_hot = dice.unit() < 0.9
        page = order[(first + dice.below(it.pages // 32)) % it.pages] if is_hot else dice.below(it.pages)
        length = short(dice, size)
        yield page, dice.below(size - length + 1), length


def big(dice, it, size):
    while True:
        yield dice.below(it.pages), 0, size


def full(dice, it, size):
    """Lengths so mixed that the most writes come to nearly the longest trace."""
    for page in ranked(dice, it):
        length = 1 + dice.below(64 if dice.unit() < 0.875 else 3328)
        yield page, dice.below(size - length + 1), length


def released(dice, it, size, kept=False):
    """As uniform, but half of the writes are releases. If pages are kept, each is a write of one byte."""
    releases = it.writes // 2
    for left in range(it.writes, 0, -1):
        page, length = dice.below(it.pages), short(dice, size)
        offset = dice.below(size - length + 1)
        is_release = dice.below(left) < releases
        releases -= is_release
        yield (page, offset, length) if not is_release else (page, offset, 1) if kept else (page, 0, 0)


def kept(dice, it, size):
    return released(dice, it, size, kept=True)


KINDS = {it.__name__: it for it in (uniform, zipf, seq, phase, big, full, released, kept)}


def records(dice, it):
    """Tick, page, offset and bytes of each write. An eighth of the whole pages are zeros."""
    size = 1 << it.shift
    pool = bytes(dice.below(256) for _ in range(POOL))
    at, step = 0.0, 2 * it.ticks / it.writes
    for i, (page, offset, length) in enumerate(itertools.islice(KINDS[it.kind](dice, it, size), it.writes)):
        begin = dice.below(POOL - length)
        are_zeros = it.kind == "big" and dice.unit() < 0.125
        yield int(at), page, offset, bytes(length) if are_zeros else pool[begin : begin + length]
        pace = (0.25, 1.75)[i * 8 // it.writes % 2] if it.kind == "phase" else 1
        at += dice.unit() * step * pace


# ---- Recorded traces: what lackey, a tool of valgrind, reports about each store.

SKIPPED = 100_000
INSTRUCTIONS_A_TICK = 64


def text_input(seed):
    """What gzip packs: about 4 MB of words."""
    dice = Dice(seed, "text")
    words = ["".join("etaoinshrdlucmf"[dice.below(15)] for _ in range(2 + dice.below(8))) for _ in range(3000)]
    return " ".join(words[int(3000 * dice.unit() ** 2)] for _ in range(600_000)).encode()


def lines_input(seed):
    """What sort sorts: 200,000 lines."""
    dice = Dice(seed, "lines")
    return b"".join(b"%08x line %d\n" % (dice.below(1 << 32), i) for i in range(200_000))


RECORDED = {"gzip": (["gzip", "-c"], text_input), "sort": (["sort", "--parallel=1", "-S", "64M"], lines_input)}


def stores(lines):
    """Tick, address and length of each store, after the first ones, by which a program starts."""
    instructions, left = 0, SKIPPED
    for line in lines:
        if line.startswith(b"I"):
            instructions += 1
        elif line.startswith((b" S", b" M")):
            if left:
                left -= 1
                instructions = 0
                continue
            address, _, length = line[3:].partition(b",")
            yield instructions // INSTRUCTIONS_A_TICK, int(address, 16), int(length)


def recorded_records(lines, dice):
    """The stores as writes to pages in the order of their first store. Lackey shows no data; a third are zeros."""
    pages = {}
    pool = bytes(dice.below(256) for _ in range(POOL))
    for tick, address, length in stores(lines):
        while length:
            part = min(length, 4096 - address % 4096)
            if address >> 12 not in pages and len(pages) == MOST_PAGES:
                return
            page = pages.setdefault(address >> 12, len(pages))
            begin = dice.below(POOL - part)
            yield tick, page, address % 4096, bytes(part) if begin % 3 == 0 else pool[begin : begin + part]
            address, length = address + part, length - part


def record(name, seed, path):
    command, make_input = RECORDED[name]
    for needed in ("valgrind", "setarch", command[0]):
        if not shutil.which(needed):
            raise Fault(f"{name} cannot be recorded: {needed} is not installed")
    with tempfile.TemporaryFile() as source:
        source.write(make_input(seed))
        source.seek(0)
        lackey = ["setarch", "-R", "valgrind", "--tool=lackey", "--trace-mem=yes", "--basic-counts=no"]
        env = {"PATH": "/usr/bin:/bin", "LC_ALL": "C"}
        child = subprocess.Popen(
            lackey + command, stdin=source, stdout=subprocess.DEVNULL, stderr=subprocess.PIPE, env=env
        )
        try:
            return write_trace(path, 12, None, recorded_records(child.stderr, Dice(seed, name)))
        finally:
            child.kill()
            child.wait()
            child.stderr.close()


# ---- Files


def write_trace(path, shift, pages, all_records):
    """Writes a trace, as far as the format has room. Tells its sizes; without a number of pages it counts them.

    If a write has no bytes, which releases its page, the trace has version 2.
    """
    total, count, last, highest, version = 16, 0, 0, 0, 1
    pack = RECORD.pack
    with open(path, "wb", buffering=1 << 20) as file:
        file.write(bytes(16))
        for tick, page, offset, data in all_records:
            if count == MOST_WRITES or total + 16 + len(data) > LONGEST:
                break
            file.write(pack(tick, page, offset, len(data)))
            file.write(data)
            total += 16 + len(data)
            count, last, highest = count + 1, tick, max(highest, page)
            version = version if data else 2
        pages = pages or highest + 1
        file.seek(0)
        file.write(b"PCWT" + bytes([version, shift, 0, 0]) + struct.pack("<II", pages, count))
    return {"page_size": 1 << shift, "pages": pages, "writes": count, "last_tick": last, "bytes": total}


def digest(path):
    text = hashlib.sha256()
    with open(path, "rb") as file:
        while piece := file.read(1 << 20):
            text.update(piece)
    return text.hexdigest()


def make(name, seed, folder, manifest):
    path = os.path.join(folder, f"{name}.pcwt")
    known = manifest.get(name)
    if known and known["seed"] == seed and os.path.exists(path) and os.path.getsize(path) == known["bytes"]:
        return known
    if name in MADE:
        it = MADE[name]
        sizes = write_trace(path + ".new", it.shift, it.pages, records(Dice(seed, it.draws or name), it))
    else:
        sizes = record(name, seed, path + ".new")
        if sizes["writes"] < MOST_WRITES:
            raise Fault(f"{name} made {sizes['writes']} writes only: did valgrind run it?")
    os.replace(path + ".new", path)
    return {"seed": seed, **sizes, "sha256": digest(path)}


def make_all(names, seed, folder):
    os.makedirs(folder, exist_ok=True)
    place = os.path.join(folder, "manifest.json")
    manifest = {}
    if os.path.exists(place):
        manifest = read_json(place)
    for name in names:
        it = manifest[name] = make(name, seed, folder, manifest)
        with open(place + ".new", "w", encoding="utf-8") as file:
            json.dump(manifest, file, indent=1)
        os.replace(place + ".new", place)
        print(f"{name:14} {it['writes']:9} writes {it['pages']:6} pages {it['bytes']:10} bytes", flush=True)


def main():
    parser = parser_of("bench/workloads", __doc__)
    parser.add_argument("names", nargs="*", metavar="NAME", help="traces to make")
    parser.add_argument("--traces", default=TRACES, metavar="DIR", help=f"where they go, {TRACES} by default")
    parser.add_argument("--seed", type=int, default=SEED, help=f"{SEED} by default")
    parser.add_argument("--recorded", action="store_true", help="record gzip and sort too, with valgrind")
    parser.add_argument("--list", action="store_true", help="print only the names")
    asked = parser.parse_args()
    if asked.list:
        print("\n".join([*MADE, *RECORDED]))
        return 0
    for name in asked.names:
        if name not in MADE and name not in RECORDED:
            parser.error(f"there is no trace {name}; --list tells those that there are")
    names = asked.names or [*MAIN, *GROWTH, *SHORT]
    names += [name for name in RECORDED if asked.recorded and name not in names]
    try:
        make_all(names, asked.seed, asked.traces)
    except (Fault, OSError, ValueError) as fault:
        print(f"workloads: {fault}", file=sys.stderr)
        return 1
    return 0


if __name__ == "__main__":
    sys.exit(main())
