"""Cases of checks/library. The module precopy loads the library, so that is built before this is imported."""

import os
import re
import shutil
import sys

import precopy
from checks.lib import traces as all_traces
from checks.lib.harness import drawn, expect
from checks.lib.library_runs import LIBRARY, is_done, program_says, run
from checks.lib.traces import EXAMPLES, Trace
from checks.library import (
    beside,
    header,
    installs,
    open_traces,
    places,
    python,
    recordings,
    rust,
    starts,
    streams,
    traces,
    unstamped,
)
from precopy_dev.files import read_bytes, write_file
from precopy_dev.tree import TOP, read
from precopy_tools import version

WARNINGS = ["-Wall", "-Wextra", "-pedantic", "-Werror"]
SANITIZERS = ["-fsanitize=address,undefined", "-fno-sanitize-recover=all", "-g", "-O1"]
# The guard page at which the buffers of a call lie, as checks/library/fences.c is told.
FENCES = ("front", "behind")
ROWS = ("rows", "unstamped", "edges")
WITHOUT_BUFFERS = {"precopy_strerror", "precopy_version", "precopy_abi"}


# ---- The form of the library, and its header.


def names_of(header):
    """The functions that the header declares, and the numbers of its statuses."""
    text = re.sub(r"/\*.*?\*/", "", header, flags=re.S)
    numbers = {name: int(number) for name, number in re.findall(r"\b(PRECOPY_\w+) = (\d+)", text)}
    return set(re.findall(r"\b(precopy_\w+)\(", text)), numbers


def check_form(tally):
    header = read("include/precopy.h")
    declared, numbers = names_of(header)
    shared, archive = os.path.join(LIBRARY, "libprecopy.so.6"), os.path.join(LIBRARY, "libprecopy.a")
    found = run("nm", "-D", "--defined-only", "-f", "posix", shared).stdout.decode().split("\n")
    exported = {line.split()[0].split("@")[0] for line in found if line and " A " not in line}
    tally.add(exported == declared, f"libprecopy.so.6 and the header differ in {sorted(exported ^ declared)}")
    versions = {line.split()[0].partition("@")[2].lstrip("@") for line in found if line and " A " not in line}
    found = run("nm", "-g", "--defined-only", "-f", "posix", archive).stdout.decode().split("\n")
    exported = {line.split()[0] for line in found if " T " in line or " D " in line or " R " in line}
    tally.add(exported == declared, f"libprecopy.a and the header differ in {sorted(exported ^ declared)}")
    told = run("readelf", "-d", shared).stdout.decode()
    tally.add("[libprecopy.so.6]" in told and "TEXTREL" not in told, f"readelf -d tells\n{told}")
    number = re.search(r"SONAME.*\[libprecopy\.so\.(\d+)\]", told)
    tally.add(number and versions == {f"PRECOPY_{number[1]}"}, f"the symbols have the versions {versions}, and\n{told}")
    needed = set(re.findall(r"NEEDED.*\[(.*)\]", told))
    tally.add(needed <= {"libc.so.6"}, f"libprecopy.so.6 needs {sorted(needed)}")
    size = os.path.getsize(shared)
    tally.add(size < 144 * 1024, f"libprecopy.so.6 has {size} bytes")
    print(f"libprecopy.so.6 has {size} bytes, libprecopy.a {os.path.getsize(archive)}", flush=True)
    # The contracts say the same numbers, but for two that no call answers: a failed read, and threads out of range.
    names = ("Answers", "Places", "Predictions", "Starts", "StreamChecks")
    files = ["c_layout/specs/Refusals.antt", *(f"c_answers/specs/{name}.antt" for name in names)]
    specs = "".join(read(f"crates/{file}") for file in files)
    told = re.findall(r"^number_of\w* .* = (\d+)$", specs, re.M)
    statuses = {number for name, number in numbers.items() if number and name not in REASONS}
    tally.add({int(it) for it in told} - {17, 29} == statuses, f"the numbers of contracts and header differ: {told}")


REASONS = {
    "PRECOPY_FEW",
    "PRECOPY_FAST",
    "PRECOPY_ALL_ROUNDS",
    "PRECOPY_ALL_LOOKS",
    "PRECOPY_CUT",
    "PRECOPY_LEVEL",
    "PRECOPY_YES",
    "PRECOPY_NO",
    "PRECOPY_UNKNOWN",
    "PRECOPY_UNCERTAIN",
}


def check_header(tally, folder):
    """The header by itself, as several standards of C and as C++, and the words for each status."""
    for language, suffix, standards in (("c", "c", ["c99", "c11", "c17"]), ("c++", "cpp", ["c++11", "c++17"])):
        path = write_file(
            '#include "precopy.h"\n' * 2 + "int main(void) { return precopy_version()[0] == 0; }\n",
            folder,
            f"header.{suffix}",
        )
        for standard in standards:
            words = ["-x", language, f"-std={standard}", *WARNINGS, f"-I{TOP}/include", "-fsyntax-only", path]
            done = run("cc", *words)
            tally.add(done.returncode == 0 and not done.stderr, f"precopy.h as {standard}: {done.stderr.decode()}")
    tally.add(precopy.version() == version.VERSION, f"precopy_version tells {precopy.version()}")
    numbers = names_of(read("include/precopy.h"))[1]
    told = precopy._LIBRARY.precopy_strerror
    words = {number: told(number) for name, number in numbers.items() if name not in REASONS}
    unknown = told(1234)
    tally.add(len({*words.values(), unknown}) == len(words) + 1, f"statuses share words: {words}")


# ---- Streams of frames.


def check_streams(tally):
    for chosen in drawn("streams of frames", range(60)):
        with tally.case(str(chosen)) as case:
            check_stream(case, chosen)
    for chosen in drawn("a stream that is cut", range(1)):
        check_cuts(tally, *traces.frames(chosen))
    for chosen in drawn("damaged streams", range(300)):
        with tally.case(str(chosen)) as case:
            check_damage(case, chosen)


def check_cuts(tally, sizes, frames):
    """A stream that comes in two parts, cut at each byte."""
    text = b"".join(traces.frame_text(*frame) for frame in frames)
    ends = traces.ends_of(frames)
    for cut in range(len(text) + 1):
        flat = precopy.FlatMemory(sizes)
        taken = traces.taken_of(flat, text[:cut])
        good = taken == max(end for end in ends if end <= cut)
        good = good and traces.taken_of(flat, text[taken:]) == len(text) - taken
        tally.add(good and traces.state(flat) == traces.joined(sizes, frames), f"a stream cut at byte {cut}")


def check_stream(tally, chosen):
    """Frames that are shuffled, repeated, and come in pieces."""
    sizes, frames = traces.frames(chosen)
    wanted = traces.joined(sizes, frames)
    flat = precopy.FlatMemory(sizes)
    sent = frames * chosen.randint(1, 3)
    chosen.shuffle(sent)
    texts = [precopy.encode_frame(sizes, *frame) for frame in sent]
    tally.add(all(traces.frame_text(*it) == text for it, text in zip(sent, texts)), "encodings")
    pieces, text = [], b"".join(texts)
    while text:
        length = chosen.randint(1, 60)
        pieces, text = [*pieces, text[:length]], text[length:]
    rest = b""
    for piece in pieces:
        rest += piece
        rest = rest[traces.taken_of(flat, rest) :]
    tally.add(not rest and traces.state(flat) == wanted, "shuffled, repeated, in pieces")
    tally.add(flat.missing() == traces.first_missing(sizes, wanted), f"missing {flat.missing()}")


def check_damage(tally, chosen):
    """A stream of which some bytes are others: the frames in front of the first that is none are taken."""
    sizes, frames = traces.frames(chosen)
    text = bytearray(b"".join(traces.frame_text(*frame) for frame in frames))
    for _ in range(chosen.randint(1, 3)):
        text[chosen.randrange(len(text))] = chosen.choice([0, 1, 2, 255])
    whole, rest, cause = traces.decoded(sizes, bytes(text))
    flat = precopy.FlatMemory(sizes)
    try:
        taken, found = flat.accept(bytes(text)), None
    except precopy.FrameRefused as refused:
        taken, found = refused.taken, str(refused).split(":")[0]
    good = found == cause and (taken.frames, taken.bytes) == (len(whole), len(text) - len(rest))
    tally.add(good and traces.state(flat) == traces.joined(sizes, whole), f"{found} {cause} {taken}")
    if whole:
        frame = precopy.decode_frame(sizes, bytes(text))
        tally.add((frame.page, frame.stamp, frame.content) == whole[0], f"{frame}")


# ---- Sanitizers.


def fenced():
    """The names of the calls that have guard pages round their buffers."""
    return re.findall(r"^\w+ __wrap_(precopy_\w+)\(", read("checks/library/fences.c"), re.M)


def check_fences(tally):
    """Each call of the header that is given a buffer has guard pages, and one of the programs makes it."""
    declared = names_of(read("include/precopy.h"))[0] - WITHOUT_BUFFERS
    differ = declared ^ set(fenced())
    tally.add(not differ, f"the header and checks/library/fences.c differ in {sorted(differ)}")
    made = re.findall(r"\b(precopy_\w+)\(", "".join(read(f"checks/library/{name}.c") for name in ROWS))
    tally.add(declared <= set(made), f"no row makes the calls {sorted(declared - set(made))}")


def is_compiled(tally, folder, source, *words):
    """Compiles a program with the sanitizers, which watch its own code, and with guard pages for the library's."""
    built = os.path.join(folder, os.path.basename(source).removesuffix(".c"))
    wrapped = [f"-Wl,--wrap={name}" for name in fenced()]
    words = [*WARNINGS, *SANITIZERS, f"-I{TOP}/include", "-o", built, f"{TOP}/{source}", *words, *wrapped]
    done = run("cc", *words, f"{TOP}/checks/library/fences.c", os.path.join(LIBRARY, "libprecopy.a"))
    return is_done(tally, done, f"{source} is compiled with sanitizers")


def check_rows(tally, folder):
    """Worked examples of each function; null pointers with length 0, and the order of refusals."""
    for name in ROWS:
        source = f"checks/library/{name}.c"
        if is_compiled(tally, folder, source, "-std=c99"):
            for fence in FENCES:
                done = run(os.path.join(folder, name), env={**os.environ, "FENCE": fence})
                expect_counts(tally, done, f"{source}, {fence}")


def expect_counts(tally, done, what):
    """A program that counts its trials in its last line has passed some, and failed none."""
    counts = re.search(rb"(\d+) passed, 0 failed\n$", done.stdout)
    good = done.returncode == 0 and counts and int(counts[1])
    tally.add(good, f"{what}: status {done.returncode}, {(done.stdout + done.stderr).decode()[-1500:]}")


def check_sanitized(tally, folder):
    wrapped = [f"-Wl,--wrap={name}" for name in ("malloc", "realloc", "free")]
    if not is_compiled(tally, folder, "checks/library/library.c", "-std=c11", *wrapped, "-pthread"):
        return
    path = os.path.join(folder, "trace.pcwt")
    for chosen in drawn("traces of library.c", range(40)):
        if chosen.number < len(EXAMPLES):
            shutil.copy(EXAMPLES[chosen.number], path)
        else:
            trace = all_traces.generated(chosen)
            write_file(all_traces.damaged(chosen, trace) if chosen.number % 4 == 0 else trace, path)
        tick = str(chosen.choice([0, 5, 100, 2500]))
        for fence in FENCES:
            done = run(os.path.join(folder, "library"), path, tick, env={**os.environ, "FENCE": fence})
            expect_counts(tally, done, f"{chosen}, {fence}")


# ---- Examples and what the page on the library shows.


def lacking(path, tick):
    """What examples/c/lacking.c prints of a trace: a page's version is the place of its last write."""
    before, last = {}, {}
    for place, (at, page, _, _) in enumerate(Trace.at(path).records, 1):
        last[page] = place
        if at < tick:
            before[page] = place
    return "".join(
        f"page {page} at {before.get(page, 0)} of {last[page]}\n"
        for page in sorted(last)
        if before.get(page, 0) != last[page]
    )


def check_c(tally, folder, program):
    names = ("plan", "receiver", "lacking")
    if not all([is_compiled(tally, folder, f"examples/c/{name}.c", "-std=c99") for name in names]):
        return
    for path in EXAMPLES:
        trace = read_bytes(path)
        wanted = program_says(program, ["report", "--min=500", "--max=4000", "--threshold=10"], trace)
        done = run(os.path.join(folder, "plan"), "500", "4000", "10", input=trace)
        good = done.stdout and wanted.endswith(done.stdout) and done.stdout.startswith(b"round 0 ")
        tally.add(good, f"examples/c/plan.c of {path}: {done.stdout!r}, {done.stderr!r}")
        rust.receive(tally, folder, path, trace)
        for tick in (0, 100, 2500, 2**40):
            done = run(os.path.join(folder, "lacking"), str(tick), input=trace)
            good = (done.returncode, done.stdout.decode()) == (0, lacking(path, tick))
            tally.add(good, f"examples/c/lacking.c of {path} at {tick}: {done}")
    done = run(os.path.join(folder, "lacking"), "0", input=read_bytes(EXAMPLES[0])[:-1])
    wanted = b"lacking: trace E8: it ends within this record\n"
    tally.add((done.returncode, done.stderr) == (1, wanted), f"lacking.c: {done}")
    done = run(os.path.join(folder, "plan"), "500", "4000", "10", input=b"none")
    wanted = b"plan: trace E1: it has fewer than the 16 bytes of a header\n"
    tally.add((done.returncode, done.stderr) == (1, wanted), f"plan.c: {done}")
    done = run(os.path.join(folder, "plan"), "500", "4000", "10", input=read_bytes(EXAMPLES[0])[:-1])
    tally.add(re.search(rb"trace E8: .*, record \d+\n$", done.stderr), f"plan.c: {done}")


def check_page(tally, folder):
    """The programs of docs/LIBRARY.md and README.md, whose output is below them, and the migration with a bug."""
    page = read("docs/LIBRARY.md")
    source = re.search(r"```c\n(.*?)```", page, re.S)[1]
    write_file(source, folder, "page.c")
    built, words = os.path.join(folder, "page"), ["-std=c99", *WARNINGS, f"-I{TOP}/include", f"{folder}/page.c"]
    done = run("cc", *words, os.path.join(LIBRARY, "libprecopy.a"), "-o", built)
    if is_done(tally, done, "the program of docs/LIBRARY.md is compiled"):
        done = run(built, input=read_bytes(TOP, "examples/gzip.pcwt"))
        tally.add(done.stdout and done.stdout.decode() in page, f"docs/LIBRARY.md does not tell what it prints: {done}")
    for name in ("docs/LIBRARY.md", "README.md"):
        page = read(name)
        for block in re.findall(r"```python\n(.*?)```", page, re.S):
            done = run(sys.executable, "-c", block, cwd=TOP)
            shown = all(f"    {line}\n" in page for line in done.stdout.decode().splitlines())
            tally.add(done.returncode == 0 and shown, f"{name} does not tell what this prints: {done}\n{block}")
    bug = [sys.executable, f"{TOP}/examples/left_out.py", f"{TOP}/examples/gzip.pcwt"]
    done = run(*bug)
    tally.add(done.returncode == 1 and b"page" in done.stdout, f"examples/left_out.py finds nothing: {done}")
    done = run(*bug, "--mended")
    tally.add(done.returncode == 0 and b"equal" in done.stdout, f"examples/left_out.py --mended: {done}")


def check_parts(tally, folder, program):
    for name, part, *words in (
        ("the form of the library", check_form),
        ("guard pages", check_fences),
        ("the header", check_header, folder),
        ("the example at the head of the header", header.check_example, folder),
        ("the version of the header", header.check_version),
        ("defaults in Python", header.check_defaults, program),
        ("the bound of a report's length", header.check_bound, folder),
        ("what a compiler tells", header.check_warnings, folder),
        ("the examples in C", check_c, folder, program),
        ("docs/LIBRARY.md", check_page, folder),
        ("the library installed alone", installs.check_library_alone, folder),
        ("the library installed by make", installs.check_make, folder),
    ):
        with tally.case(name) as case:
            part(case, *words)


def check_rust(tally, folder, program):
    if is_compiled(tally, folder, "examples/c/receiver.c", "-std=c99"):
        rust.check(tally, folder, program)


def check(tally, folder, given):
    """All of it, or some parts, in a folder that is empty."""
    program = given.precopy
    parts = {
        "rows": lambda: check_rows(tally, folder),
        "calls": lambda: check_sanitized(tally, folder),
        "forms": lambda: check_parts(tally, folder, program),
        "beside": lambda: beside.check(tally, program),
        "streams": lambda: (check_streams(tally), streams.check(tally)),
        "places": lambda: places.check(tally),
        "opened": lambda: open_traces.check(tally),
        "unstamped": lambda: unstamped.check(tally),
        "recordings": lambda: recordings.check(tally),
        "starts": lambda: starts.check(tally, folder, given.precopy_view),
        "python": lambda: python.check(tally, folder),
        "rust": lambda: check_rust(tally, folder, program),
    }
    expect(set(given.only or ()) <= set(parts), f"the parts are {' '.join(parts)}")
    for name, part in parts.items():
        if not given.only or name in given.only:
            part()
