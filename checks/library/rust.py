"""Trials of the crate for Rust and its example, whose answers must be those of plain models, and of frames that
examples receive."""

import dataclasses
import os
import re
import shutil

import precopy
from checks.lib import migration_model, stream_model, stream_rows
from checks.lib import traces as all_traces
from checks.lib.harness import drawn
from checks.lib.library_runs import LIBRARY, is_done, program_says, run
from checks.lib.migration_model import Cost, Question, answer_of, sweep_of
from checks.lib.tally import left_out, why_not
from checks.lib.traces import EXAMPLES, Trace
from checks.lib.view_texts import report_text
from checks.library import beside, traces
from precopy_dev.files import read_bytes, write_file
from precopy_dev.models import redrawn
from precopy_dev.tree import TOP, read

HEADER, CRATE = "include/precopy.h", "bindings/rust"
BAD_ROUNDS = 25


def receive(tally, folder, path, trace):
    """The frames of a trace's memory, older ones too, dealt to three streams. The example in C takes them."""
    for chosen in drawn(f"frames of {os.path.basename(path)}", range(1)):
        words, stream = received(tally, folder, path, trace, chosen)
    return words, stream


def received(tally, folder, path, trace, chosen):
    sizes = precopy.check_trace(trace)
    paths, texts = [os.path.join(folder, f"stream{number}") for number in range(3)], []
    before = precopy.OpenTrace(trace).memory_before(9)
    for memory, stamp in ((precopy.memory(trace), sizes.writes), (before, 0)):
        for page in range(sizes.pages if sizes.writes or not stamp else 0):
            content = bytes(memory[page << sizes.shift : page + 1 << sizes.shift])
            texts.append(precopy.encode_frame(sizes, page, stamp, content))
    chosen.shuffle(texts)
    for number, name in enumerate(paths):
        write_file(b"".join(texts[number::3]), name)
    words = [str(sizes.shift), str(sizes.pages), str(sizes.writes)]
    done = run(os.path.join(folder, "receiver"), *words, *paths)
    tally.add(done.stdout == precopy.memory(trace), f"examples/c/receiver.c of {path}: {done.stderr!r}")
    done = run(os.path.join(folder, "receiver"), *words, paths[0])
    wanted = b"did not come" in done.stderr or b"" == done.stderr and sizes.pages < 3
    tally.add(wanted, f"examples/c/receiver.c of one stream of {path}: {done.stderr!r}")
    return words, b"".join(texts)


def check_statuses(tally):
    """The numbers of the crate's statuses are those of the header."""
    header = dict(re.findall(r"\bPRECOPY_(\w+) = (\d+)", read(HEADER)))
    others = {"OK", "FEW", "FAST", "ALL_ROUNDS", "YES", "NO", "UNKNOWN", "UNCERTAIN"}
    others |= {"ALL_LOOKS", "CUT", "LEVEL", "FEW_LEFT", "TRACE_ENDS", "NOT_BEGUN"}
    header = {name.title().replace("_", ""): number for name, number in header.items() if name not in others}
    source = read(f"{CRATE}/src/status.rs")
    crate = dict(re.findall(r"^    (\w+) = (\d+),$", source, re.M))
    differ = header.items() ^ crate.items()
    tally.add(not differ and len(crate) > 30, f"statuses of header and crate differ: {differ}")
    differ = header.items() ^ {(name, number) for number, name in re.findall(r"(\d+) => Status::(\w+),", source)}
    tally.add(not differ, f"the crate makes other statuses of the numbers: {differ}")
    told = [re.sub(r"\W+", " ", read(path)) for path in (HEADER, f"{CRATE}/src/flat.rs")]
    tally.add(all("mean nothing" in it for it in told), "header and crate differ about pages that did not come")
    tally.add("#[non_exhaustive]\n#[repr(u32)]\npub enum Status" in source, "statuses are not said to become more")
    declared = set(re.findall(r"\b(precopy_\w+)\(", re.sub(r"/\*.*?\*/", "", read(HEADER), flags=re.S)))
    sources = [it for it in os.listdir(os.path.join(TOP, CRATE, "src")) if it != "calls.rs"]
    called = set(re.findall(r"\bcalls::(precopy_\w+)", "".join(read(f"{CRATE}/src/{it}") for it in sources)))
    tally.add(declared == called, f"the crate does not have the calls {sorted(declared ^ called)}")


def sums_line(plan):
    return f"{plan.rounds} {plan.reason.capitalize()} {plan.stop} {plan.down} {plan.total}"


def question(trace, settings):
    """What examples/answers.rs asks: its numbers do not grow beyond 64 bits."""
    page, most = trace.size, (1 << 64) - 1
    asked = {name: getattr(settings, name) for name in ("rounds", "start", "base", "skip")}
    asked |= {"link": min(most, 3 * page * settings.max), "first": min(most, 3 * page * settings.min)}
    asked |= {"downtime": min(most, 1000 * settings.threshold), "reserve": 500, "page": page}
    return precopy.Question(sampled=trace.pages, guest=3 * trace.pages, **asked)


def refused_line(number, call, *words):
    """The line of a refusal: the number is the model's, and the words are those of the Python module."""
    try:
        call(*words)
        return "the Python module does not refuse it"
    except precopy.Refused as refused:
        return f"refused {number} {refused}"


def prediction_lines(trace, asked):
    told = Question(**vars(asked))
    if refusal := told.refusal(trace, by_library=True):
        yield refused_line(refusal.number, precopy.OpenTrace(trace.text).predict, asked)
        return
    for manner in (told, dataclasses.replace(told, clark=True)):
        yield from lines_by_manner(trace, manner)


def lines_by_manner(trace, told):
    it = answer_of(told, trace)
    yield f"plan {it.rounds} {it.why.capitalize()} {it.plan.stop} {it.plan.down} {it.plan.total} {it.left}"
    verdicts = f"{it.converges.capitalize()} {it.kept.capitalize()}"
    yield f"migration {it.time} {it.sent} {it.downtime} {it.recorded} {verdicts}"
    # The library tells standard errors of what is unknown too.
    if 2 <= told.sampled <= 65_536:
        sent, time, down = told.errors(trace, told.start)
        yield f"errors {sent} {time} {down}"
    yield agreement_line(it)
    yield forecast_line(it.forecast)
    yield shares_line(it.share)
    yield best_line(told, trace)
    yield amounts_line(it.enough)


def agreement_line(told):
    found = told.agreement
    draws = found.draws or (0, 0, 0, 0)
    counts = " ".join(map(str, [*draws, found.starts.whole, found.starts.converging, found.starts.kept]))
    return f"agreement {counts} {told.sure_converges.capitalize()} {told.sure_kept.capitalize()}"


def forecast_line(told):
    if told is None:
        return "like QEMU NotBegun 0 0 0 0 0 Unknown"
    end, kept = ("FewLeft", "Yes" if told.is_kept else "No") if told.ends else ("TraceEnds", "Unknown")
    return f"like QEMU {end} {told.looks} {told.time} {told.sent} {told.left} {told.downtime} {kept}"


def shares_line(found):
    below = found.below and found.below.capitalize()
    return f"shares {found.verdict.capitalize()} {found.share} {below or '-'}"


def best_line(asked, trace):
    """The best of at most eleven starts."""
    recorded = max(0, trace.last - asked.start)
    ticks = range(asked.start, max(asked.start, trace.last) + 1, max(1, recorded // 10))
    best, _ = migration_model.chosen([Cost.of(asked, trace, tick) for tick in ticks], asked, trace)
    if not best:
        return "best -"
    is_likely = str(best.is_likely(asked.downtime)).lower()
    error = f"Some({best.errors[2]})" if best.errors else "None"
    numbers = f"{best.start} {best.plan.steps} {best.time} {best.sent} {best.down}"
    return f"best {numbers} {best.verdict().capitalize()} {is_likely} {error}"


def amounts_line(it):
    links = [link and 125 * link for link in (it.link, it.ending.link)]
    amounts = [links[0], it.downtime, it.speed, links[1], it.ending.start]
    link, downtime, speed, *ending = ["-" if amount is None else str(amount) for amount in amounts]
    is_kept, ends = str(it.is_kept).lower(), str(it.ending.ends).lower()
    return f"enough {is_kept} {link} {downtime} {speed} {ends} {' '.join(ending)}"


def finding_lines(trace, tick):
    """What is wrong in streams of the frames of the memory at the stop: all of them, without the first, with another
    stamp in the first, and without the last byte, in pieces. The words are those of the Python module."""
    guest = stream_model.Guest(trace.text)
    stop = guest.writes_before(tick)
    versions = [(number, page.version(stop)) for number, page in enumerate(guest.pages)]
    frames = [stream_rows.frame(*it, bytes(guest.pages[it[0]].after(it[1]))) for it in versions]
    stream = b"".join(frames)
    other = stream[:4] + bytes([stream[4] ^ 1]) + stream[5:]
    for each in (stream, b"".join(frames[1:]), other, stream[:-1]):
        wanted = stream_rows.told_by_model(stream_model.first_wrong(guest, stop, [each]))
        found = precopy.check_streams(trace.text, stop, [each])
        if stream_rows.told_by_library(found) != wanted:
            yield f"the model finds {wanted}, and the Python module {found}"
        else:
            yield f"finding {wanted[0]} {found.place}: {found}" if found else "finding 0"


def plan_lines(trace, settings):
    asked = beside.settings_of(settings)
    plan = redrawn.planned(trace.guest, asked)
    yield f"sums {sums_line(plan)}"
    for it in redrawn.rounds(trace.guest, asked)[0]:
        yield f"round {it.start} {it.end} {it.rate} {it.pages} {it.sent} {it.dirtied}"
    yield report_text(beside.report_of(trace, settings)).rstrip("\n")
    cases = [asked, asked._replace(skip=not asked.skip)]
    yield from (f"case {sums_line(redrawn.planned(trace.guest, it))}" for it in cases)
    yield f"best {sweep_of(trace, cases)['best']}"
    yield f"memory {trace.memory().hex()}"
    yield f"before {trace.memory(plan.stop).hex()}"
    yield from finding_lines(trace, plan.stop)
    yield from prediction_lines(trace, question(trace, settings))


def answer_lines(text, settings):
    """What examples/answers.rs of the crate prints, as a plain model tells it."""
    if why := all_traces.refusal(text):
        # The status of a refused trace is the number in its name.
        yield refused_line(int(why.split()[0].removeprefix("E")), precopy.check_trace, text)
        return
    trace = Trace(text)
    yield f"sizes {trace.size.bit_length() - 1} {trace.pages} {len(trace.records)}"
    if 1 <= settings.rounds <= 64:
        yield from plan_lines(trace, settings)
    else:
        yield refused_line(BAD_ROUNDS, precopy.plan, text, settings)


def check_crate(tally, crate, target, environment):
    """The crate's own tests, its form, and its answers beside those of the models."""
    done = run("cargo", "test", "--offline", cwd=crate, env=environment)
    counts = [int(count) for count in re.findall(rb"test result: ok\. (\d+) passed; 0 failed", done.stdout)]
    if is_done(tally, done, "the tests of bindings/rust"):
        tally.add(sum(counts) > 10, f"tests in Rust: {counts}")
    for words in (("fmt", "--check"), ("clippy", "--offline", "--all-targets", "--", "-D", "warnings")):
        if run("cargo", words[0], "--version").returncode:
            left_out(f"cargo {words[0]} of bindings/rust", "it is not installed")
        else:
            is_done(tally, run("cargo", *words, cwd=crate, env=environment), f"cargo {words[0]} of bindings/rust")
    warned = {**environment, "RUSTDOCFLAGS": "-D warnings"}
    is_done(tally, run("cargo", "doc", "--offline", cwd=crate, env=warned), "cargo doc of bindings/rust")
    if not is_done(tally, run("cargo", "build", "--offline", "--examples", cwd=crate, env=environment), "answers.rs"):
        return
    for chosen in drawn("answers.rs", range(200)):
        trace, settings = all_traces.generated(chosen), traces.settings(chosen)
        trace = all_traces.damaged(chosen, trace) if chosen.number % 3 == 0 else trace
        if chosen.number % 10 == 9:
            settings = dataclasses.replace(settings, rounds=chosen.choice([0, 65, (1 << 64) - 1]))
        base = "-" if settings.base is None else settings.base
        words = [getattr(settings, it) for it in "min max increment threshold rounds start window hot".split()]
        done = run(f"{target}/debug/examples/answers", *map(str, [*words, base, int(settings.skip)]), input=trace)
        wanted = "".join(f"{line}\n" for line in answer_lines(trace, settings))
        tally.add(done.stdout.decode() == wanted, f"{chosen}: {done}, and the model\n{wanted}")


def check_example(tally, folder, source, target, environment, program):
    done = run("cargo", "build", "--offline", "--quiet", cwd=source, env=environment)
    if not is_done(tally, done, "examples/rust is built"):
        return
    built = os.path.join(target, "debug", "precopy-example")
    for path in EXAMPLES:
        trace = read_bytes(path)
        done = run(built, input=trace)
        tally.add(done.stdout == program_says(program, ["report"], trace), f"examples/rust of {path}: {done.stderr!r}")
        done = run(built, "memory", "2000", input=trace)
        tally.add(done.stdout == Trace(trace).memory(2000), f"examples/rust of {path}, memory: {done.stderr!r}")
        words, stream = receive(tally, folder, path, trace)
        done = run(built, "receive", *words, input=stream)
        wanted = program_says(program, ["image"], trace)
        tally.add(done.stdout == wanted, f"examples/rust of {path}, frames: {done.stderr!r}")
    for words in ((), ("memory", "-1"), ("memory", str(1 << 64)), ("receive", "64", "1", "0"), ("receive", "4")):
        done = run(built, *words, input=b"none")
        good = done.returncode == 1 and done.stderr.startswith(b"Error: ")
        tally.add(good, f"examples/rust with {words} and no trace: {done}")


def needs_library(built):
    return "[libprecopy.so." in run("readelf", "-d", built).stdout.decode()


def check_forms(tally, folder, source, target, environment):
    """A folder with both forms gives the archive, one with the shared library alone gives that, and one with neither
    ends the build."""
    built = os.path.join(target, "debug", "precopy-example")
    tally.add(os.path.isfile(built) and not needs_library(built), "a program over both forms needs a shared library")
    shared, empty = os.path.join(folder, "shared alone"), os.path.join(folder, "no library")
    os.makedirs(empty)
    os.makedirs(shared)
    for name in os.listdir(LIBRARY):
        if ".so" in name:
            shutil.copy(os.path.join(LIBRARY, name), shared, follow_symlinks=False)
    command = ("cargo", "build", "--offline", "--quiet")
    done = run(*command, cwd=source, env={**environment, "PRECOPY_LIBRARY_DIR": shared})
    if is_done(tally, done, "examples/rust is built over the shared library"):
        done = run(
            built, "memory", "2000", input=read_bytes(EXAMPLES[0]), env={**os.environ, "LD_LIBRARY_PATH": shared}
        )
        wanted = Trace(read_bytes(EXAMPLES[0])).memory(2000)
        tally.add(needs_library(built) and done.stdout == wanted, f"examples/rust over the shared library: {done}")
    done = run(*command, cwd=source, env={**environment, "PRECOPY_LIBRARY_DIR": empty})
    good = done.returncode and b"PRECOPY_LIBRARY_DIR has neither libprecopy.a nor libprecopy.so" in done.stderr
    tally.add(good, f"examples/rust over no library: {done}")


def check(tally, folder, program):
    with tally.case("the statuses and calls of the crate") as case:
        check_statuses(case)
    if why := why_not("cargo"):
        left_out("the crate for Rust and its example", why)
        return
    # In copies, as a build writes among sources.
    copies, target = os.path.join(folder, "rust"), os.path.join(folder, "target")
    for path in (CRATE, "examples/rust"):
        skip = shutil.ignore_patterns("target", "Cargo.lock")
        shutil.copytree(os.path.join(TOP, path), os.path.join(copies, path), ignore=skip)
    environment = {**os.environ, "PRECOPY_LIBRARY_DIR": LIBRARY, "CARGO_TARGET_DIR": target}
    check_crate(tally, os.path.join(copies, CRATE), target, environment)
    check_example(tally, folder, os.path.join(copies, "examples/rust"), target, environment, program)
    with tally.case("forms of the library for the crate") as case:
        check_forms(case, folder, os.path.join(copies, "examples/rust"), target, environment)
