"""Cases of checks/page: traces, and random settings with the facts that the page must show of them.

The facts are worked out from the lines of `precopy report` and `precopy sweep`, by the rules of docs/COMMANDS.md, and
those of a hypervisor's plan by a plain model.
"""

import os

from checks.lib.amount_texts import error_text, moment_text, size_text, time_text
from checks.lib.harness import drawn
from checks.lib.host_words import host_lines, is_command, sentence_of
from checks.lib.migration_model import Question, case_word, live_line, options_of, report_of
from checks.lib.view_texts import Failure, parsed, ran, report_facts, sweep_facts, told
from checks.page import shapes, sure
from checks.page.tables import round_texts, window_texts
from checks.view.limit_cases import RATES, Known
from precopy_dev.files import write_file
from precopy_dev.models import courses, looks, redrawn
from precopy_dev.models.courses import Manner
from precopy_dev.tree import TOP

TRACES = ["a.pcwt", "gzip.pcwt", "released.pcwt", "guests/mid.light.pcwt", "guests/sqlite.light.pcwt"]
SHAPES, SETTINGS, NEAR = 15, 20, 8
# The controls of limits, by the library's numbers of their refusals.
CONTROLS = {84: "link", 85: "first", 86: "reserve", 87: "downtime"}
# Of how many pages the standard errors, and what is enough for the limit, are worked out here too.
SMALL = 2_000


def example(name):
    return os.path.join(TOP, "examples", name)


# ---- Settings.


class Asked:
    """What the controls of the page say, and the settings that they make."""

    def __init__(self, draw, known):
        self.draw, self.known, self.page, self.sampled = draw, known, known.size, known.pages
        self.tick = draw.choice([1, 10, 100, 1_000, 1_000, 20_000])
        self.guest = draw.choice([known.pages, known.pages, draw.randrange(known.pages, 5_000 * known.pages)])
        self.link = self._link(draw)
        self.first = draw.choice([100, draw.randrange(101), draw.randrange(100_001) / 1_000])
        self.increase = draw.choice([10, draw.randrange(101)])
        self.downtime, self.reserve = self._times(draw)
        self.start = draw.randrange(known.last + 2)
        self.base = draw.choice([None, None, draw.randrange(self.start + 1), self.start + draw.choice([0, 0, 1])])
        self.rounds, self.skip = draw.choice([30, draw.randrange(66)]), draw.randrange(2)
        self.window = draw.choice([max(1, known.last // draw.randrange(1, 500)), draw.randrange(3_000), 1 << 40])
        self.ticks, self.clark = draw.randrange(2), draw.randrange(2)

    def _link(self, draw):
        """A link that is some rate of the trace, nearly, in bytes a second; and its word."""
        rate = 10 ** draw.uniform(-0.3, 6.1)
        size = min(rate * 1_000 * self.page * self.guest / self.sampled / self.tick, 1 << 52)
        unit = draw.choice([unit for unit in RATES if size / RATES[unit] < 10**12])
        count = max(1, round(size / RATES[unit]))
        return count * RATES[unit], f"{count}{unit}"

    def _times(self, draw):
        most = max(1, self.rate(self.link[0]))
        ticks = int(66_000 * 1_000 / most * 10 ** draw.uniform(-5, 0.01))
        downtime = max(0, ticks * self.tick)
        if downtime > 5_000_000:
            downtime -= downtime % 1_000_000
        return downtime, draw.choice([0, 0, draw.randrange(1 + downtime), draw.randrange(50_000)])

    def rate(self, size):
        return size * self.tick * self.sampled // (1_000 * self.page * self.guest)

    def fragment(self):
        sample = "all" if self.guest == self.sampled else f"{self.sampled}/{self.guest}"
        return "&".join(
            [
                f"link={self.link[1]}",
                f"first={self.first}",
                f"increase={self.increase}",
                f"downtime={self.downtime}us",
                f"reserve={self.reserve}us",
                f"start={self.start}",
                f"rounds={self.rounds}",
                f"skip={self.skip}",
                f"clark={self.clark}",
                f"base={'none' if self.base is None else self.base}",
                f"tick={self.tick}us",
                f"sample={sample}",
                f"window={self.window}",
                f"ticks={self.ticks}",
            ]
        )

    def limits(self):
        """The link and the first round in bytes a second, the downtime and the reserve in microseconds. A hypervisor
        has no first round."""
        link = self.link[0]
        share = link * round(self.first * 1_000) // 100_000
        first = link if self.first == 100 or not self.clark else share - share % 125
        return link, first, self.downtime, self.reserve

    def refusal(self):
        """The control at which the page refuses these settings, or None."""
        limit = self.question().limit_refusal()
        tests = [
            ("sample", self.guest > 1 << 32),
            (limit and CONTROLS[limit.number], limit),
            ("rounds", self.clark and not 1 <= self.rounds <= 64),
            ("window", not 1 <= self.window <= 1 << 40),
            ("base", self.base is not None and self.base > self.start),
        ]
        return next((name for name, is_refused in tests if is_refused), None)

    def question(self):
        """The same as a question of `precopy-view` and the library."""
        link, first, *times = self.limits()
        scale = self.tick, self.page, self.sampled, self.guest
        if not self.clark:
            return Question(link, None, *times, *scale, None, 30, self.start, self.base, False)
        increment = (self.rate(link) - self.rate(first)) * self.increase // 100
        others = self.rounds, self.start, self.base, bool(self.skip)
        return Question(link, first, *times, *scale, increment, *others, clark=True)

    def settings(self):
        return self.question().settings()

    def amounts(self):
        """The first round and the increment, if the page asks for others than the module takes by itself."""
        first = self.limits()[1] if self.clark and self.first != 100 else None
        return first, self.settings().increment if self.clark and self.increase != 10 else None

    def words(self):
        """The options of `precopy report`."""
        return [*options_of(self.settings()), f"--window={self.window}"]

    def place(self):
        return [f"--start={self.start}", *([] if self.base is None else [f"--base={self.base}"])]

    def case(self):
        return case_word(self.settings())


class Near(Asked):
    """Settings at which chance or the start may decide: a link over which all pages go ten to a thousand times while
    the trace lasts, and a limit for few of them."""

    def _link(self, draw):
        rate = 1_000 * self.known.pages / (self.known.last + 1) * 10 ** draw.uniform(1, 3)
        size = min(rate * 1_000 * self.page * self.guest / self.sampled / self.tick, 1 << 52)
        count = max(1, round(size / RATES["Kbit"]))
        return count * RATES["Kbit"], f"{count}Kbit"

    def _times(self, draw):
        ticks = int(self.known.pages * 10 ** draw.uniform(-2.5, 0) * 1_000 / max(1, self.rate(self.link[0])))
        return ticks * self.tick, 0


# ---- What the page says of a plan.


def plural(count, noun):
    return f"{count:,} {noun}{'' if count == 1 else 's'}"


def hosts(asked):
    """What the page gives QEMU and libvirt: commands, and sentences on what they do not take, as `precopy-view` has
    them."""
    lines = host_lines(asked.link[0], asked.question().millis_for_pages())
    words, sentences = {}, {}
    for name in ("QEMU", "libvirt"):
        own = [line for line in lines if line.startswith(f"{name}: ")]
        words[name.lower()] = "\n".join(line.removeprefix(f"{name}: ") for line in own if is_command(line))
        sentences[name.lower()] = [sentence_of(line) for line in own if not is_command(line)]
    return words, sentences


def commands(asked):
    """The words that the page gives for `precopy live`, QEMU and libvirt. A live run performs no plan of looks."""
    return {"live": f"{live_line(asked.settings())} < TRACE" if asked.clark else "", **hosts(asked)[0]}


def check_notes(asked, notes):
    """A note says of each hypervisor what it does not take, and what of a limit its commands leave out."""
    link, _, downtime, reserve = asked.limits()
    for name, sentences in hosts(asked)[1].items():
        is_cut = (downtime - reserve) % 1_000 > 0 or downtime - reserve < 1_000
        is_slow = name == "libvirt" and link % (1 << 20) * 100 >= link
        missing = [sentence for sentence in sentences if sentence not in notes[name]]
        if missing or bool(notes[name]) != bool(sentences or is_cut or is_slow):
            raise Failure(f"the note on {name} is {notes[name]!r}, without {missing}")


REPORTS = {}


def looked(asked):
    """The lists of a hypervisor and its stop by the model, as a report has rounds and a stop."""
    settings = courses.look_settings(asked.settings(), asked.question().scale(), asked.known.last)
    plan = looks.plan(asked.known.pages, asked.known.writes, settings)
    course = courses.of_plan(plan)
    rows = [
        {
            "number": number,
            "from": it.start,
            "to": it.end,
            "rate": settings.rate,
            "pages": len(it.pages),
            "sent": it.sent,
            "dirtied": len(looks.written(asked.known.writes, it.start, it.end)),
            "left": len(it.left),
        }
        for number, it in enumerate(plan.lists, 1)
    ]
    why = courses.word_of(course, Manner.LOOKS)
    stop = {"why": why, "at": course.stop, "pages": len(plan.last), "down": course.down, "total": course.total}
    return {"rounds": rows, "stop": stop, "steps": course.steps}


def reported(precopy, asked):
    """The facts of `precopy report`, which must be those of a plain model. A report has no plan of looks: that is the
    model's."""
    words = str(asked.draw), asked.known.path, asked.clark, *asked.words()
    if words not in REPORTS:
        found = report_facts(told(precopy, ["report", *asked.words()], asked.known.path))
        wanted = report_of(asked.known, asked.settings(), asked.window)
        if found != wanted:
            raise Failure(f"a report that is not that of the model: {found} in place of {wanted}")
        steps = {"steps": len(found["rounds"])}
        REPORTS[words] = {**found, **(steps if asked.clark else looked(asked))}
    return REPORTS[words]


def price(asked, start, line):
    """The time, the downtime and the bytes of a plan by its line of `stop` or of a sweep, from a start on."""
    return asked.question().cost(start, redrawn.Outcome(0, "", line["at"], line["down"], line["total"], 0))


def is_stopped(asked, stop):
    """Whether the guest is stopped: a hypervisor does that only if what is left fits the limit."""
    return bool(asked.clark) or stop["why"] == "few"


def figures(asked, report):
    """What a migration comes to by the lines of a report: its answers, and its prices if it ends within the trace."""
    stop, known = report["stop"], asked.known
    time, down, sent = price(asked, asked.start, stop)
    is_known = stop["at"] <= known.last

    def answer(holds):
        return "unknown" if not is_known else "yes" if holds else "no"

    return {
        "converges": answer(stop["why"] == "few"),
        "kept": answer(is_stopped(asked, stop) and down <= asked.downtime),
        "recorded": max(0, known.last - asked.start) * asked.tick,
        "time": time,
        "sent": sent,
        "down": down,
    }


def drawn_errors(asked):
    """The standard errors of bytes, time and downtime by `python/precopy_dev/models/redrawn.py`, if there are any."""
    if not 2 <= asked.sampled < asked.guest:
        return None
    question = asked.question()
    return courses.errors(asked.known.guest, asked.settings(), question.scale(), question.manner())


def micros(value):
    return round(value * 1_000_000)


def told_errors(document):
    """The standard errors that a document of `json predict` tells, if it does."""
    errors = document.get("migration", {}).get("errors")
    return errors and (errors["sent_bytes"], micros(errors["time_seconds"]), micros(errors["down_seconds"]))


def errors(asked, document):
    """The standard errors, as the program tells them, and for small traces as they are worked out beside it."""
    if document is None:
        return drawn_errors(asked)
    told_by_program = told_errors(document)
    is_small = asked.known.pages <= SMALL
    if is_small and document["kept"] != "unknown" and told_by_program != drawn_errors(asked):
        raise Failure(f"errors of {told_by_program} in place of {drawn_errors(asked)}")
    return told_by_program


def check_forecast(line, document):
    """The line on a plan like QEMU tells what the program's document does, if there is one."""
    if document is None:
        return
    member = document.get("like_qemu")
    if member is None:
        wanted = ""
    elif "left_bytes" in member:
        amounts = f"sent {size_text(member['sent_bytes'])}, left {size_text(member['left_bytes'])}"
        wanted = f"Like QEMU: the trace ends first, looks {member['looks']}, {amounts}"
    else:
        time, down = (time_text(micros(member[name])) for name in ("time_seconds", "down_seconds"))
        kept = "kept" if member["kept"] else "not kept"
        costs = f"time {time}, sent {size_text(member['sent_bytes'])}, downtime {down}, {kept}"
        wanted = f"Like QEMU: looks {member['looks']}, {costs}"
    if line != wanted:
        raise Failure(f"{line!r} in place of {wanted!r}")


def reason(asked, report):
    threshold, of_sample = asked.settings().threshold, " of the sample" * (asked.guest > asked.sampled)
    few = "no page was left" if threshold == 1 else f"fewer than {threshold:,} pages{of_sample} were left"
    return {
        "few": few,
        "fast": "the guest writes faster than the link sends",
        "rounds": f"all {plural(asked.rounds, 'round')} that are allowed are done",
        "looks": f"{report['steps']:,} looks are done",
        "cut": "the trace ends first",
        "level": "the trace ends first, and the lists did not get shorter",
    }[report["stop"]["why"]]


def stop_cell(asked, stop):
    if not is_stopped(asked, stop):
        return ["none", ""]
    return [moment_text(stop["at"] * asked.tick), f"tick {stop['at']:,}" * asked.ticks]


def comparison(asked, report, document, verdicts):
    """The rows of the comparison, as the page writes them."""
    stop, found = report["stop"], figures(asked, report)
    if found["kept"] == "unknown":
        least = f"more than {time_text(found['recorded'])}" if found["recorded"] else "unknown"
        return {
            **{name: ["unknown", ""] for name in ("downtime", "sent", "rounds", "left", "stop")},
            "time": [least, ""],
        }
    drawn = errors(asked, document)
    sent, time, down = drawn or (0, 0, 0)

    def more(error, *words):
        return "; ".join([*([f"\u00b1 {error}"] if drawn else []), *words])

    def ticks(words):
        return [words] * asked.ticks

    of_sample = " of the sample" * (asked.guest > asked.sampled)
    threshold = asked.settings().threshold
    few = "none left ends pre-copy" if threshold == 1 else f"fewer than {threshold:,} end pre-copy"
    guest = [f"{plural(stop['total'] * asked.guest // asked.sampled, 'page')} of the guest"] * bool(of_sample)
    pages = f"{plural(stop['total'], 'page')}{of_sample}"
    return {
        "downtime": [
            time_text(found["down"]),
            more(error_text(down), verdicts.answer("kept"), *ticks(f"{plural(stop['down'], 'tick')} for pages")),
        ],
        "time": [
            time_text(found["time"]),
            more(error_text(time), *ticks(f"{plural(stop['at'] - asked.start, 'tick')} of pre-copy")),
        ],
        "sent": [size_text(found["sent"]), more(size_text(sent), *guest, pages)],
        "rounds": [f"{report['steps']:,}", f"{verdicts.answer('converging')}; {reason(asked, report)}"],
        "left": [plural(stop["pages"], "page") + of_sample, few],
        "stop": stop_cell(asked, stop),
    }


def warnings(asked, report):
    stop = report["stop"]
    return 0 if stop["at"] > asked.known.last else (stop["pages"] < 100) + (stop["why"] != "few")


def unknown(asked, found):
    """Words of the verdict on a migration that ends after its trace; of another nothing."""
    if found["kept"] != "unknown":
        return ""
    if asked.start > asked.known.last:
        return f"The trace has {time_text(asked.known.last * asked.tick)}; it ends before the start."
    least = f", which takes more than {time_text(found['recorded'])}" * (found["recorded"] > 0)
    return f"The trace ends before the migration does{least}: record longer."


def check_verdict(asked, shown, report, document, verdicts):
    """Tests what the page says of the verdicts, and how sure they are."""
    found = figures(asked, report)
    words = unknown(asked, found)
    if words not in shown["verdict"] or shown["stale"]:
        raise Failure(f"{shown['verdict']!r} in place of {words!r}")
    drawn = None if words else errors(asked, document)
    sure.check_shown(asked, shown, found, report, verdicts, drawn, reason(asked, report))


def check_sweep(precopy, asked, report):
    """A sweep tells the same of a plan as a report."""
    line = sweep_facts(told(precopy, ["sweep", *asked.place(), asked.case()], asked.known.path))["cases"][0]
    stop = report["stop"]
    numbers = (report["steps"], stop["why"], stop["at"], stop["down"], stop["total"])
    if (line["rounds"], line["stop"], line["at"], line["down"], line["total"]) != numbers:
        raise Failure(f"report and sweep differ: {line}, {stop}")


def check_facts(precopy, asked, found, document, verdicts):
    """Tests what the page shows for settings against what precopy writes, and against the document of `json predict`,
    if there is one; and against the verdicts."""
    name = asked.refusal()
    if name:
        if found["refused"] != name or not found["fault"] or not found["stale"]:
            raise Failure(f"{found['refused']!r}, {found['fault']!r} in place of {name}")
        return
    if found["refused"]:
        raise Failure(f"refused: {found['refused']}, {found['fault']}")
    report = reported(precopy, asked)
    if asked.clark:
        check_sweep(precopy, asked, report)
    check_notes(asked, found["notes"])
    wanted = {
        "rounds": round_texts(asked, report["rounds"]),
        "windows": window_texts(asked, report["windows"]),
        "comparison": comparison(asked, report, document, verdicts),
        "warnings": warnings(asked, report),
        "commands": commands(asked),
    }
    for key, value in wanted.items():
        if found[key] != value:
            raise Failure(f"{key}: {found[key]} in place of {value}")
    check_verdict(asked, found, report, document, verdicts)
    if document is not None:
        check_document(document, figures(asked, report))


def check_document(document, wanted):
    """Compares a document of `json predict` with what a migration comes to by its plan."""
    told = {"converges": "unknown", "kept": "unknown", "recorded": micros(document["recorded_seconds"])}
    if migration := document.get("migration"):
        is_few = migration["why"] == "few"
        is_within = migration["down_seconds"] <= document["limits"]["down_seconds"]
        told |= {
            "converges": "yes" if is_few else "no",
            "kept": "yes" if is_within and (is_few or document["plan"] == "rounds") else "no",
            "time": micros(migration["time_seconds"]),
            "sent": migration["sent_bytes"],
            "down": micros(migration["down_seconds"]),
        }
    if told != {name: wanted[name] for name in told}:
        raise Failure(f"json predict tells {told} in place of {wanted}")


def predicted(view, asked, found):
    """Runs the words that the page gives for `precopy-view predict`: they ask for the same migration. Returns what
    `json predict` answers to them."""
    words = found["predict"].removesuffix(" < TRACE").split()[1:]
    status, text, faults = ran(view, words, asked.known.path)
    lines = text.splitlines()
    live = "".join(f"{line} < TRACE" for line in lines if line.startswith("precopy live "))
    if status not in (0, 3, 4, 5) or bool(live) != bool(asked.clark) or live != found["commands"]["live"]:
        raise Failure(f"{words}: status {status}, {faults!r}, {live!r} in place of {found['commands']['live']!r}")
    _, text, _ = ran(view, ["json", *words], asked.known.path)
    return parsed("predict", text)


def tries(folder):
    """Random settings over the examples and over traces of other shapes, trace by trace."""
    for name in TRACES:
        known = Known(example(name))
        some = [Asked(draw, known) for draw in drawn(f"settings over {name}", range(SETTINGS))]
        yield known, some + [Near(draw, known) for draw in drawn(f"settings near a turn over {name}", range(NEAR))]
    corners = list(filter(shapes.has_write, shapes.corners()))
    for draw in drawn("settings over a shape", range(SHAPES)):
        is_corner = draw.number < len(corners)
        path, text = os.path.join(folder, f"shape-{draw.number}.pcwt"), corners[draw.number] if is_corner else None
        write_file(text or shapes.fit_shape(draw, shapes.has_write), path)
        known = Known(path)
        yield known, [Asked(draw, known) for _ in range(SETTINGS)]
