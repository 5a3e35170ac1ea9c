"""The doors at which a prediction is asked for, for checks/predictions. A further door is a further class in DOORS."""

import contextlib
import io
import json
import os
import re
import subprocess
import traceback
from typing import NamedTuple, Optional

from checks.lib.host_words import host_lines
from checks.lib.look_model import Forecast
from checks.lib.migration_model import STATUSES, Answer, Refusal, all_lines, document_of, lines_until_hosts
from checks.lib.remedy_model import Remedies
from checks.lib.tally import Failure, LeftOut, module, why_not
from checks.lib.view_texts import parsed, ran
from checks.page.node import asked_of_package
from checks.predictions.questions import Asked
from precopy_dev.files import read_bytes
from precopy_dev.interface import lower_camel
from precopy_dev.tree import TOP
from precopy_tools.predict import command

LIBRARY = os.path.join(TOP, "out", "library")
SECONDS, HOW = 600, {"capture_output": True, "text": True, "check": False}
VERDICTS = ("yes", "no", "unknown", "uncertain")
REASONS = ("few", "fast", "rounds", "looks", "cut", "level")
AGREEMENT = ("draws", "draws_known", "draws_converging", "draws_kept", "starts", "starts_converging", "starts_kept")
AGREEMENT += ("converges", "kept")
ENDS = ("few_left", "trace_ends", "not_begun")
FORECAST = ("looks", "time", "bytes", "left", "downtime", "end", "kept")
# Lines of tools/predict that are its own, and not those of precopy-view.
OF_TOOL = (
    "taken: ",
    "guest: ",
    "sample: ",
    "link: ",
    "at half the link",
    "at twice the link",
    "a plan takes no longer limit",
)


class Programs(NamedTuple):
    """What is built: precopy-view, the page's module, and folders with what the page's programs need in Node, and with
    the package for Node. `asker` is the program that asks the library for C, or nothing."""

    view: str
    module: str
    web: str
    package: str
    node: Optional[list[str]]
    asker: str


class Door:
    """A door: what it answers to a question, and what it should answer by the model. Refused is None."""

    name = ""
    # Which of several things that are wrong is told.
    is_of_library = True

    def __init__(self, programs: Programs):
        self.programs = programs

    @staticmethod
    def lacking(programs: Programs) -> str:
        """Why there is no such door here, or nothing."""
        return ""

    def is_asked(self, asked: Asked) -> bool:
        """Whether the question can be asked at this door."""
        return True

    def told(self, asked: Asked) -> object:
        raise NotImplementedError

    def all_told(self, some: list[Asked]) -> list[object]:
        """The answers to some questions about one trace."""
        return [self.told(asked) for asked in some]

    def wanted(self, asked: Asked, answer: Answer) -> object:
        raise NotImplementedError

    def refused(self, asked: Asked, refusal: Refusal) -> object:
        """What is told of a question that is refused: the status of the library."""
        return refusal.number


class Lines(Door):
    """The program's lines and its status."""

    name = "precopy-view predict"
    is_of_library = False

    def told(self, asked: Asked) -> object:
        status, text, faults = ran(self.programs.view, ["predict", *asked.question.words()], asked.trace.path)
        return [status, text, faults]

    def wanted(self, asked: Asked, answer: Answer) -> object:
        lines = all_lines(asked.question, answer, asked.trace)
        return [STATUSES[answer.sure_kept], "".join(f"{line}\n" for line in lines), ""]

    def refused(self, asked: Asked, refusal: Refusal) -> object:
        return refusal.of_view()


class Document(Lines):
    """The program's JSON, which keeps its schema."""

    name = "precopy-view json predict"

    @staticmethod
    def lacking(programs: Programs) -> str:
        try:
            module("jsonschema")
        except LeftOut as why:
            return str(why)
        return ""

    def told(self, asked: Asked) -> object:
        status, text, faults = ran(self.programs.view, ["json", "predict", *asked.question.words()], asked.trace.path)
        return [status, parsed("predict", text) if text else "", faults]

    def wanted(self, asked: Asked, answer: Answer) -> object:
        return [STATUSES[answer.sure_kept], document_of(asked.question, answer, asked.trace), ""]


class Tool(Door):
    """The lines of tools/predict that are the program's. It reads the record itself."""

    name = "tools/predict"

    def __init__(self, programs: Programs):
        super().__init__(programs)
        self.tool = command

    def is_asked(self, asked: Asked) -> bool:
        return asked.words is not None

    def told(self, asked: Asked) -> object:
        printed, faults = io.StringIO(), io.StringIO()
        with contextlib.redirect_stdout(printed), contextlib.redirect_stderr(faults):
            status = self.tool.main([*asked.words, "--program", self.programs.view])
        lines = [line for line in printed.getvalue().splitlines() if not line.startswith(OF_TOOL)]
        return [status, lines, faults.getvalue()]

    def wanted(self, asked: Asked, answer: Answer) -> object:
        """If the downtime is cut to what a plan takes, there is no word for a hypervisor."""
        question = asked.question
        is_whole = f"--downtime={question.downtime}us" in asked.words
        hosts = host_lines(question.link, question.millis_for_pages()) if is_whole else []
        lines = [*lines_until_hosts(question, answer, asked.trace), *hosts]
        return [STATUSES[answer.sure_kept], lines, ""]

    def refused(self, asked: Asked, refusal: Refusal) -> object:
        """The tool tells of the rate before it asks."""
        it = asked.question
        rate = it.link * it.tick * it.sampled / (1000 * it.page * it.guest)
        told = f"{rate:.3g} pages of it in 1,000 ticks, and a plan has 1 to 1,000,000"
        speed = "slow" if rate < 1 else "fast"
        return [1, [], f"predict: a link of {it.link:,} bytes a second is too {speed} for this sample: {told}\n"]


class Page(Door):
    """The page's module, by the file that asks it."""

    name = "web/engine/planner.js"

    @staticmethod
    def lacking(programs: Programs) -> str:
        if not programs.node:
            return "there is no node with 64-bit memory"
        return "" if os.path.exists(programs.module) else f"there is no {programs.module}; make page builds it"

    def all_told(self, some: list[Asked]) -> list[object]:
        questions = [
            {name: str(value) if type(value) is int else value for name, value in vars(asked.question).items()}
            for asked in some
        ]
        script, module = os.path.join(self.programs.web, "predictions.mjs"), self.programs.module
        command = [*self.programs.node, "--no-warnings", script, module, some[0].trace.path]
        done = subprocess.run(command, input=json.dumps(questions), timeout=SECONDS, **HOW)
        if done.returncode:
            raise Failure(done.stderr[-300:])
        return [found.get("refusal", found) for found in json.loads(done.stdout)]

    def wanted(self, asked: Asked, answer: Answer) -> object:
        """Large numbers are words."""
        plain = {
            "rounds": answer.rounds,
            "reason": answer.why,
            "stop": answer.plan.stop,
            "down": answer.plan.down,
            "total": answer.plan.total,
            "left": answer.left,
            "converges": answer.converges,
            "kept": answer.kept,
        }
        large = {"time": answer.time, "bytes": answer.sent, "downtime": answer.downtime, "recorded": answer.recorded}
        errors = answer.errors and dict(zip(("bytes", "time", "downtime"), map(str, answer.errors)))
        large = {name: str(number) for name, number in large.items()}
        told = {"errors": errors, "remedies": self.remedies(answer), "forecast": self.forecast(answer.forecast)}
        return {**plain, **large, **told, "agreement": self.agreement(answer)}

    @staticmethod
    def agreement(answer: Answer) -> dict:
        """How sure the answer is, by the names of JavaScript."""
        return {lower_camel(name): told for name, told in Library.agreement(answer).items()}

    @staticmethod
    def forecast(told: Optional[Forecast]) -> Optional[dict]:
        """What comes of the migration like QEMU; nothing if it begins after the trace."""
        if told is None:
            return None
        wide = {"time": told.time, "bytes": told.sent, "left": told.left, "downtime": told.downtime}
        words = {name: str(amount) for name, amount in wide.items()}
        return {**words, "looks": told.looks, "end": "few" if told.ends else "record", "kept": kept_word(told)}

    @staticmethod
    def remedies(answer: Answer) -> dict:
        """What is enough for the limit."""
        words = {name: None if amount is None else str(amount) for name, amount in amounts_of(answer.enough).items()}
        ending = {"endingLink": words.pop("ending_link"), "endingStart": words.pop("ending_start")}
        return {"isKept": answer.enough.is_kept, "ends": answer.enough.ending.ends, **words, **ending}


class Library(Door):
    """The library. It gives numbers, and tells standard errors of what is unknown too."""

    LACKING = f"there is no {LIBRARY}; make lib builds it"

    @staticmethod
    def lacking(programs: Programs) -> str:
        return "" if os.path.exists(LIBRARY) else Library.LACKING

    def wanted(self, asked: Asked, answer: Answer) -> object:
        return self.told_by(answer)

    @classmethod
    def told_by(cls, answer: Answer) -> dict:
        """All that the library tells of an answer."""
        numbers = {name: getattr(answer, name) for name in ("rounds", "time", "downtime", "left", "recorded")}
        numbers |= {name: getattr(answer.plan, name) for name in ("stop", "down", "total")}
        verdicts = {"reason": answer.why, "converges": answer.converges, "kept": answer.kept}
        enough = {**amounts_of(answer.enough), "is_kept": answer.enough.is_kept, "ends": answer.enough.ending.ends}
        more = {"enough": enough, "sure": cls.agreement(answer), "forecast": cls.forecast(answer.forecast)}
        more["shares"] = {"converges": answer.share.verdict, "percent": answer.share.share, "below": answer.share.below}
        return {**numbers, **verdicts, "bytes": answer.sent, "errors": answer.errors, **more}

    @staticmethod
    def forecast(told: Optional[Forecast]) -> dict:
        """What comes of the migration like QEMU: zeros if it begins after the trace."""
        if told is None:
            return {**dict.fromkeys(FORECAST, 0), "end": "not_begun", "kept": "unknown"}
        end = "few_left" if told.ends else "trace_ends"
        amounts = (told.looks, told.time, told.sent, told.left, told.downtime, end, kept_word(told))
        return dict(zip(FORECAST, amounts))

    @staticmethod
    def agreement(answer: Answer) -> dict:
        """How sure the answer is: counts of draws and of starts, and verdicts."""
        draws, starts = answer.agreement.draws or (0, 0, 0, 0), answer.agreement.starts
        told = (*draws, starts.whole, starts.converging, starts.kept, answer.sure_converges, answer.sure_kept)
        return dict(zip(AGREEMENT, told))


class Python(Library):
    """The library in Python."""

    name = "OpenTrace: predict, agreement, enough, forecast, link_shares"

    def told(self, asked: Asked) -> object:
        import precopy  # noqa: PLC0415

        trace = precopy.OpenTrace(read_bytes(asked.trace.path))
        question = precopy.Question(**vars(asked.question))
        try:
            it = trace.predict(question)
        except (precopy.QuestionRefused, precopy.SettingsRefused) as refused:
            return refused.status
        errors = it.errors and (it.errors.bytes, it.errors.time, it.errors.downtime)
        words = {name: getattr(it, name).name.lower() for name in ("reason", "converges", "kept")}
        known = {"errors": errors if words["kept"] != "unknown" else None}
        sure = vars(trace.agreement(question))
        sure |= {name: sure[name].name.lower() for name in ("converges", "kept")}
        more = {"enough": vars(trace.enough(question)), "sure": sure}
        forecast, shares = vars(trace.forecast(question)), vars(trace.link_shares(question))
        more["forecast"] = forecast | {name: forecast[name].name.lower() for name in ("end", "kept")}
        below = None if shares["below"] is None else shares["below"].name.lower()
        more["shares"] = shares | {"converges": shares["converges"].name.lower(), "below": below}
        return {**vars(it), **words, **known, **more}


class C(Library):
    """The library in C, by a program that asks it."""

    name = "precopy_trace_predict, _agreement, _enough, _forecast, _link_shares"
    NUMBERS = "link first downtime reserve tick page sampled guest increment rounds start base"
    ANSWER = "rounds reason stop down total left time bytes downtime recorded converges kept"
    AMOUNTS = ("link", "downtime", "speed", "ending_link", "ending_start")

    @staticmethod
    def lacking(programs: Programs) -> str:
        if lacks := Library.lacking(programs):
            return lacks
        return "" if programs.asker else "there is no cc"

    def all_told(self, some: list[Asked]) -> list[object]:
        lines = "".join(f"{' '.join(map(str, self.numbers(asked)))}\n" for asked in some)
        command = [self.programs.asker, some[0].trace.path]
        done = subprocess.run(command, input=lines, timeout=SECONDS, **HOW)
        told = [self.answer(list(map(int, line.split()))) for line in done.stdout.splitlines()]
        if done.returncode or len(told) != len(some):
            raise Failure(f"status {done.returncode}, {done.stderr[-300:]!r}, {len(told)} answers")
        return told

    def numbers(self, asked: Asked) -> list[int]:
        """The numbers of a question in the order of struct precopy_question."""
        given = vars(asked.question)
        has = [int(given[name] is not None) for name in ("first", "increment", "base")]
        return [given[name] or 0 for name in self.NUMBERS.split()] + has + [int(given["skip"]), int(given["clark"])]

    def answer(self, numbers: list[int]) -> object:
        """What a line of the program tells: twelve numbers, four of standard errors, twelve of what is enough, nine of
        how sure that is, seven of what comes of it like QEMU and three of shares of the link, or a status."""
        if len(numbers) == 1:
            return numbers[0]
        found = dict(zip(self.ANSWER.split(), numbers))
        verdicts = {name: VERDICTS[found[name]] for name in ("converges", "kept")}
        has_errors = numbers[15] and verdicts["kept"] != "unknown"
        errors = tuple(numbers[12:15]) if has_errors else None
        given = zip(self.AMOUNTS, numbers[16:21], numbers[21:26])
        enough = {name: amount if has else None for name, amount, has in given}
        enough |= {"is_kept": numbers[26] != 0, "ends": numbers[27] != 0}
        reason = REASONS[found["reason"]]
        sure = dict(zip(AGREEMENT, numbers[28:37]))
        sure |= {name: VERDICTS[sure[name]] for name in ("converges", "kept")}
        forecast = dict(zip(FORECAST, numbers[37:44]))
        forecast |= {"end": ENDS[forecast["end"]], "kept": VERDICTS[forecast["kept"]]}
        percent, converges, below = numbers[44:]
        shares = {"converges": VERDICTS[converges], "percent": percent}
        shares["below"] = VERDICTS[below] if below != converges else None
        more = {"enough": enough, "sure": sure, "forecast": forecast, "shares": shares}
        return {**found, **verdicts, "reason": reason, "errors": errors, **more}


class Package(Library):
    """The package for Node, by the names of the library. It tells no shares of the link."""

    name = "bindings/js"
    CALLS = ("predict", "agreement", "enough", "forecast")

    @staticmethod
    def lacking(programs: Programs) -> str:
        return Page.lacking(programs)

    def all_told(self, some: list[Asked]) -> list[object]:
        """Large numbers are asked as bigints, which are words that end in n."""
        calls = []
        for asked in some:
            fields = vars(asked.question).items()
            given = {name: f"{it}n" if type(it) is int and it >= 1 << 53 else it for name, it in fields}
            calls += [[call, given] for call in self.CALLS]
        job = {"trace": some[0].trace.path, "calls": calls}
        _, *told = asked_of_package(self.programs.node, self.programs.package, [job])["answers"][0]
        groups = [told[at : at + len(self.CALLS)] for at in range(0, len(told), len(self.CALLS))]
        return [group[0]["status"] if "refused" in group[0] else self.answer(group) for group in groups]

    @classmethod
    def told_by(cls, answer: Answer) -> dict:
        return {name: it for name, it in super().told_by(answer).items() if name != "shares"}

    @staticmethod
    def answer(told: list[dict]) -> dict:
        """What the calls tell of a question, as the library does in Python."""
        predicted, sure, enough, forecast = map(whole, told)
        errors = predicted["errors"] and tuple(predicted["errors"][name] for name in ("bytes", "time", "downtime"))
        known = errors if predicted["kept"] != "unknown" else None
        return {**predicted, "errors": known, "sure": sure, "enough": enough, "forecast": forecast}


def whole(told: dict) -> dict:
    """What the package tells, by the names of the library, and with a number for each bigint."""

    def plain(it: object) -> object:
        if isinstance(it, dict):
            return whole(it)
        return int(it[:-1]) if isinstance(it, str) and it[:-1].isdigit() else it

    return {re.sub("[A-Z]", lambda found: f"_{found[0].lower()}", name): plain(it) for name, it in told.items()}


DOORS = [Lines, Document, Tool, Page, C, Python, Package]


def asker(folder: str) -> str:
    """Compiles the program that asks the library for C, or returns nothing if there is no compiler or no library."""
    archive, path = os.path.join(LIBRARY, "libprecopy.a"), os.path.join(folder, "prediction_answers")
    if not os.path.exists(LIBRARY) or why_not("cc"):
        return ""
    words = ["-std=c99", "-O1", f"-I{TOP}/include", "-o", path, f"{TOP}/checks/predictions/answers.c", archive]
    done = subprocess.run(["cc", *words], capture_output=True, text=True, check=False)
    if done.returncode:
        raise Failure(f"checks/predictions/answers.c is not compiled: {done.stderr[-300:]}")
    return path


def kept_word(told: Forecast) -> str:
    """Whether a migration like QEMU keeps its limit: it is unknown if the trace ends first."""
    return "unknown" if not told.ends else "yes" if told.is_kept else "no"


def amounts_of(found: Remedies) -> dict[str, Optional[int]]:
    """The amounts that are enough, with links in bytes a second."""
    ending = {"ending_link": found.ending.link and 125 * found.ending.link, "ending_start": found.ending.start}
    return {"link": found.link and 125 * found.link, "downtime": found.downtime, "speed": found.speed, **ending}


def difference(door: Door, asked: Asked, found: object, answer: Optional[Answer]) -> str:
    """What differs at a door from what should be told, or nothing."""
    refusal = asked.question.refusal(asked.trace, door.is_of_library)
    wanted = door.refused(asked, refusal) if refusal else door.wanted(asked, answer)
    return "" if found == wanted else f"{asked}, at {door.name}: {found} in place of {wanted}"


def compare(door: Door, some: list[Asked], answers: list[Optional[Answer]]) -> list[str]:
    """What differs at a door, of each of some questions about one trace that can be asked there."""
    pairs = [(asked, answer) for asked, answer in zip(some, answers) if door.is_asked(asked)]
    try:
        told = door.all_told([asked for asked, _ in pairs]) if pairs else []
        return [difference(door, asked, found, answer) for (asked, answer), found in zip(pairs, told, strict=True)]
    except Exception:
        return [f"{asked}, at {door.name}: {traceback.format_exc()}" for asked, _ in pairs]
