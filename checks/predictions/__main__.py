"""Asks the same questions at each door of a prediction, and compares the answers to the last digit.

    checks/run predictions [--seed N] [--questions COUNT] [--module MODULE] [PRECOPY_VIEW]

MODULE is out/browser_planner.wasm, which `make page` builds, if none is given. Of 200 random questions, or of COUNT if
that is more, two thirds are about eight traces and a third about four records; half go by a hypervisor's looks, and
half by Clark's rounds. They are asked of precopy-view, in lines and in JSON, of the library in C and in Python, if
`make lib` has built it, of the page's module and the package for Node, if that is there, and those about records of
tools/predict. All must answer what a plain model does, which plans page by page, in all that they tell, or refuse by
the same words or number. At most a fifth is refused, and of each plan, verdict, end like QEMU and kind of shares of the
link there are a number, and several ends of each plan. A question at a door is a case.
"""

import collections
import concurrent.futures
import itertools
import os
import tempfile
from typing import Optional

from checks.lib.harness import expect, left_out, run_main, seed
from checks.lib.migration_model import Answer, Question, answer_of
from checks.page.node import node_command, put_package, put_web
from checks.predictions import questions
from checks.predictions.doors import DOORS, Programs, asker, compare
from checks.predictions.questions import Asked
from precopy_dev.tree import TOP

VERDICTS = {"yes": 20, "no": 4, "uncertain": 8, "unknown": 10, "refused": 4}
OTHERS = {"few left": 20, "trace ends": 10, "not begun": 4, "share turns": 10, "no share turns": 10}
# By each plan, and how these end. No draw makes 2,000 looks.
PLANS = {"looks": 50, "looks end with few": 20, "looks end with cut": 4, "looks end with level": 1}
PLANS |= {"rounds": 50, "rounds end with few": 20, "rounds end with fast": 1, "rounds end with rounds": 1}
FEW, AT_ONCE = 6, 4


def kinds_of(asked: Question, answer: Optional[Answer]) -> list[str]:
    """Of which kinds an answer is: its verdict, and if it is not refused its end like QEMU, its shares, and the plan
    with its end."""
    if answer is None:
        return ["refused"]
    end = "not begun" if answer.forecast is None else "few left" if answer.forecast.ends else "trace ends"
    plan = asked.manner().value
    shares = "share turns" if answer.share.below else "no share turns"
    return [answer.sure_kept, end, shares, plan, f"{plan} end with {answer.why}"]


def tried(programs: Programs, some: list[Asked]) -> tuple[list[str], list[str]]:
    """The kinds of the model's answers to some questions about one trace, and what differs from these at each door."""
    answers = [answer_of(asked.question, asked.trace) for asked in some]
    doors = [door(programs) for door in DOORS if not door.lacking(programs)]
    found = [fault for door in doors for fault in compare(door, some, answers)]
    return [kind for asked, answer in zip(some, answers) for kind in kinds_of(asked.question, answer)], found


def draw_and_trace(asked: Asked) -> str:
    return f"{asked.draw} {asked.trace.path}"


def by_trace(asked: list[Asked]) -> list[list[Asked]]:
    """The questions of a draw about a trace, in lists of a few."""
    groups = itertools.groupby(sorted(asked, key=draw_and_trace), key=draw_and_trace)
    some = [list(group) for _, group in groups]
    return [group[at : at + FEW] for group in some for at in range(0, len(group), FEW)]


def programs_of(folder: str, view: str, module: str) -> Programs:
    """The programs; says which doors are not there."""
    web, module = put_web(folder, "predictions.mjs"), os.path.abspath(module)
    package = put_package(folder, module) if os.path.exists(module) else ""
    programs = Programs(view, module, web, package, node_command(), asker(folder))
    for door in DOORS:
        if lacking := door.lacking(programs):
            left_out(f"questions at {door.name}", lacking)
    return programs


def expect_each(kinds: collections.Counter) -> None:
    told = ", ".join(f"{kind} {count}" for kind, count in sorted(kinds.items()))
    least, all_asked = VERDICTS | OTHERS | PLANS, sum(kinds[verdict] for verdict in VERDICTS)
    expect(5 * kinds["refused"] <= all_asked, f"more than a fifth is refused: {told}")
    expect(all(kinds[kind] >= count for kind, count in least.items()), f"fewer than {least}: {told}")
    print(f"{all_asked} questions: {told}")


def check(tally, given):
    seed()
    kinds = collections.Counter()
    with tempfile.TemporaryDirectory() as folder, concurrent.futures.ProcessPoolExecutor(AT_ONCE) as pool:
        asked = questions.all_asked(folder, given.questions)
        programs = programs_of(folder, given.precopy_view, given.module)
        groups = by_trace(asked)
        for group, (told, found) in zip(groups, pool.map(tried, [programs] * len(groups), groups)):
            kinds.update(told)
            for fault in found:
                tally.add(not fault, fault, group[0].draw)
    tally.tries("kinds of answers", expect_each, kinds)


def more(parser):
    told = f"at least so many questions; {questions.LEAST}"
    parser.add_argument("--questions", type=int, default=questions.LEAST, metavar="COUNT", help=told)
    parser.add_argument("--module", default=os.path.join(TOP, "out", "browser_planner.wasm"), help="the page's module")


if __name__ == "__main__":
    run_main(check, __doc__, "precopy_view", more=more)
