"""The package for Node that `make js` makes: what is in it, how it is installed, what its types and its README say, and
what it refuses. checks/page/package_answers.py tries what it answers."""

import json
import os
import re
import shutil

from checks.documents.refusal_words import words_by_name
from checks.lib.harness import run
from checks.lib.tally import expect, has
from checks.lib.worked import A, damaged
from checks.page import package_answers, package_types
from checks.page.node import SCRIPT, asked_of_package, run_tests
from checks.page.package_answers import OF_QUESTIONS, OF_SETTINGS
from precopy_dev import interface
from precopy_dev.files import read_bytes, write_file
from precopy_dev.packaging import notices
from precopy_dev.tree import TOP, read
from precopy_tools.version import VERSION

ENGINE = {"engine/planner.js", "model/interface.js", "model/questions.js"}
FILES = {"LICENSE", "NOTICES", "README.md", "index.d.ts", "index.js", "package.json", "planner.wasm", "statuses.js"}
SECONDS = 120

# What is refused of settings and questions, with the library's status and sentence.
WRONG = [
    ({"increment": 1_000_001}, 23, "settings S3: increment is more than 1,000,000"),
    ({"rounds": 65}, 25, "settings S5: rounds is not 1 to 64"),
    ({"start": 1 << 40}, 28, "settings S8: start is 2^40 or more"),
    ({"base": 1}, 30, "settings S10: base is after start"),
]
WRONG_SETTINGS = [
    ({"min": 0}, 21, "settings S1: min is not 1 to 1,000,000"),
    ({"max": 999}, 22, "settings S2: max is not min to 1,000,000"),
    ({"threshold": 65_537}, 24, "settings S4: threshold is not 1 to 65,536"),
    ({"window": (1 << 40) + 1}, 26, "settings S6: window is not 1 to 2^40"),
    *WRONG,
]
# Of a trace of four pages of 16 bytes, by Clark's rounds: a hypervisor has no first round.
QUESTION = {"link": 16_000, "downtime": 9_000, "page": 16, "clark": True}
RATE = "question: the rate of"
WRONG_QUESTIONS = [
    ({"tick": 1_000_001}, 81, "question: a tick is not 1 microsecond to 1 second"),
    ({"page": 8}, 82, "question: a page does not have 16 to 4,096 bytes"),
    ({"sampled": 2}, 83, "question: not 1 page to all of the guest were sampled, or it has more than 2^32"),
    ({"link": 15}, 84, f"{RATE} the link is not 1 to 1,000,000 pages per 1,000 ticks; take another tick"),
    ({"first": 16_016}, 85, f"{RATE} the first round is not 1 page per 1,000 ticks to that of the link"),
    ({"reserve": 9_001}, 86, "question: the reserve is longer than the downtime"),
    ({"downtime": 1 << 40}, 87, "question: more than 65,535 pages go over the link within the downtime"),
    ({"page": 32}, 88, "the pages of the trace have another size than the question says"),
    ({"sampled": 3, "guest": 9}, 89, "the trace has more pages than the question says were sampled"),
    *WRONG,
]
# Tests in Node are refused for E15 and for memory, and no call here has the setting of S7.
ELSEWHERE = {15, 16, 27}


# ---- What is made, and how it is installed.


def made_at(module, folder):
    return run([os.path.join(TOP, "dev", "js-package"), module, folder], seconds=SECONDS)


def bytes_below(folder):
    found = {}
    for at, _, names in os.walk(folder):
        for path in (os.path.join(at, name) for name in names):
            found[os.path.relpath(path, folder)] = read_bytes(path)
    return found


def check_made(case, made, module):
    """Makes the package twice, and once more over what was there."""
    again, other = f"{made}-again", f"{made}-other"
    for place in (made, again):
        done = made_at(module, place)
        expect(done.status == 0, f"dev/js-package: {done}")
    files = bytes_below(made)
    case.add(files == bytes_below(again), "the same sources give two packages")
    case.add(files.keys() == FILES | ENGINE, f"the package has {sorted(files)}")
    wanted = {name: read(f"web/{name}") for name in ENGINE} | {"LICENSE": read("LICENSE")}
    wanted |= {"NOTICES": notices.notices(notices.PLANNER)}
    case.add(all(files[name].decode() == text for name, text in wanted.items()), "a file of the package is another")
    told = json.loads(files["package.json"])
    known = (told["name"], told["version"], told["type"], told["license"])
    case.add(known == ("precopy-planner", VERSION, "module", "Apache-2.0"), f"package.json tells {known}")
    named = re.findall(r'": "\./([^"]+)"', files["package.json"].decode())
    case.add(len(named) == 4 and files.keys() >= set(named), f"package.json names {named}")
    os.mkdir(other)
    for place in (again, other):
        shutil.copy(os.path.join(made, "LICENSE"), os.path.join(place, "left"))
    case.add(made_at(module, again).status == 0 and bytes_below(again) == files, "an earlier package leaves a file")
    refused = made_at(module, other)
    told = f"dev/js-package: {other} is there, and has no earlier package\n"
    case.add((refused.status, refused.faults.decode()) == (1, told), f"a folder of somebody: {refused}")
    case.add(os.listdir(other) == ["left"], f"a folder of somebody has {os.listdir(other)} then")


def installed(case, folder, made):
    """Installs the package in another folder, by npm if that is there. Returns the folder, with the checks' scripts."""
    place = os.path.join(folder, "user")
    os.makedirs(os.path.join(place, "node_modules"))
    write_file('{ "private": true, "type": "module" }\n', place, "package.json")
    if shutil.which("npm"):
        words = ["npm", "install", "--offline", "--no-audit", "--no-fund", "--no-update-notifier", made]
        done = run(words, cwd=place, seconds=SECONDS, env={**os.environ, "npm_config_cache": f"{folder}/npm"})
        case.add(done.status == 0, f"npm install: {done}")
    else:
        os.symlink(made, os.path.join(place, "node_modules", "precopy-planner"))
    for name in (SCRIPT, "package.test.mjs", "package.mts"):
        shutil.copy(os.path.join(TOP, "checks", "page", name), place)
    os.symlink(os.path.join(TOP, "examples"), os.path.join(place, "examples"))
    return place


# ---- What its types and its README say.


def defaults_of(macro, fields):
    """The numbers of a macro of include/precopy.h by the fields of its struct, in the names of JavaScript."""
    body = re.search(rf"#define PRECOPY_{macro}_DEFAULT[ \\\n]*\{{sizeof\([^)]*\), ([^}}]*)\}}", read(interface.HEADER))
    told = dict(zip((it.name for it in fields[1:]), map(int, body[1].split(",")), strict=True))
    given = {name: None if told.get(f"has_{name}") == 0 else it for name, it in told.items() if name[:4] != "has_"}
    return {name: bool(it) if name in ("skip", "clark") else it for name, it in given.items()}


def check_names(case, told):
    """Fields, calls and defaults are those of the header, and index.d.ts names what Node has."""
    structs, types = interface.read_header(read(interface.HEADER)).structs, package_types.fields_by_type()
    for name in ("Settings", "Sums", "Round", "Question", "Prediction", "Errors", "Amounts", "Forecast", "Agreement"):
        fields = {interface.lower_camel(it.name) for it in structs[name] if not it.name.startswith(("has_", "size"))}
        more = {"errors"} if name == "Prediction" else set()
        wanted = fields - {"hot"} | more
        case.add(types[name].keys() == wanted, f"{name} has {sorted(types[name])}, and in C {sorted(wanted)}")
    settings, question = defaults_of("SETTINGS", structs["Settings"]), defaults_of("QUESTION", structs["Question"])
    case.add((settings.pop("hot"), question.pop("link"), question.pop("downtime")) == (2, 0, 0), "other defaults in C")
    case.add(told["SETTINGS_DEFAULT"] == settings, f"{told['SETTINGS_DEFAULT']} in place of {settings}")
    case.add(told["QUESTION_DEFAULT"] == question, f"{told['QUESTION_DEFAULT']} in place of {question}")
    text = read("bindings/js/index.d.ts")
    names = sorted(re.findall(r"^export (?:const|class|function) (\w+)", text, re.M))
    case.add(told["names"] == names, f"the package has {told['names']}, and its types {names}")
    body = re.search(r"^export class OpenTrace \{\n(.*?)^\}", text, re.M | re.S)[1]
    calls = sorted(re.findall(r"^  (\w+)\(.*\): ", body, re.M))
    case.add(
        told["calls"] == calls == sorted([*OF_SETTINGS, *OF_QUESTIONS]),
        f"a trace has {told['calls']}, and its type {calls}",
    )
    in_c = {call for call in calls if re.search(rf" precopy_trace_{call}\(", read(interface.HEADER))}
    case.add({*calls} - in_c == {"windows"}, f"of {calls} the library has {sorted(in_c)}")
    named = " ".join(re.findall(r"^\| (`.*?) \|", read("bindings/js/README.md"), re.M))
    case.add(sorted(re.findall(r"`(\w+)`", named)) == sorted([*calls, "sizes"]), f"the README names {named}")


def check_types(case, place):
    """The types allow what is right, and refuse what is not."""
    words = ["--noEmit", "--strict", "--skipDefaultLibCheck", "--target", "es2022", "--lib", "es2022"]
    words += ["--module", "nodenext", "--moduleResolution", "nodenext", "package.mts"]
    done = run(["tsc", *words], cwd=place, seconds=SECONDS)
    case.add(done.status == 0 and not done.output, f"{done.output.decode()[:600]}{done}")


def check_readme(case, command, place):
    """The example of the README prints what stands below it."""
    text = read("bindings/js/README.md")
    example, printed = re.search(r"^```js\n(.*?)^```\n\nIt prints:\n\n((?:    [^\n]*\n)+)", text, re.M | re.S).groups()
    write_file(example, place, "example.mjs")
    done = run([*command, "--no-warnings", "example.mjs"], cwd=place, seconds=SECONDS)
    wanted = "".join(line[4:] for line in printed.splitlines(True))
    case.add(done.status == 0 and done.output.decode() == wanted, f"{done.output.decode()}{done} in place of\n{wanted}")


# ---- What is refused.


def codes_by_status():
    return {it.number: it.constant for it in interface.read_header(read(interface.HEADER)).statuses}


def check_damages(case, command, place, folder):
    """A trace that is refused is, by the number, the record and the sentence that docs/FORMATS.md has."""
    rows, words, codes = list(damaged()), words_by_name(), codes_by_status()
    paths = [os.path.join(folder, f"damaged-{number}.pcwt") for number in range(len(rows))]
    for path, (text, _) in zip(paths, rows):
        write_file(text, path)
    told = asked_of_package(command, place, [{"trace": path, "calls": []} for path in paths])["answers"]
    for (_, line), found in zip(rows, told, strict=True):
        name, _, record = line.partition(" record ")
        where = f" (record {record})" if record else ""
        wanted = {"refused": "TraceRefused", "status": int(name[1:]), "record": int(record) if record else None}
        wanted |= {"code": codes[wanted["status"]], "message": f"trace {name}: {words[name]}{where}"}
        case.add(found == [wanted], f"{line}: {found} in place of {wanted}")


def check_refusals(case, command, place, folder):
    """Settings and questions that are refused are by each call, by their status and their sentence."""
    path = write_file(A, folder, "a.pcwt")
    tries = [(call, it, *row) for it, *row in WRONG_SETTINGS for call in OF_SETTINGS]
    tries += [(call, {**QUESTION, **it}, *row) for it, *row in WRONG_QUESTIONS for call in OF_QUESTIONS]
    calls = [(call, given) for call, given, _, _ in tries]
    answers = asked_of_package(command, place, [{"trace": path, "calls": calls}])["answers"][0]
    codes = codes_by_status()
    for (call, given, status, told), found in zip(tries, answers[1:], strict=True):
        kind = "SettingsRefused" if status < 40 else "QuestionRefused"
        wanted = {"refused": kind, "status": status, "code": codes[status], "record": None, "message": told}
        case.add(found == wanted, f"{call} of {given}: {found} in place of {wanted}")
    listed = {int(number) for number in re.findall(r"^  (\d+): ", read("bindings/js/statuses.js"), re.M)}
    met = {status for _, status, _ in [*WRONG_SETTINGS, *WRONG_QUESTIONS]}
    met |= {int(line.split()[0][1:]) for _, line in damaged()} | ELSEWHERE
    case.add(listed == met, f"no call is refused by {sorted(listed ^ met)}")


# ---- All of it.


def check(tally, command, folder, module):
    """Makes the package of a module, installs it, and tries what it has and does."""
    room = os.path.join(folder, "package")
    os.mkdir(room)
    made, place = os.path.join(room, "js"), None
    with tally.case("the package is made and installed") as case:
        check_made(case, made, module)
        place = installed(case, room, made)
    if place is None:
        return
    run_tests(tally, command, os.path.join(place, "package.test.mjs"), "the package")
    with tally.case("the README of the package") as case:
        check_readme(case, command, place)
    with tally.case("the names of the package") as case:
        check_names(case, asked_of_package(command, place, []))
    with tally.case("traces that the package refuses") as case:
        check_damages(case, command, place, room)
    with tally.case("settings and questions that the package refuses") as case:
        check_refusals(case, command, place, room)
    if has("tsc", "node-typescript", "the types of the package"):
        with tally.case("the types of the package") as case:
            check_types(case, place)
    package_answers.check(tally, command, place, room)
