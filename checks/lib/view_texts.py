"""What precopy and precopy-view write of a trace, as facts; and the documents of precopy-view against their schemas."""

import json
from fractions import Fraction

from checks.lib.harness import run
from checks.lib.tally import Failure, module
from precopy_dev.files import read_json
from precopy_dev.tree import TOP

# A program that waits for a processor beside other work is slow, and not wrong.
SECONDS = 300


def ran(program, words, trace):
    with open(trace, "rb") as source:
        done = run([program, *words], stdin=source, seconds=SECONDS)
    return done.status, done.output.decode(), done.faults.decode()


def told(program, words, trace):
    """Returns the text that a program writes over a trace."""
    status, text, faults = ran(program, words, trace)
    if status or faults:
        raise Failure(f"{words}: status {status}, {faults[:200]!r}")
    return text


# ---- The facts of the texts, under their own names.


def facts(words):
    """Returns the names and numbers of a line that has them in turn. A word that is no number stays one."""
    return {name: int(value) if value.isdigit() else value for name, value in zip(words[::2], words[1::2])}


def report_facts(text):
    report = {"trace": None, "windows": [], "hot": None, "rounds": [], "stop": None}
    for line in text.splitlines():
        words = line.split()
        if words[0] == "trace":
            report["trace"] = facts(words[1:])
        elif words[0] == "window":
            report["windows"].append(facts(words))
        elif words[0] == "hot":
            report["hot"], count = {"windows": int(words[1]), "pages": []}, int(words[3])
        elif words[0] == "page":
            report["hot"]["pages"].append(int(words[1]))
        elif words[0] == "round":
            report["rounds"].append(facts(words))
        else:
            report["stop"] = {"why": words[1], **facts(words[2:])}
    if count != len(report["hot"]["pages"]):
        raise Failure("the report counts other hot pages than it lists")
    return report


def sweep_facts(text):
    *lines, best = [line.split() for line in text.splitlines()]
    cases = [facts(words) for words in lines]
    return {"cases": [{**case, "skip": case["skip"] == 1} for case in cases], "best": int(best[1])}


# ---- The texts of facts.


def words_of(facts):
    """The line of some names and numbers."""
    return " ".join(f"{name} {int(it) if isinstance(it, bool) else it}" for name, it in facts.items())


def report_text(report):
    """The text of a report, byte for byte."""
    hot, ends = report["hot"], dict(report["stop"])
    lines = [f"trace {words_of(report['trace'])}", *map(words_of, report["windows"])]
    lines += [f"hot {hot['windows']} pages {len(hot['pages'])}", *(f"page {page}" for page in hot["pages"])]
    lines += [*map(words_of, report["rounds"]), f"stop {ends.pop('why')} {words_of(ends)}"]
    return "".join(f"{line}\n" for line in lines)


def sweep_text(sweep):
    """The text of a sweep."""
    return "".join(f"{line}\n" for line in (*map(words_of, sweep["cases"]), f"best {sweep['best']}"))


# ---- Documents.


def schema_of(name):
    return read_json(TOP, "docs", f"{name}.schema.json")


def is_ordered(schema, value, whole):
    """Whether the members of all objects come in the order of their schema."""
    if "$ref" in schema:
        schema = whole["$defs"][schema["$ref"].rsplit("/", 1)[1]]
    if isinstance(value, list):
        return all(is_ordered(schema["items"], item, whole) for item in value)
    if not isinstance(value, dict):
        return True
    names = [name for name in schema["properties"] if name in value]
    return list(value) == names and all(is_ordered(schema["properties"][name], value[name], whole) for name in names)


def keeps_schema(name, document):
    """Tests a document by a schema of docs/."""
    schema, jsonschema = schema_of(name), module("jsonschema")
    fault = next(jsonschema.Draft202012Validator(schema).iter_errors(document), None)
    if fault:
        raise Failure(f"{fault.json_path}: {fault.message}")
    if not is_ordered(schema, document, schema):
        raise Failure(f"the document has its members in another order: {document}")


def once(members):
    """Returns an object whose names each come once."""
    if len({name for name, _ in members}) != len(members):
        raise Failure("a name comes twice in one object")
    return dict(members)


def document_of(name, text, parse_float=float):
    """The document of a command of precopy-view, which keeps its schema."""
    if text.count("\n") != 1 or not text.endswith("\n"):
        raise Failure("the document is not one line")
    keeps_schema(f"view-{name}", json.loads(text, object_pairs_hook=once))
    return json.loads(text, parse_float=parse_float)


def parsed(name, text):
    """The same, with its numbers as they are written."""
    return document_of(name, text, Fraction)
