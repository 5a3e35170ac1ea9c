"""The types of the sources as contracts see them, and their fields."""

import functools
import re

from precopy_dev import contracts
from precopy_dev.determined import propositions


@functools.cache
def fields_of(type_text, path):
    """Returns the fields of a type that a file names, as contracts see it, and their types, or None."""
    text = re.sub(r"^&(?:'\w+ )?(?:mut )?|\bconst\b", "", type_text).strip()
    if text.startswith("(") and text.endswith(")") and "," in text:
        return dict(enumerate_parts(text[1:-1]))
    head = re.match(r"\w+", text)
    found = declared().get(head[0], {}) if head else {}
    own = re.search(r"/crates/(\w+)/", path)[1]
    used = re.findall(rf"^use (\w+)::[^;]*\b{head[0]}\b", contracts.read(path), re.M) if head else []
    crate = next((one for one in (own, *used) if one in found), next(iter(found), None))
    return found.get(crate)


def enumerate_parts(text):
    for number, part in enumerate(split_at_commas(text)):
        yield str(number), part


def split_at_commas(text):
    depth, part = 0, ""
    for char in text:
        depth += (char in "(<[{") - (char in ")>]}")
        if char == "," and not depth:
            yield part.strip()
            part = ""
        else:
            part += char
    if part.strip():
        yield part.strip()


@functools.cache
def declared():
    """Returns the fields of each type by its name and its crate: those of its model, or None if that is no record."""
    types, records = {}, propositions.definitions()
    for name, found in records.items():
        for one in found:
            if one.kind == "record" and not one.takes and all(is_type(text) for _, text in one.facts):
                types.setdefault(name, {})[one.crate] = dict(one.facts)
    for crate in contracts.crates():
        for path in contracts.sources(crate, "src", ".rt"):
            text = contracts.read(path)
            for name, body in re.findall(r"pub struct (\w+)(?:<[^{;(]*>)? \{(.*?)^\}", text, re.M | re.S):
                fields = re.findall(r"^    (?:pub(?:\(\w+\))? )?(\w+): (.*),$", body, re.M)
                types.setdefault(name, {})[crate] = {field: type_ for field, type_ in fields if type_ != "Global"}
    for crate in contracts.crates():
        for path in contracts.sources(crate, "src", ".rt"):
            text = contracts.read(path)
            for name, value in re.findall(r"impl(?:<.*?>)? Model for (\w+).*?ghost Value = \{ (\w+)", text, re.S):
                record = next((one for one in records.get(value, []) if one.kind == "record"), None)
                types.setdefault(name, {})[crate] = dict(record.facts) if record else None
    return types


def is_type(text):
    """Returns whether a fact of a record is a value of some type, and no proposition."""
    return (
        bool(re.fullmatch(r"[\wℕ]+|(?:List|Option|Vec) .*|\(.*→ Bool\)|ℕ → \S+|.*\bGlobal", text)) and "≡" not in text
    )
