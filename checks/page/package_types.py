"""What index.d.ts of the package for Node says of answers, and whether what Node tells is of these types."""

import re

from precopy_dev.tree import read

TYPES = "bindings/js/index.d.ts"
# The types of the answers, and those of the rows of answers that are lists.
ANSWERS = {
    "predict": "Prediction",
    "agreement": "Agreement",
    "enough": "Amounts",
    "forecast": "Forecast",
    "plan": "Sums",
}
ROWS = {"rounds": "Round", "windows": "Window"}


def fields_by_type():
    """The fields of each interface, by their names, with the words of their types."""
    field = re.compile(r"^  (?:readonly )?(\w+)\??: (.+);$", re.M)
    found = re.findall(r"^export interface (\w+) \{\n(.*?)^\}", read(TYPES), re.M | re.S)
    return {name: {it: kind.split(" | ") for it, kind in field.findall(body)} for name, body in found}


def words_by_type():
    """The words that a type has, of those that have words."""
    found = re.findall(r'^export type (\w+) = (".*);$', read(TYPES), re.M)
    return {name: re.findall(r'"(\w+)"', body) for name, body in found}


class Types:
    """The types of answers, as they are told by JSON: a bigint is a word that ends in n."""

    def __init__(self):
        self.fields, self.words = fields_by_type(), words_by_type()

    def is_of(self, kind, value):
        if kind in self.fields:
            fields = self.fields[kind]
            is_same = type(value) is dict and value.keys() == fields.keys()
            return is_same and all(any(self.is_of(it, value[name]) for it in kinds) for name, kinds in fields.items())
        if kind in self.words:
            return value in self.words[kind]
        if kind == "bigint":
            return type(value) is str and re.fullmatch(r"\d+n", value) is not None
        return value is None if kind == "null" else type(value) is {"number": int, "boolean": bool}[kind]

    def wrong(self, call, told):
        """The answers to a call, or the rows of one, that are not of their type."""
        rows, kind = (told, ROWS[call]) if call in ROWS else ([told], ANSWERS[call])
        return [row for row in rows if not self.is_of(kind, row)]
