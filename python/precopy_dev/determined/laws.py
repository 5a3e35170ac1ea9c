"""The laws of uniqueness that calls state: a relation holds of one value alone."""

import functools
import itertools
import re
from dataclasses import dataclass

from precopy_dev import contracts
from precopy_dev.determined.propositions import definition_of, fitted, parsed, paths


@dataclass
class Law:
    """A proved law of uniqueness of a relation: its arguments, in which names stand for anything, those of the names
    that others need not determine, and the one of these that it determines."""

    name: str
    arguments: list
    names: set
    open: set
    value: str


class Laws:
    """The laws of uniqueness that clauses of calls state, by the relation that they speak of."""

    def __init__(self):
        self.found, self.apart = {}, []
        for crate in contracts.crates():
            for call in contracts.calls(crate):
                for clause, text in clauses_of(call):
                    self.read(crate, call, clause, parsed(text))

    def read(self, crate, call, clause, tree):
        """Takes up a clause `R a x → R a y → x ≡ y`, or `R a x → result ≡ Err x`, or `R x → ¬ S x`, for all x and y,
        whatever premises stand before."""
        names, premises, end = parts_of(tree)
        if end[0] == "app" and end[1] == ("id", "¬") and premises and not premises[-1][0] == "bin":
            self.apart.append((call.name, {*names}, premises[-1], end[2][0]))
        if end[0] != "bin" or end[1] != "≡":
            return
        left, right = end[2], end[3]
        uses = [one for one in premises if one[0] == "app" and one[1][0] == "id"]
        if left == ("id", "result") and right[0] == "app" and right[1][1] in ("Ok", "Err") and len(uses) == 1:
            if right[2][0] in uses[0][2]:
                value = right[2][0][1]
                every = {path for one in uses[0][2] for path in paths(one)}
                self.add(crate, call, uses[0], Law(f"{call.name}: {clause}", uses[0][2], every, {value}, value))
        for one, other in itertools.combinations(uses, 2):
            mine, others = ({path for path in paths(use) if path in names} for use in (one, other))
            renamed = fitted(one, other, mine, {}) if one[1] == other[1] else None
            if renamed and left[0] == "id" and left[1] in mine - others and renamed[left[1]] == right:
                self.add(crate, call, one, Law(call.name, one[2], mine, mine - others, left[1]))

    def add(self, crate, call, use, law):
        meant = definition_of(use[1][1], f"{contracts.TOP}/crates/{crate}/src/{call.path}")
        if meant:
            self.found.setdefault((meant.crate, meant.path, meant.name), []).append(law)

    def of(self, meant):
        return self.found.get((meant.crate, meant.path, meant.name), []) if meant else []


def conjuncts(tree):
    if tree[0] == "bin" and tree[1] == "×":
        yield from conjuncts(tree[2])
        yield from conjuncts(tree[3])
    else:
        yield tree


def parts_of(tree):
    """Returns the names, the premises and the conclusion of a clause for all values of some names."""
    names, premises = [], []
    while tree[0] == "all" or tree[0] == "bin" and tree[1] == "→":
        if tree[0] == "all":
            names += tree[1]
            tree = tree[2]
        else:
            premises += conjuncts(tree[2])
            tree = tree[3]
    return names, premises, tree


@functools.cache
def named_in(path):
    """Returns the laws that a file names for relations, in lines above its contracts: "`R` holds of one value alone:
    `law`", or with more words between."""
    found = {}
    for line in re.findall(r"^// (`\w+` holds\b.*)$", contracts.read(path), re.M):
        for relation, names in re.findall(r"`(\w+)` (?:holds|does)\b[^:`]*: (`[^`]+`(?:, `[^`]+`)*)", line):
            found[relation] = re.findall(r"`([^`]+)`", names)
    return found


def clauses_of(call):
    """Yields the name and the text of each clause that a call ensures."""
    for found in re.finditer(r"\bensures (?:(\w+) )?\{", call.text):
        text = call.text[found.end() : contracts.end_of(call.text, found.end() - 1)]
        text = re.sub(r"//.*", "", text)
        yield found[1] or "result", " ".join(text.split())


@functools.cache
def laws():
    return Laws()
