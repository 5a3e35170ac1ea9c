"""What some propositions determine: by an equation that they are or unfold to, or by a law of uniqueness.

A name that propositions leave open is determined if they allow it no two values, as far as this module sees. It goes
from what is known to the open names of an equation and of a relation that a law makes unique, and through definitions
of one equation or record. It knows no arithmetic, and does not see that two cases exclude each other."""

import functools
import itertools
import re

from precopy_dev import contracts
from precopy_dev.determined import propositions
from precopy_dev.determined.laws import laws
from precopy_dev.determined.propositions import Unread, applied, definition_of, fitted, parsed, paths, put, shown
from precopy_dev.determined.typed import fields_of, is_type

DEPTH = 8
# Functions that a value has no two of: they show it as contracts speak of it, or build from it what holds it.
WHOLE = {"Some", "Ok", "Err", "pair", "shown", "shape_of", "outcome_of", "reason_of", "rule_of", "map", "option_map"}
WHOLE |= {"in_words", "shape_in", "app_of", "bit_pages", "core_with"}
# Of these one argument alone is the value; the others are known.
VALUE_AT = {"map": 1, "option_map": 1, "bit_pages": 1, "core_with": 0}
# Functions that show a part of a value.
PART = {"copy_table": "id", "guest_table": "id"}
# Relations between two values that are one.
SAME = {"SamePages"}
# What stands among laws if one of the cases is want of memory, which is told apart.
NO_MEMORY = "memory"
FRESH = itertools.count()
WORKING = set()


class Solver:
    """Propositions and the open names that they determine."""

    def __init__(self, path, open_names, types):
        self.path, self.open, self.types = path, set(open_names), dict(types)
        self.done, self.equations, self.uses, self.tests, self.said = {}, [], [], [], {}
        self.may_lack_memory = False

    # ---- What is known.

    def base(self, path):
        """Returns the open name that a path begins with, or None."""
        return next((name for name in (path, path.rpartition(".")[0]) if name in self.open), None) or next(
            (name for name in self.open if path.startswith(f"{name}.")), None
        )

    def laws_of_path(self, path):
        """Returns the laws by which a path is determined, or None if it is open."""
        name = self.base(path)
        if name is None:
            return frozenset()
        at = path
        while True:
            if at in self.done:
                return self.done[at]
            if at == name:
                break
            at = at.rpartition(".")[0]
        return self.by_fields(path, self.type_of(path, name), 0)

    def type_of(self, path, name):
        kind = self.types.get(name, "")
        for part in path[len(name) + 1 :].split(".") if path != name else []:
            if part in ("now", "items", "new"):
                continue
            fields = fields_of(kind, self.path) or {}
            kind = fields.get(part, "")
        return kind

    def by_fields(self, path, kind, depth):
        for whole in (f"{path}.now", f"{path}.items", f"{path}.now.items"):
            if whole in self.done:
                return self.done[whole]
        fields = fields_of(kind, self.path) if kind and depth < 4 else None
        if not fields:
            return None
        found = set()
        for field, inner in fields.items():
            at = f"{path}.{field}"
            laws_here = self.done.get(at)
            if laws_here is None:
                laws_here = self.by_fields(at, inner, depth + 1)
            if laws_here is None:
                return None
            found |= laws_here
        return frozenset(found)

    def laws_of(self, tree):
        """Returns the laws by which all of a tree is determined, or None if something of it is open."""
        found = set()
        for path in paths(tree):
            here = self.laws_of_path(path)
            if here is None:
                return None
            found |= here
        return frozenset(found)

    def settle(self, tree, by):
        """Takes up that this term has one value, by these laws. Returns whether that is new."""
        if tree[0] == "id":
            name = self.base(tree[1])
            if name is None or self.laws_of_path(tree[1]) is not None:
                return False
            self.done[tree[1]] = by
            return True
        if tree[0] == "app" and tree[1][0] == "id" and (tree[1][1] in WHOLE or tree[1][1].startswith("field.")):
            at = VALUE_AT.get(tree[1][1])
            if tree[1][1] in ("map", "option_map") and not is_look(tree[2][0]):
                return False
            parts = tree[2] if at is None else tree[2][at : at + 1]
            return any([self.settle(part, by) for part in parts])
        if tree[0] == "app" and tree[1][0] == "id" and tree[1][1] in PART and tree[2][0][0] == "id":
            return self.settle(("id", f"{tree[2][0][1]}.{PART[tree[1][1]]}"), by)
        if tree[0] == "app" and tree[1][0] == "id" and tree[1][1].rpartition(".")[2][:1].isupper():
            return any([self.settle(part, by) for part in tree[2]])
        if tree[0] == "bin" and tree[1] == "∷":
            return any([self.settle(part, by) for part in tree[2:]])
        if tree[0] == "bin" and tree[1] == "+" and tree[3][0] == "lit":
            return self.settle(tree[2], by)
        if tree[0] == "bin" and tree[1] == "++":
            # A list and the known end or beginning of it.
            for one, other in ((tree[2], tree[3]), (tree[3], tree[2])):
                known = self.laws_of(other)
                if known is not None and self.settle(one, by | known):
                    return True
        if tree[0] == "app" and tree[1] == ("id", "flat_map") and tree[2][0] == ("id", "frame_text"):
            # Of frames of one guest, as each relation says that has their encodings.
            return self.settle(tree[2][1], by | {"one_frame"})
        return False

    # ---- Taking up propositions.

    def add(self, tree, path=None, depth=0):
        path = path or self.path
        kind = tree[0]
        self.said[shown(tree)] = tree
        if kind == "bin" and tree[1] == "×":
            self.add(tree[2], path, depth)
            self.add(tree[3], path, depth)
        elif kind == "some":
            fresh = {name: ("id", f"?{next(FRESH)}") for name in tree[1]}
            self.open |= {one[1] for one in fresh.values()}
            self.add(put(tree[2], fresh), path, depth)
        elif kind == "bin" and tree[1] == "≡":
            self.equations.append((tree[2], tree[3]))
            if tree[2][0] == "app" and tree[2][1] == ("id", "take"):
                # A list is its beginning and what is behind that.
                count, whole = tree[2][2]
                known = ("bin", "≡", whole, ("bin", "++", tree[3], ("app", ("id", "drop"), [count, whole])))
                self.said[shown(known)] = known
        elif kind == "bin" and tree[1] == "↔":
            self.tests.append((tree[2], tree[3]))
        elif kind == "all" and len(tree[1]) == 1 and tree[2][0] == "bin" and tree[2][1] == "≡":
            left, right = tree[2][2:]
            if left[0] == "app" and left[1] == ("id", "in_words") and left[2][-1] == ("id", tree[1][0]):
                # The same test of each page is the same set of pages.
                self.equations.append((("app", left[1], left[2][:-1]), ("lam", tree[1], right)))
        elif kind == "bin" and tree[1] == "⊎" and is_memory(tree[2]):
            # A cause, or want of memory, which is told apart.
            self.may_lack_memory = True
            self.add(tree[3], path, depth)
        elif kind == "app" and tree[1][0] == "id":
            self.add_use(tree, path, depth)

    def add_use(self, tree, path, depth):
        name, arguments = tree[1][1], tree[2]
        if name in SAME and len(arguments) == 2:
            self.equations.append(tuple(arguments))
            return
        if name == "AllZip" and len(arguments) == 3:
            self.uses.append((None, arguments, path, tree))
            return
        meant = definition_of(name, path)
        if meant is None:
            return
        self.uses.append((meant, arguments, path, tree))
        if depth < DEPTH:
            self.unfold(meant, arguments, depth)

    def unfold(self, meant, arguments, depth):
        """Takes up what a relation says that is one record or one equation."""
        where = f"{contracts.TOP}/crates/{meant.crate}/specs/{meant.path}"
        if meant.kind == "record" and len(meant.takes) == len(arguments):
            values = dict(zip(meant.takes, arguments))
            for fact, text in meant.facts:
                if is_type(text):
                    values[fact] = ("id", f"?{next(FRESH)}")
                    self.open.add(values[fact][1])
                    self.types[values[fact][1]] = text
                else:
                    self.add(put(parsed(text), values), where, depth + 1)
        elif meant.kind == "equations" and len(meant.equations) == 1:
            patterns, text = meant.equations[0]
            if len(patterns) <= len(arguments) and all(re.fullmatch(r"\w+", one) for one in patterns):
                try:
                    tree = put(parsed(text), dict(zip(patterns, arguments)))
                except Unread:
                    return
                rest = arguments[len(patterns) :]
                self.add(applied(tree, rest) if rest else tree, where, depth + 1)

    # ---- Solving.

    def solve(self):
        while any([self.step_equations(), self.step_tests(), self.step_uses()]):
            pass
        return self

    def step_equations(self):
        more = False
        for left, right in [*self.equations, *((b, a) for a, b in self.equations)]:
            by = self.laws_of(right)
            if by is not None:
                more |= self.settle(left, by)
        return more

    def step_tests(self):
        more = False
        for test, meaning in self.tests:
            by = self.laws_of(meaning)
            if by is None:
                continue
            if test[0] == "app" and test[1][1] in ("IsTrue", "IsFalse"):
                more |= self.settle(test[2][0], by)
            elif test[0] == "bin" and test[1] == "≡" and test[3][0] == "id" and test[3][1] in ("true", "None"):
                more |= self.settle(test[2], by) if test[3][1] == "true" else False
        return more

    def step_uses(self):
        more = False
        for meant, arguments, path, tree in self.uses:
            more |= any([self.step_law(law, arguments) for law in laws().of(meant)])
            for at, by in self.unique(meant, arguments, path):
                if at >= len(arguments):
                    continue
                others = [self.laws_of(one) for n, one in enumerate(arguments) if n != at]
                if None not in others:
                    more |= self.settle(arguments[at], by.union(*others))
        return more

    def step_law(self, law, arguments):
        """Takes up what a law says of a use of its relation. Returns whether that is new."""
        found = {}
        for pattern, tree in zip(law.arguments, arguments):
            found = fitted(pattern, tree, law.names, found) if found is not None else None
        if found is None or len(law.arguments) != len(arguments):
            return False
        by = [self.laws_of(tree) for name, tree in found.items() if name not in law.open]
        return None not in by and self.settle(found[law.value], frozenset({law.name}).union(*by))

    def unique(self, meant, arguments, path):
        """Yields which arguments of a relation all others determine, and the laws by which they do."""
        if meant is None:
            # Two lists whose elements have the relation, one by one.
            inner = arguments[0]
            head, given = (inner[1], inner[2]) if inner[0] == "app" else (inner, [])
            below = definition_of(head[1], path) if head[0] == "id" else None
            for by in determined_last(below, len(given) + 2) if below else []:
                yield 2, by
            return
        if meant.kind == "equations" and len(meant.equations) > 1:
            for at in range(len(arguments)):
                by = in_turn(by_cases, meant.crate, meant.path, meant.name, at)
                if by is not None:
                    self.may_lack_memory |= NO_MEMORY in by
                    yield at, by - {NO_MEMORY}


def is_look(tree):
    """Returns whether a function shows its argument behind a reference or a buffer."""
    return tree[0] == "lam" and tree[2][0] == "id" and re.fullmatch(r"\w+\.(?:now|items)", tree[2][1]) is not None


def is_memory(tree):
    """Returns whether a case says that memory ran out, and maybe what else is then so."""
    if tree[0] == "bin" and tree[1] == "×":
        return is_memory(tree[2]) or is_memory(tree[3])
    return (
        tree[0] == "bin" and tree[1] == "≡" and tree[3][0] == "id" and re.search(r"\bMemory$", tree[3][1]) is not None
    )


def determined_last(meant, count):
    """Returns in a list the laws by which a relation's last argument is determined by the others, or an empty list."""
    names = [f"a{n}" for n in range(count - 1)]
    solver = Solver(f"{contracts.TOP}/crates/{meant.crate}/specs/{meant.path}", {"last"}, {})
    tree = ("app", ("id", meant.name), [*(("id", name) for name in names), ("id", "last")])
    solver.types["last"] = last_type(meant)
    solver.add_use(tree, f"{contracts.TOP}/crates/{meant.crate}/specs/{meant.path}", 1)
    by = solver.solve().laws_of_path("last")
    return [] if by is None else [by]


def last_type(meant):
    entry = next(one for one in contracts.definitions(meant.crate) if one.name == meant.name and one.path == meant.path)
    groups = re.findall(r"\([^():]*: (\w+)\)", entry.text.partition(" where")[0])
    return groups[-1] if groups else ""


def in_turn(work, *key):
    """Returns what some work comes to, or None if it is asked for within itself, as of a relation that names itself."""
    if (work, key) in WORKING:
        return None
    WORKING.add((work, key))
    try:
        return work(*key)
    finally:
        WORKING.discard((work, key))


@functools.cache
def by_cases(crate, path, name, at):
    """Returns the laws by which each case of a relation determines an argument, or None if one does not. If cases are
    told by this argument, each two of them must exclude each other."""
    meant = next(one for one in propositions.definitions()[name] if (one.crate, one.path) == (crate, path))
    where, found, cases, told = f"{contracts.TOP}/crates/{crate}/specs/{path}", set(), [], False
    for patterns, text in meant.equations:
        if len(patterns) <= at:
            return None
        pattern = patterns[at]
        is_name = re.fullmatch(r"[a-z_]\w*", pattern) is not None
        told |= not is_name
        if text == "⊥":
            continue
        if not is_name and re.search(r"\bMemory\)*$", pattern):
            found.add(NO_MEMORY)
            continue
        names = [pattern] if is_name else re.findall(r"(?<![\w.])[a-z_]\w*(?![\w.])", pattern)
        solver = Solver(where, names, {})
        solver.add(parsed(text), where, 2)
        solver.solve()
        for laws_here in map(solver.laws_of_path, names):
            if laws_here is None:
                return None
            found |= laws_here
        cases.append(solver.said)
    if told:
        for one, other in itertools.combinations(cases, 2):
            by = excluding(one, other)
            if by is None:
                return None
            found |= by
    return frozenset(found)


def cases_of(meant, arguments):
    """Yields what each case of a relation says of these arguments, or None for a case that is want of memory."""
    where = f"{contracts.TOP}/crates/{meant.crate}/specs/{meant.path}"
    for patterns, text in meant.equations:
        if text != "⊥" and len(patterns) == len(arguments):
            is_name = [re.fullmatch(r"[a-z_]\w*", pattern) is not None for pattern in patterns]
            values = {name: tree for name, tree, known in zip(patterns, arguments, is_name) if known}
            solver = Solver(where, (), {})
            solver.add(put(parsed(text), values), where, 2)
            yield None if re.search(r"\bMemory\)*$", patterns[-1]) else solver.said


def excluding(one, other):
    """Returns the law by which two cases exclude each other, in a set that is empty if their texts show it, or None."""
    for law, names, has, lacks in laws().apart:
        for first, second in ((one, other), (other, one)):
            for found in filter(None, (fitted(has, tree, names, {}) for tree in first.values())):
                if any(fitted(lacks, tree, names, found) is not None for tree in second.values()):
                    return {law}
    for first, second in ((one, other), (other, one)):
        for text in first:
            if f"(¬ {text})" in second or f"({text} → ⊥)" in second:
                return set()
            if found := re.fullmatch(r"\((.*) ≡ None\)", text):
                if any(two.startswith(f"({found[1]} ≡ (Some ") for two in second):
                    return set()
            if (found := re.fullmatch(r"\((.*) ≡ nil\)", text)) and any(
                two.startswith(f"({found[1]} ≡ (") and " ∷ " in two for two in second
            ):
                return set()
            if found := re.fullmatch(r"\((.*) ≡ ([^()]*|\(.*\))\)", text):
                if f"({found[1]} ≢ {found[2]})" in second:
                    return set()
            if found := re.fullmatch(r"\(([^()]*|\([^()]*\)) (≤|<) ([^()]*|\([^()]*\))\)", text):
                if f"({found[3]} {'<' if found[2] == '≤' else '≤'} {found[1]})" in second:
                    return set()
            if found := re.match(r"\(Spells (\w+(?:\.\w+)?) ", text):
                if any(two.startswith(f"(Refuses {found[1]} ") for two in second):
                    return {"TraceView::parse: first"}
    return None
