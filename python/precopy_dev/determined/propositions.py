"""Propositions of contracts and definitions as trees, and definitions by their names.

A tree is a tuple: ("id", path), ("lit", text), ("app", head, arguments), ("lam", names, body), ("all", names, body),
("some", names, body), ("bin", operator, left, right), ("record", base, fields). A path is a name with its fields, as
`result.0.items` is."""

import functools
import re
from dataclasses import dataclass, field

from precopy_dev import contracts

TOKEN = re.compile(r'"(?:\\.|[^"\\])*"|\b\d[\d_]*|[^\W\d][\w-]*(?:\.\w+)*|\+\+|==|&&|\|\||[^\s]')
# Operators from those that bind least; those of a level are grouped to the right.
LEVELS = (
    ("→",),
    ("⊎",),
    ("×",),
    ("↔",),
    ("≡", "≢", "≤", "<"),
    ("||", "&&"),
    ("==",),
    ("++", "∷"),
    ("+", "-"),
    ("*", "/", "%"),
    ("^",),
)
CLOSING = {")", "}", ";", "]", "="}


class Unread(Exception):
    """Why a text is no proposition as this module knows them."""


class Reader:
    """Reads one text, token by token."""

    def __init__(self, text):
        self.tokens, self.at = TOKEN.findall(text.replace("Unit {0}", "⊤").replace("[]", " nil ")), 0

    def peek(self, ahead=0):
        return self.tokens[self.at + ahead] if self.at + ahead < len(self.tokens) else ""

    def take(self, wanted=""):
        token = self.peek()
        if not token or wanted and token != wanted:
            raise Unread(f"{token or 'the end'} for {wanted or 'a term'} in {' '.join(self.tokens)[:80]}")
        self.at += 1
        return token

    def names_bound(self):
        """Returns the names of `(x y : T) (z : U)` if that stands here, and goes past it."""
        start, names = self.at, []
        while self.peek() == "(":
            ahead = 1
            while re.fullmatch(r"[^\W\d]\w*", self.peek(ahead)):
                ahead += 1
            if ahead == 1 or self.peek(ahead) != ":":
                break
            names += self.tokens[self.at + 1 : self.at + ahead]
            depth = 0
            while True:
                token = self.take()
                depth += (token == "(") - (token == ")")
                if not depth:
                    break
        if not names:
            self.at = start
        return names

    def term(self, level=0):
        if level == len(LEVELS):
            return self.application()
        if level <= 2 and (names := self.names_bound()):
            operator = self.take()
            if operator == "→":
                return ("all", names, self.term(0))
            if operator == "×":
                return ("some", names, self.term(2))
            raise Unread(f"{operator} after names")
        left = self.term(level + 1)
        if self.peek() in LEVELS[level]:
            operator = self.take()
            return ("bin", operator, left, self.term(level))
        return left

    def application(self):
        head = self.atom()
        arguments = []
        while (token := self.peek()) and token not in CLOSING and not any(token in level for level in LEVELS):
            arguments.append(self.atom())
        return ("app", head, arguments) if arguments else head

    def atom(self):
        token = self.take()
        if token == "(":
            if self.peek() in {op for level in LEVELS for op in level} and self.peek(1) == ")":
                return ("id", self.take() + self.take())
            inner = self.term()
            if self.peek() == ",":
                parts = [inner]
                while self.peek() == ",":
                    self.take()
                    parts.append(self.term())
                inner = ("app", ("id", "pair"), parts)
            self.take(")")
            return inner
        if token == "λ":
            names = []
            while self.peek() != ".":
                names.append(self.take())
            self.take(".")
            return ("lam", names, self.term())
        if token == "¬":
            return ("app", ("id", "¬"), [self.atom() if self.peek() == "(" else self.application()])
        if token == "record":
            return self.record()
        if token[0].isdigit() or token[0] == '"':
            return ("lit", token)
        if token in CLOSING or any(token in level for level in LEVELS):
            raise Unread(f"{token} for a term in {' '.join(self.tokens)[:80]}")
        return ("id", token)

    def record(self):
        base, fields = (self.take() if self.peek() != "{" else ""), {}
        self.take("{")
        while self.peek() != "}":
            name = self.take()
            self.take("=")
            fields[name] = self.term()
            if self.peek() == ";":
                self.take()
        self.take("}")
        return ("record", base, fields)


@functools.cache
def parsed(text):
    reader = Reader(text)
    tree = reader.term()
    if reader.peek():
        raise Unread(f"{reader.peek()} behind {' '.join(reader.tokens)[:80]}")
    return tree


def put(tree, values):
    """Returns the tree with other trees for some of its names; a field of a name that becomes a path is its field."""
    kind = tree[0]
    if kind == "id":
        name, dot, fields = tree[1].partition(".")
        if name not in values:
            return tree
        other = values[name]
        if not dot:
            return other
        if other[0] == "id":
            return ("id", f"{other[1]}.{fields}")
        if other[0] == "app" and other[1] == ("id", "pair") and re.fullmatch(r"\d(\..*)?", fields):
            part, _, rest = fields.partition(".")
            return put(("id", f"it.{rest}" if rest else "it"), {"it": other[2][int(part)]})
        return ("app", ("id", f"field.{fields}"), [other])
    if kind == "lit":
        return tree
    if kind == "app":
        head, arguments = put(tree[1], values), [put(one, values) for one in tree[2]]
        return applied(head, arguments)
    if kind in ("lam", "all", "some"):
        return (kind, tree[1], put(tree[2], {name: other for name, other in values.items() if name not in tree[1]}))
    if kind == "bin":
        return ("bin", tree[1], put(tree[2], values), put(tree[3], values))
    base = put(("id", tree[1]), values) if tree[1] else None
    return ("record", base[1] if base and base[0] == "id" else tree[1], {k: put(v, values) for k, v in tree[2].items()})


def applied(head, arguments):
    """Returns what an application is, with a λ at its head worked out."""
    if head[0] == "lam" and len(arguments) >= len(head[1]):
        inner = put(head[2], dict(zip(head[1], arguments)))
        rest = arguments[len(head[1]) :]
        return applied(inner, rest) if rest else inner
    if head[0] == "app":
        return ("app", head[1], [*head[2], *arguments])
    return ("app", head, arguments) if arguments else head


def paths(tree):
    """Yields each path that occurs free in a tree."""
    kind = tree[0]
    if kind == "id":
        yield tree[1]
    elif kind == "app":
        for one in (tree[1], *tree[2]):
            yield from paths(one)
    elif kind in ("lam", "all", "some"):
        yield from (path for path in paths(tree[2]) if path.partition(".")[0] not in tree[1])
    elif kind == "bin":
        yield from paths(tree[2])
        yield from paths(tree[3])
    elif kind == "record":
        if tree[1]:
            yield tree[1]
        for one in tree[2].values():
            yield from paths(one)


def shown(tree):
    """Returns a text that two trees have in common exactly if they are the same but for the names that they bind."""
    kind = tree[0]
    if kind in ("id", "lit"):
        return tree[1]
    if kind == "app":
        return "(" + " ".join(map(shown, (tree[1], *tree[2]))) + ")"
    if kind in ("lam", "all", "some"):
        fresh = {name: ("id", f"#{at}") for at, name in enumerate(tree[1])}
        return f"{kind}[{shown(put(tree[2], fresh))}]"
    if kind == "bin":
        return f"({shown(tree[2])} {tree[1]} {shown(tree[3])})"
    return "{" + str(tree[1]) + ";".join(f"{k}={shown(v)}" for k, v in sorted(tree[2].items())) + "}"


def fitted(pattern, tree, names, found):
    """Returns what some names of a pattern stand for in a tree, with what was found before, or None if it does not fit.
    What binds names fits only what is the same."""
    if pattern[0] == "id" and pattern[1] in names:
        if pattern[1] in found:
            return found if shown(found[pattern[1]]) == shown(tree) else None
        return {**found, pattern[1]: tree}
    base, dot, fields = pattern[1].partition(".") if pattern[0] == "id" else ("", "", "")
    if dot and base in names and tree[0] == "id" and tree[1].endswith(f".{fields}"):
        return fitted(("id", base), ("id", tree[1].removesuffix(f".{fields}")), names, found)
    if dot and base in names and tree[0] == "app" and tree[1] == ("id", f"field.{fields}"):
        return fitted(("id", base), tree[2][0], names, found)
    if pattern[0] != tree[0] or pattern[0] not in ("app", "bin"):
        return found if shown(pattern) == shown(tree) else None
    if pattern[0] == "bin":
        if pattern[1] != tree[1]:
            return None
        parts, others = pattern[2:], tree[2:]
    else:
        parts, others = (pattern[1], *pattern[2]), (tree[1], *tree[2])
    if len(parts) != len(others):
        return None
    for part, other in zip(parts, others):
        found = fitted(part, other, names, found)
        if found is None:
            return None
    return found


# ---- Definitions.


@dataclass
class Definition:
    """A definition: its crate and file, its kind, the names that it takes, its equations or the facts of a record."""

    crate: str
    path: str
    name: str
    kind: str  # "record", "data" or "equations"
    takes: list = field(default_factory=list)
    equations: list = field(default_factory=list)  # patterns and text
    facts: list = field(default_factory=list)  # name and text


def read_record(entry):
    head, _, body = entry.text.partition(" where")
    takes = [name for group in re.findall(r"\(([^():]*):", head) for name in group.split()]
    lines = re.sub(r"--.*", "", body)
    facts = re.findall(r"^ {2,}pub ([\w-]+) : ((?:.|\n(?! {2,}pub |\S))*)", lines, re.M)
    return Definition(
        entry.crate, entry.path, entry.name, "record", takes, facts=[(a, " ".join(b.split())) for a, b in facts]
    )


def read_equations(entry):
    body = re.sub(r"--.*", "", entry.text)
    found = re.findall(
        rf"^{re.escape(entry.name)}((?: +(?:\([^=\n]*?\)|[\w.\[\]]+))*) =((?:.|\n(?=[ \t}}]))*)", body, re.M
    )
    equations = [
        (re.findall(r"\((?:[^()]|\([^()]*\))*\)|[\w.\[\]]+", patterns), " ".join(text.split()))
        for patterns, text in found
    ]
    return Definition(entry.crate, entry.path, entry.name, "equations", equations=equations)


@functools.cache
def definitions():
    """Returns all definitions by their names."""
    found = {}
    for crate in contracts.crates():
        for entry in contracts.definitions(crate):
            kind = re.match(r"pub (record|data) ", entry.text)
            if kind and kind[1] == "data":
                made = Definition(entry.crate, entry.path, entry.name, "data")
            else:
                made = read_record(entry) if kind else read_equations(entry)
            found.setdefault(entry.name, []).append(made)
    return found


@functools.cache
def imports(path):
    """Returns the crate from which a file takes each name."""
    found = {}
    for crate, names in re.findall(r"use Rattle\.(\w+)\.[\w.]+\.\{([^}]*)\}", contracts.read(path)):
        for name in names.split(","):
            found[name.split(" as ")[-1].strip()] = (crate, name.split(" as ")[0].strip())
    return found


def definition_of(name, path):
    """Returns the definition that a file means by a name, or None."""
    crate, named = imports(path).get(name, (None, name))
    found = definitions().get(named, [])
    own = re.search(r"/crates/(\w+)/", path)[1]
    return next((one for one in found if one.crate == (crate or own)), found[0] if len(found) == 1 else None)
