"""What the contracts of public calls determine, as read off their texts.

Of each call: the value that it answers, when it answers that, which error it answers otherwise, and what it leaves in
each `&mut`, where it succeeds ("then") and where it does not ("otherwise"). Each of these is determined

- by form: clauses equate it with what is known at the call, at once or through definitions;
- by a law: a proved law says that a relation holds of one value alone, and a clause states the relation;
- or not, as far as this module sees.

It finds a law by the shape `R a x → R a y → x ≡ y` of a clause, whatever else that needs; a contract's file names the
laws that it rests on. It reads no proof, no `requires` and no invariant of a type, and knows no arithmetic. So what it
does not call determined may be, by reasons that it does not see. It takes equal sets of pages for equal bitmaps, and
what contracts see of a value for all of it. Want of memory is told apart: a call that may answer so whatever the input,
and otherwise is determined, counts as determined, and its "when" is "memory"."""

import functools
import re
from dataclasses import dataclass, field

from precopy_dev import contracts
from precopy_dev.determined.laws import clauses_of, parts_of
from precopy_dev.determined.propositions import applied, fitted, parsed, put, shown
from precopy_dev.determined.solving import Solver, cases_of, excluding
from precopy_dev.determined.typed import split_at_commas

FORM, LAW, MEMORY, NOT = "form", "law", "memory", "not"
OK, ERR = ("id", "$ok"), ("id", "$err")
# What says that memory ran out: a status of the library for C, or the number of a refusal there.
NO_MEMORY = r"\((?:result|\(number_of\w* \S+\)) ≡ 16\)"


@dataclass
class Row:
    """A call, and what is determined of it: by the name of what it answers or leaves, how, and the laws."""

    call: contracts.Entry
    aspects: dict = field(default_factory=dict)

    def __str__(self):
        return f"{self.call.crate}: {self.call.name}"

    def how(self):
        """Returns how the call is determined as a whole. What answers and leaves nothing is determined by form."""
        ways = [how for how, _ in self.aspects.values()]
        return NOT if NOT in ways else LAW if LAW in ways else FORM

    def laws(self):
        return sorted({law for _, laws in self.aspects.values() for law in laws})

    def open(self):
        """Returns what is not determined."""
        return [aspect for aspect, (how, _) in self.aspects.items() if how == NOT]


def signature(call):
    """Returns the names and types of a call's `&mut`, and the type that it answers."""
    text = re.sub(r"//.*", "", call.text)
    opens = text.index("(", re.search(r"\bfn \w+", text).end())
    closes = contracts.end_of(text, opens)
    changed = {}
    for part in split_at_commas(" ".join(text[opens + 1 : closes].split())):
        if part == "&mut self":
            changed["self"] = call.name.partition("::")[0]
        elif found := re.match(r"(\w+): &mut (.*)", part):
            changed[found[1]] = found[2]
    answers = re.match(r"\s*-> (.*?)(?=\s*(?:requires|ensures|\{|;|//|$))", text[closes + 1 :], re.S)
    return changed, " ".join(answers[1].split()) if answers else ""


def kind_of(answers, texts):
    """Returns how a call answers, and the types of what it answers where it succeeds, and where it does not."""
    if found := re.fullmatch(r"Result<(.*)>", answers):
        good, bad = split_at_commas(found[1])
        return "result", good, bad
    if found := re.fullmatch(r"Option<(.*)>", answers):
        return "option", found[1], ""
    if re.fullmatch(r"u8|u32", answers) and any("result ≡ 0" in text for text in texts):
        return "status", answers, ""
    return "plain", answers, ""


# ---- Branches: what clauses say where a call succeeds, and where it does not.

ON = {"OnOk": True, "OnErr": False, "OnSome": True, "OnNone": False, "IfNone": False}
IF = {"IfOk": True, "IfErr": False, "IfSome": True}
HEADS = {("id", "Ok"): True, ("id", "Some"): True, ("id", "Err"): False}


def in_branch(tree, good):
    """Yields what a clause about a Result or an Option says where that is an Ok or a Some, or where it is not."""
    value = OK if good else ERR
    if tree[0] == "app" and tree[1][0] == "id" and tree[2] and tree[2][0] == ("id", "result"):
        word = tree[1][1]
        if word in ON:
            yield from (tree[2][1] for _ in range(ON[word] == good))
            return
        if word in IF:
            yield from (applied(tree[2][1], [value]) for _ in range(IF[word] == good))
            return
        if word in ("MatchResult", "MatchOption"):
            yield applied(tree[2][1 if good else 2], [value])
            return
    if tree[0] == "bin" and tree[1] == "≡" and tree[2] == ("id", "result") and tree[3][0] == "app":
        head = tree[3][1]
        if head in HEADS:
            yield from (("bin", "≡", value, tree[3][2][0]) for _ in range(HEADS[head] == good))
            return
    if tree[0] == "bin" and tree[1] == "→" and shown(tree[2]) == "(result ≡ None)":
        yield from (tree[3] for _ in range(not good))
        return
    yield tree


def truth(tree, value):
    """Returns whether a test of the status holds at a number, or None if it is about more."""
    if tree[0] == "bin" and tree[1] in ("≡", "≢", "≤", "<"):
        if all(one[0] == "lit" or one == ("id", "result") for one in tree[2:]):
            left, right = (int(one[1]) if one[0] == "lit" else value for one in tree[2:])
            return {"≡": left == right, "≢": left != right, "≤": left <= right, "<": left < right}[tree[1]]
    if tree[0] == "bin" and tree[1] in ("⊎", "×"):
        parts = [truth(one, value) for one in tree[2:]]
        return None if None in parts else any(parts) if tree[1] == "⊎" else all(parts)
    return None


def in_status(tree, value):
    """Yields what a clause says where the status is this number."""
    while tree[0] == "bin" and tree[1] == "→":
        holds = truth(tree[2], value)
        if holds is None:
            yield tree
        if not holds:
            return
        tree = tree[3]
    yield tree


# ---- One call.


class Reading:
    """The reading of one call."""

    def __init__(self, call):
        self.call, self.row = call, Row(call)
        self.path = f"{contracts.TOP}/crates/{call.crate}/src/{call.path}"
        texts = [text for _, text in clauses_of(call)]
        self.trees = [parsed(text) for text in texts]
        self.changed, self.answers = signature(call)
        self.kind, self.good, self.bad = kind_of(self.answers, texts)

    def solved(self, said, types):
        kinds = {**types, **{f"{name}.new": kind for name, kind in self.changed.items()}}
        solver = Solver(self.path, kinds, kinds)
        for one in said:
            solver.add(one)
        return solver.solve()

    def tell(self, aspect, laws):
        self.row.aspects[aspect] = (NOT, ()) if laws is None else (LAW if laws else FORM, tuple(sorted(laws)))

    def leaves(self, solvers, where):
        for name in self.changed:
            found = [solver.laws_of_path(f"{name}.new") for solver in solvers]
            self.tell(f"{name}{where}", None if None in found else frozenset().union(*found))

    def read(self):
        if self.kind == "status":
            self.read_status()
        elif self.kind in ("result", "option"):
            self.read_branches()
        else:
            solver = self.solved(self.trees, {"result": self.answers} if self.answers else {})
            if self.answers:
                self.tell("answer", solver.laws_of_path("result"))
            self.leaves([solver], "")
        return self.row

    # ---- A Result or an Option.

    def read_branches(self):
        good, bad = ([one for tree in self.trees for one in in_branch(tree, is_good)] for is_good in (True, False))
        solver = self.solved(good, {"$ok": self.good, "result": self.answers})
        other = self.solved(bad, {"$err": self.bad, "result": self.answers})
        whole = solver.laws_of_path("result")
        if self.good != "()":
            value = solver.laws_of_path("$ok")
            self.tell("value", whole if value is None else value)
        self.row.aspects["when"] = (FORM, ()) if whole is not None else self.when(solver, other)
        if self.kind == "result" and not self.is_memory_alone():
            self.tell("error", other.laws_of_path("$err"))
        self.leaves([solver], " then")
        self.leaves([other], " otherwise")

    def is_memory_alone(self):
        """Returns whether the call's error has no other cause: its type has one case, or clauses say so."""
        return self.bad in memory_alone()

    def when(self, solver, other):
        """Returns how it is determined when the call succeeds."""
        tests = {shown(tree[2]) for tree in self.trees if tree[0] == "bin" and tree[1] == "↔"}
        if tests & {"(IsOk result)", "(IsSome result)", "(result ≡ None)"}:
            return (FORM, ())
        if self.kind == "result" and (self.is_memory_alone() or says_memory(other.said)):
            return (MEMORY, ())
        by = excluding(solver.said, other.said)
        for meant, arguments, _, _ in other.uses if by is None else []:
            if meant and len(meant.equations) > 1 and arguments[-1] == ERR:
                cases = [excluding(solver.said, said) for said in cases_of(meant, arguments) if said is not None]
                by = set().union(*cases) if cases and None not in cases else None
        if by is not None:
            return (MEMORY, ()) if other.may_lack_memory else (LAW if by else FORM, tuple(by))
        return self.by_only(solver, {"(IsOk result)": FORM, "(IsSome result)": FORM})

    def by_only(self, solver, ends):
        """Returns how it is determined when the call succeeds, by a clause that says what it answers to some input,
        if all that this input needs holds wherever the call succeeds."""
        said = [*solver.said.values(), *(self.in_input(tree, solver) for tree in solver.said.values())]
        for tree in self.trees:
            names, premises, end = parts_of(tree)
            if premises and hold(premises, said, names, {}):
                told = shown(end)
                if told in ends:
                    return (ends[told], ())
                if re.match(r"\(result ≡ \(Ok ", told):
                    return (FORM, ())
                if re.search(r"\bMemory\b|\bIsOutside|" + NO_MEMORY, told):
                    return (MEMORY, ())
        return (NOT, ())

    def in_input(self, tree, solver):
        """Returns what is said of the value as said of the input, if the value is equated with a term of that."""
        for left, right in solver.equations:
            if left == OK and "$ok" not in shown(right):
                return put(tree, {"$ok": right})
        return tree

    # ---- A status.

    def read_status(self):
        texts = [shown(tree) for tree in self.trees]
        numbers = {0} | {int(found) for text in texts for found in re.findall(r"result [≡≢] (\d+)", text)}
        numbers |= {int(found) for text in texts for found in re.findall(r"\((\d+) ≤ result", text)}
        numbers.add(next(number for number in range(1, 300) if number not in numbers))
        solvers = {}
        for number in sorted(numbers):
            said = [one for tree in self.trees for one in in_status(tree, number)]
            if not any(truth(one, number) is False for one in said):
                solvers[number] = self.solved(said, {"result": self.answers})
        others = [solver for number, solver in solvers.items() if number]
        self.row.aspects["when"] = self.when_zero(solvers[0], others)
        if others:
            found = [solver.laws_of_path("result") for number, solver in solvers.items() if number not in (0, 61)]
            self.tell("error", None if None in found else frozenset().union(*found))
        self.leaves([solvers[0]], " then")
        self.leaves(others, " otherwise")

    def when_zero(self, solver, others):
        if any(tree[0] == "bin" and tree[1] == "↔" and shown(tree[2]) == "(result ≡ 0)" for tree in self.trees):
            return (FORM, ())
        return self.by_only(solver, {"(result ≡ 0)": FORM, "((result ≡ 0) ⊎ (result ≡ 61))": FORM})


@functools.cache
def memory_alone():
    """Returns the types of errors that have one cause, which is that memory ran out."""
    found = {"AllocError"}
    for crate in contracts.crates():
        for path in contracts.sources(crate, "src", ".rt"):
            for name, body in re.findall(r"^pub enum (\w+) \{(.*?)^\}", contracts.read(path), re.M | re.S):
                if re.findall(r"^    (\w+)\b", body, re.M) == ["Memory"]:
                    found.add(name)
    return found


def hold(premises, said, names, found):
    """Returns whether all premises are said, for some values of these names."""
    if not premises:
        return True
    for tree in said:
        more = fitted(premises[0], tree, names, found)
        if more is not None and hold(premises[1:], said, names, more):
            return True
    return False


def says_memory(said):
    """Returns whether the error is said to be that memory ran out."""
    return any(re.fullmatch(r"\(\$err ≡ \w+\.Memory\)", text) for text in said)


@functools.cache
def rows():
    """Returns the rows of all public calls outside of tests that answer or change something, by their names."""
    crates = [crate for crate in contracts.crates() if not contracts.OF_TESTS.fullmatch(crate)]
    found = [Reading(call).read() for crate in crates for call in contracts.calls(crate)]
    return {str(row): row for row in found if row.aspects}


def table():
    """Yields the lines of the table, and one of sums."""
    counts = {FORM: 0, LAW: 0, NOT: 0}
    for name, row in rows().items():
        counts[row.how()] += 1
        told = [
            f"{aspect} {how}" + (f" ({', '.join(laws)})" if laws else "") for aspect, (how, laws) in row.aspects.items()
        ]
        yield f"{name}: {'; '.join(told)}"
    memory = sum(MEMORY in {how for how, _ in row.aspects.values()} for row in rows().values())
    counted = ", ".join((f"{counts[FORM]} by form", f"{counts[LAW]} by a law", f"{counts[NOT]} not"))
    yield f"{len(rows())} calls: {counted}; {memory} may say that memory ran out"
