"""Makes what repeats include/precopy.h in other languages, or compares it.

    dev/interface              writes the files
    dev/interface --compare    says which differ from what it would write; the status is 1 if any does

The header is the one table of the library's interface. A status is a line of `enum precopy_status`: its number, and its
text as a comment, which may end with a note in parentheses that is not of the text. A field is a line of a struct. What
is left to write by hand after a new one is told when the files are written.
"""

import itertools
import re
import sys
import textwrap
from collections.abc import Callable
from typing import NamedTuple

from precopy_dev.files import read_text, write_file
from precopy_dev.tree import TOP
from precopy_dev.words import parser_of

HEADER = "include/precopy.h"
# What stands before the text of a status in a line about it, by the first letter of its name in `precopy`.
SUBJECTS = {"E": "trace", "S": "settings", "F": "frame"}
QUESTIONS = range(81, 88)
# The statuses of a question, and of a trace that is not as it says.
ASKED = range(81, 90)
LINE = 120
RUST = {"uint8_t": "u8", "uint32_t": "u32", "uint64_t": "u64", "size_t": "usize", "bool": "bool"}
PYTHON = {"uint32_t": "c_uint32", "uint64_t": "c_uint64", "size_t": "c_size_t"}
# Structs that the planner's module has too, with the planner's names for them.
OF_PLANNER = {
    "Settings": "SETTINGS",
    "Sums": "SUMS",
    "Round": "ROUND",
    "Question": "QUESTION",
    "Prediction": "ANSWER",
    "Errors": "ERRORS",
    "Amounts": "REMEDIES",
    "Forecast": "FORECAST",
    "Agreement": "AGREEMENT",
}
# Structs that Rust's callers see as they are in C stand in its sources by hand, with what they mean.
RUST_BY_HAND = {"Page", "Round", "Taken", "Trace", "Write"}
STATUSES_IN_RUST = """\
//! The statuses of the library. Made by `dev/interface`.

/// A status of `enum precopy_status` in `{header}`: why a call refuses, or what is wrong in streams.
#[derive(Clone, Copy, Debug, PartialEq, Eq, PartialOrd, Ord, Hash)]
#[non_exhaustive]
#[repr(u32)]
pub enum Status {{
{variants}    /// a status of a later library, which this crate does not know
    Unknown = 0xffff_ffff,
}}

impl Status {{
    pub(crate) fn of(number: u32) -> Status {{
        match number {{
{numbers}            _ => Status::Unknown,
        }}
    }}

    /// Returns its number.
    pub fn number(self) -> u32 {{
        self as u32
    }}
}}
"""
STATUSES_IN_PYTHON = '''

class Status(IntEnum):
    """A status of the library: why a call refuses, or what is wrong in streams."""

{names}
    @classmethod
    def _missing_(cls, value):
        """A status of a later library, which this module does not know."""
        made = int.__new__(cls, value)
        made._name_, made._value_ = f"UNKNOWN_{{value}}", value
        return made
'''


class Status(NamedTuple):
    """A status of the library, with the name that `precopy` writes for the refusal, if it has one."""

    constant: str
    number: int
    name: str | None
    text: str

    def line(self) -> str:
        """What `precopy_strerror` says of it."""
        if self.name and self.name != "E16":
            return f"{SUBJECTS[self.name[0]]} {self.name}: {self.text}"
        return f"question: {self.text}" if self.number in QUESTIONS else self.text


class Variable(NamedTuple):
    """A field of a struct, or an argument of a function."""

    kind: str
    name: str
    is_pointer: bool
    is_constant: bool


class Interface(NamedTuple):
    """What the header says; of the bound of a report the bytes of a window's line, of a hot page's, of each other, and
    how many others there are."""

    abi: int
    text_bound: int
    report_bound: tuple[int, ...]
    statuses: list[Status]
    structs: dict[str, list[Variable]]
    functions: dict[str, tuple[str, list[Variable]]]


def camel(name: str) -> str:
    return name.removeprefix("struct precopy_").title().replace("_", "")


def variable(text: str) -> Variable:
    found = re.fullmatch(r"(const )?((?:struct )?\w+) (\*?)(\w+)", " ".join(text.split()))
    return Variable(found[2], found[4], bool(found[3]), bool(found[1]))


def read_header(text: str) -> Interface:
    abi, text_bound = (int(re.search(rf"^#define PRECOPY_{it} (\d+)$", text, re.M)[1]) for it in ("ABI", "TEXT_BOUND"))
    bound = re.search(
        r"PRECOPY_REPORT_BOUND\(\w+\) .*\n +\((\d+) \*.* (\d+) \*.* (\d+) \* \(size_t\)(\d+)\)$", text, re.M
    )
    lines = re.findall(r"^    PRECOPY_(\w+) = (\d+),? +/\* (?:([ESF]\d+): )?(.*?)(?: \([^()]*\))? \*/$", text, re.M)
    statuses = [Status(constant, int(number), name or None, said) for constant, number, name, said in lines]
    first, last = text.index("enum precopy_status {"), text.index("const char *precopy_strerror")
    statuses = [it for it in statuses if first < text.index(f" PRECOPY_{it.constant} =") < last]
    structs = {}
    for name, body in re.findall(r"^struct precopy_(\w+) \{\n(.*?)^\};", text, re.M | re.S):
        structs[camel(name)] = [variable(field) for field in re.findall(r"^    ([^;/]+);", body, re.M)]
    functions = {}
    for result, name, words in re.findall(r"^(uint32_t|bool) precopy_(\w+)\(([^)]*)\);", text, re.M):
        functions[name] = (result, [] if words == "void" else [variable(word) for word in words.split(",")])
    return Interface(abi, text_bound, tuple(map(int, bound.groups())), statuses, structs, functions)


# ---- The files, each by its text.


def texts_in_c(interface: Interface) -> str:
    cases = (f'    case PRECOPY_{it.constant}:\n        return "{it.line()}";\n' for it in interface.statuses)
    first = '    case PRECOPY_OK:\n        return "done";\n'
    head = f"/* Made by dev/interface from {HEADER}: the cases of precopy_strerror. */\n/* clang-format off */\n"
    return f"{head}{first}{''.join(cases)}"


def statuses_in_rust(interface: Interface) -> str:
    variants, numbers = [], []
    for it in interface.statuses:
        variant = camel(it.constant.lower())
        variants.append(f"    /// {it.line()}\n    {variant} = {it.number},\n")
        numbers.append(f"            {it.number} => Status::{variant},\n")
    return STATUSES_IN_RUST.format(header=HEADER, variants="".join(variants), numbers="".join(numbers))


def type_in_rust(it: Variable) -> str:
    kind = camel(it.kind) if it.kind.startswith("struct") else RUST[it.kind]
    return f"*{'const' if it.is_constant else 'mut'} {kind}" if it.is_pointer else kind


def calls_in_rust(interface: Interface) -> str:
    parts = [f"//! The functions and structs of `{HEADER}`, as they are in C. Made by `dev/interface`.\n\n"]
    parts.append(f"use crate::{{{', '.join(sorted(RUST_BY_HAND))}}};\nuse std::os::raw::c_char;\n\n")
    parts.append(f"pub const TEXT_BOUND: usize = {interface.text_bound};\n")
    parts.append(f"pub const REPORT_BOUND: [usize; 4] = {list(interface.report_bound)};\n")
    for name, fields in interface.structs.items():
        if name not in RUST_BY_HAND:
            lines = "".join(f"    pub {it.name}: {type_in_rust(it)},\n" for it in fields)
            parts.append(f"\n#[repr(C)]\n#[derive(Clone, Copy, Default)]\npub struct {name} {{\n{lines}}}\n")
    parts.append('\nextern "C" {\n    pub fn precopy_strerror(status: u32) -> *const c_char;\n')
    parts.append("    pub fn precopy_version() -> *const c_char;\n")
    parts += (call_in_rust(name, result, words) for name, (result, words) in interface.functions.items())
    return "".join(parts) + "}\n"


def call_in_rust(name: str, result: str, words: list[Variable]) -> str:
    """A function, laid out as rustfmt does."""
    told = [f"{it.name}: {type_in_rust(it)}" for it in words]
    line = f"    pub fn precopy_{name}({', '.join(told)}) -> {RUST[result]};\n"
    if len(line) <= LINE:
        return line
    if len(line) == LINE + 1:  # a line that just fits, rustfmt breaks
        return line.replace(") -> ", ")\n        -> ")
    lines = "".join(f"        {word},\n" for word in told)
    return f"    pub fn precopy_{name}(\n{lines}    ) -> {RUST[result]};\n"


def type_in_python(it: Variable) -> str:
    if it.kind == "uint8_t":
        return "c_void_p"
    kind = camel(it.kind) if it.kind.startswith("struct") else PYTHON[it.kind]
    return f"POINTER({kind})" if it.is_pointer else kind


def listed_in_python(head: str, rows: list[str], tail: str) -> str:
    """A list, laid out as black does."""
    line = f"    {head}[{', '.join(rows)}]{tail}\n"
    return (
        line
        if len(line) <= LINE
        else "".join((f"    {head}[\n", *(f"        {it},\n" for it in rows), f"    ]{tail}\n"))
    )


def struct_in_python(name: str, fields: list[Variable]) -> str:
    """A struct, with a row for at most six fields of one type that follow each other."""
    rows = []
    for kind, group in itertools.groupby(fields, type_in_python):
        names = [f'"{it.name}"' for it in group]
        rows += [f"*_of({kind}, {', '.join(names[at : at + 6])})" for at in range(0, len(names), 6)]
    body = listed_in_python("_fields_ = ", rows, "") if rows[1:] else f"    _fields_ = {rows[0][1:]}\n"
    return f"\n\nclass {name}(Structure):\n{body}"


def calls_in_python(interface: Interface) -> str:
    head = f"The structs, statuses and functions of {HEADER}, for ctypes. Made by dev/interface."
    parts = [f'"""{head}"""\n\nfrom ctypes import POINTER, Structure, c_size_t, c_uint32, c_uint64, c_void_p\n']
    parts.append("from enum import IntEnum\n\n")
    parts.append(f"ABI, TEXT_BOUND = {interface.abi}, {interface.text_bound}\n")
    parts.append(f"REPORT_BOUND = {interface.report_bound}\n")
    names = "".join(f"    {it.constant} = {it.number}\n" for it in interface.statuses)
    parts.append(STATUSES_IN_PYTHON.format(names=names))
    parts.append("\n\ndef _of(kind, *names):\n    return [(name, kind) for name in names]\n")
    parts += (struct_in_python(name, fields) for name, fields in interface.structs.items())
    parts.append("\n\n# The arguments of each function.\nCALLS = {\n")
    for name, (_, words) in interface.functions.items():
        parts.append(listed_in_python(f'"{name}": ', [type_in_python(it) for it in words], ","))
    return "".join(parts) + "}\n"


def causes_for_tools(interface: Interface) -> str:
    lines = (f'    "{it.name}": "{it.text}",\n' for it in interface.statuses if it.name and it.name[0] == "E")
    head = f'"""Why a trace is refused, by the name of the refusal. Made by dev/interface from {HEADER}."""\n\n'
    return f"{head}CAUSES = {{\n{''.join(lines)}}}\n"


def lower_camel(name: str) -> str:
    first, *rest = name.split("_")
    return first + "".join(map(str.title, rest))


def layouts_for_planner(interface: Interface) -> str:
    """The structs that the planner's module has too, without the size that some begin with in C."""
    parts = [f"// What the planner's module lays out as the library does. Made by dev/interface from {HEADER}.\n"]
    for name, of_planner in OF_PLANNER.items():
        fields = [it for it in interface.structs[name] if it.name != "size"]
        wide = [lower_camel(it.name) for it in fields if it.kind == "uint64_t"]
        narrow = [lower_camel(it.name) for it in fields if it.kind == "uint32_t"]
        size = (8 * len(wide) + 4 * len(narrow) + 7) // 8 * 8
        parts.append(f"\nexport const {of_planner} = {{\n  size: {size},\n")
        for kind, names in (("wide", wide), ("narrow", narrow)):
            line = f"{kind}: [{', '.join(f'{chr(34)}{it}{chr(34)}' for it in names)}],"
            lines = textwrap.wrap(line, LINE, initial_indent="  ", subsequent_indent="    ")
            parts.append("\n".join(lines) + "\n")
        parts.append("};\n")
    parts.append(
        "\n/** What is wrong with a trace, by the number of the refusal. */\nexport const TRACE_REFUSALS = {\n"
    )
    parts += (f'  {it.number}: "{it.text}",\n' for it in interface.statuses if it.name and it.name[0] == "E")
    return "".join(parts) + "};\n"


def statuses_in_js(interface: Interface) -> str:
    """The statuses of traces, settings and questions: the planner's module has no others."""
    rows = [it for it in interface.statuses if (it.name and it.name[0] in "ES") or it.number in ASKED]
    head = f"// The statuses of a trace, of settings and of a question. Made by dev/interface from {HEADER}.\n\n"
    about = "/** By the number of a status its name, and what `precopy_strerror` says of it. */\n"
    lines = (f'  {it.number}: ["{it.constant}", "{it.line()}"],\n' for it in rows)
    return f"{head}{about}export const STATUSES = {{\n{''.join(lines)}}};\n"


FILES: dict[str, Callable[[Interface], str]] = {
    "packaging/status_texts.h": texts_in_c,
    "bindings/rust/src/status.rs": statuses_in_rust,
    "bindings/rust/src/calls.rs": calls_in_rust,
    "bindings/python/precopy/_interface.py": calls_in_python,
    "python/precopy_tools/formats/causes.py": causes_for_tools,
    "web/model/interface.js": layouts_for_planner,
    "bindings/js/statuses.js": statuses_in_js,
}
LEFT = """\
Left to write by hand, after a new status: docs/FORMATS.md if `precopy` writes its name, the range of its kind in \
bindings/rust/src/refusals.rs, bindings/python/precopy/_refusals.py and bindings/js/index.js, and a row in \
checks/library/rows.c. After a new field: crates/c_answers (and crates/c_layout), and what callers see of it in \
bindings/.
"""


def read(path: str) -> str:
    try:
        return read_text(TOP, path)
    except FileNotFoundError:
        return ""


def main(words: list[str]) -> int:
    parser = parser_of("interface", __doc__)
    parser.add_argument("--compare", action="store_true", help="write nothing, and say what differs")
    asked = parser.parse_args(words)
    interface = read_header(read(HEADER))
    differ = {path: text for path, make in FILES.items() if (text := make(interface)) != read(path)}
    for path, text in differ.items():
        print(f"{path} {'differs' if asked.compare else 'is written'}")
        if not asked.compare:
            write_file(text, TOP, path)
    if differ and not asked.compare:
        print(LEFT, end="")
    return int(bool(differ) and asked.compare)


if __name__ == "__main__":
    sys.exit(main(sys.argv[1:]))
