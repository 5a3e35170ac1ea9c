"""Manual pages of the tools, in mdoc, made from their help."""

import datetime
import re
import textwrap

# What a line has at most, before its hyphens are escaped.
COLUMNS = 66
TOKEN = re.compile(r"\[[^]]*\]|\([^)]*\)|\S+")
# A paragraph of the help that has a section of its own.
STATUS = re.compile(r"^(The )?status is ", re.I)


def escaped(text):
    """Text as a line of mdoc may have it. What was in backquotes is set as it is typed."""
    text = text.replace("\\", "\\e")
    text = re.sub(r"`([^`]*)`", r"\\fB\1\\fR", text).replace("-", "\\-")
    return f"\\&{text}" if text.startswith((".", "'")) else text


def word(token):
    """An option or a word of the usage, as arguments of a macro."""
    name, _, value = token.partition(" ")
    if not name.startswith("-"):
        return f"Ar {token}"
    flag = f"Fl {escaped(name[1:])}"
    return f"{flag} Ar {value.strip('{}').replace(',', ' | ')}" if value else flag


def synopsis(usage):
    """Lines for a usage of argparse: each option that may be left out, alternatives, and the words."""
    for token in TOKEN.findall(usage)[1:]:
        parts = [word(part) for part in token.strip("[]()").split(" | ")]
        if token.startswith("["):
            yield f".Op {' | '.join(parts)}"
        else:
            yield f".{' | '.join(parts)}"


def paragraphs(text):
    """Splits help into paragraphs and blocks of commands: (is_block, lines)."""
    for part in re.split(r"\n\s*\n", text):
        lines = part.split("\n")
        is_block = all(line.startswith("    ") for line in lines)
        yield is_block, [line.strip() if not is_block else line[4:] for line in lines]


def block(lines):
    yield ".Bd -literal -offset indent"
    yield from (escaped(line) for line in lines)
    yield ".Ed"


def sentences(lines):
    """Yields the sentences of a paragraph, each from a new line on, as mdoc wants them."""
    for sentence in re.split(r"(?<=[.!?:]) (?=[A-Z`]|docs/)", " ".join(lines)):
        yield from (escaped(line) for line in textwrap.wrap(sentence, COLUMNS, break_on_hyphens=False))


def description(parts):
    first = True
    for is_block, lines in parts:
        if is_block:
            yield from block(lines)
        else:
            if not first:
                yield ".Pp"
            yield from sentences(lines)
        first = False


def entry(head, told):
    yield f".It {head}"
    yield from sentences([f"{told[:1].upper()}{told[1:]}."] if told else [])


def listed(command):
    yield ".Bl -tag -width Ds"
    for option in command.options:
        yield from entry(word(f"{option.name} {option.value}" if option.value else option.name), option.help)
    yield ".El"


def manual(command, date):
    """Returns the manual page of a tool, whose help begins with one sentence that says what it does."""
    name = command.words[0]
    (_, first), *rest = paragraphs(command.about)
    about = " ".join(first).rstrip(".:")
    status = [part for part in rest if not part[0] and STATUS.match(" ".join(part[1]))]
    others = [part for part in rest if part not in status]
    day = datetime.date.fromisoformat(date)
    lines = [
        f'.\\" The manual page of {name}, made of what its --help tells.',
        f".Dd {day:%B} {day.day}, {day.year}",
        f".Dt {name.upper()} 1",
        ".Os",
        ".Sh NAME",
        f".Nm {name}",
        f".Nd {about[:1].lower()}{escaped(about[1:])}",
        ".Sh SYNOPSIS",
        ".Nm",
        *synopsis(command.usage),
        ".Sh DESCRIPTION",
        *description(others),
    ]
    told = [operand for operand in command.operands if operand.help]
    if told:
        lines += [".Pp", "The words are:", ".Bl -tag -width Ds"]
        for operand in told:
            lines += entry(f"Ar {operand.name}", operand.help)
        lines.append(".El")
    lines += [".Sh OPTIONS", *listed(command)]
    if status:
        lines += [".Sh EXIT STATUS", *description(status)]
    lines += [".Sh SEE ALSO", ".Xr precopy 1 ,", ".Xr precopy-view 1"]
    return "\n".join(line for line in lines if line) + "\n"
