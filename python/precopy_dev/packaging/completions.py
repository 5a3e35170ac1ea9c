"""Completions for bash and zsh, made from a program's help."""

import re

# What is offered for the value of an option or for a word: files and processes by the word, some numbers by the option.
FILES = {"PATH", "FILE", "SCRIPT", "SOCKET", "TRACE", "TEXT", "OUTPUT", "INPUT", "FOLDER", "IMAGE", "MAP", "STREAM"}
PROCESSES = {"PID"}
NUMBERS = {"--workers": "1 2 4 8 16", "--streams": "1 2 4 8 16", "--replayers": "1 2 4 8 16", "--lane": "64 1024 65536"}


def values_of(option):
    """Values to offer for an option: those that its help lists, or some numbers."""
    return " ".join(option.choices) or NUMBERS.get(option.name, "")


def function_of(words):
    return "_" + "_".join(words).replace("-", "_")


def names_of(program, path):
    """The words that a program is run by: its name, and its path from the top of the sources."""
    return list(dict.fromkeys([program.words[0], path, f"./{path}"][:: 1 if "/" in path else 2]))


# ---- bash.


def bash_values(program):
    """Lines of a case over the word in front: what completes the value of an option."""
    kinds = {}
    for option in sorted({option for command in program.each() for option in command.options if option.value}):
        if words := values_of(option):
            kinds.setdefault(f"-W '{words}'", []).append(option.name)
        elif option.value in FILES:
            kinds.setdefault("-f", []).append(option.name)
        else:
            kinds.setdefault("", []).append(option.name)
    kinds.setdefault("-f", []).extend(["'<'", "'>'", "'>>'"])
    for words, names in kinds.items():
        yield f"        {' | '.join(dict.fromkeys(names))})"
        if words:
            yield f'            mapfile -t COMPREPLY < <(compgen {words} -- "$word")'
        # What begins with a dash is an option, and no value.
        yield "            [[ $word == -* ]] || return"
        yield "            ;;"


def bash_commands(program):
    """Lines of a case over the commands so far: which words may follow."""
    for command in program.each():
        path = " ".join(command.words[1:])
        words = [each.words[-1] for each in command.commands] + [option.name for option in command.options]
        if command is program and program.commands:
            words.append("help")
        words += [word for operand in command.operands for word in operand.choices]
        files = any(operand.name in FILES for operand in command.operands)
        yield f"        '{path}') words='{' '.join(dict.fromkeys(words))}' files={'yes' if files else ''} ;;"
    if program.commands:
        words = " ".join(each.words[-1] for each in program.commands)
        yield f"        help) words='{words}' files= ;;"


def bash(program, path):
    """Returns the text of the completion for bash of a program that has this path in the sources."""
    function = function_of(program.words)
    paths = sorted(" ".join(command.words[1:]) for command in program.each() if len(command.words) > 1)
    paths += ["help"] if program.commands else []
    lines = [
        f"# Completion of {program.words[0]} for bash, made of what its --help tells.",
        "",
        f"{function}() {{",
        "    local word=${COMP_WORDS[COMP_CWORD]} before=${COMP_WORDS[COMP_CWORD - 1]} path='' words='' files=''",
        "    COMPREPLY=()",
    ]
    if paths:
        lines += [
            "    local each",
            '    for each in "${COMP_WORDS[@]:1:COMP_CWORD-1}"; do',
            '        case "${path:+$path }$each" in',
            f"        {' | '.join(quoted(path) for path in paths)}) path=${{path:+$path }}$each ;;",
            "        esac",
            "    done",
        ]
    lines += ["    case $before in", *bash_values(program), "    esac", "    case $path in", *bash_commands(program)]
    lines += [
        "    esac",
        '    mapfile -t COMPREPLY < <(compgen -W "$words" -- "$word")',
        '    [ -z "$files" ] || mapfile -t -O "${#COMPREPLY[@]}" COMPREPLY < <(compgen -f -- "$word")',
        "}",
        "",
        f"complete -o filenames -F {function} {' '.join(names_of(program, path))}",
    ]
    return "\n".join(lines) + "\n"


def quoted(word):
    return f"'{word}'" if " " in word else word


# ---- zsh.


def zsh_text(text):
    """Help as a description may have it: no quotes, and with brackets and colons escaped."""
    return re.sub(r"([\[\]:\\])", r"\\\1", text.replace("'", "’").strip())


def zsh_action(words, value):
    if words:
        return f"({words})"
    if value in FILES:
        return "_files"
    return "_pids" if value in PROCESSES else ""


def zsh_option(option):
    told = zsh_text(option.help)
    if option.value:
        value = f"{':' * (1 + option.may_lack)}{zsh_text(option.value)}"
        return f"'{option.name}=[{told}]{value}:{zsh_action(values_of(option), option.value)}'"
    return f"'{option.name}[{told}]'"


def zsh_operand(operand, many):
    action = zsh_action(" ".join(operand.choices), operand.name)
    return f"'{'*' if many else ''}:{zsh_text(operand.name)}:{action}'"


def zsh_commands(command, function):
    """The lines of a function for a command that has commands."""
    yield "    local -a commands"
    yield "    commands=("
    for each in command.commands:
        yield f"        '{each.words[-1]}:{zsh_text(first_line(each.about))}'"
    if len(command.words) == 1:
        yield "        'help:tell what the program and its commands take'"
    yield "    )"
    yield "    local context state line"
    yield "    typeset -A opt_args"
    options = " ".join(zsh_option(option) for option in command.options)
    yield f"    _arguments -C {options} '1:command:->command' '*::word:->word'"
    yield "    case $state in"
    yield "    command) _describe -t commands command commands ;;"
    yield "    word)"
    yield "        case $line[1] in"
    for each in command.commands:
        yield f"        {each.words[-1]}) {function_of(each.words)} ;;"
    if len(command.words) == 1:
        yield "        help) _describe -t commands command commands ;;"
    yield "        esac"
    yield "        ;;"
    yield "    esac"


def first_line(text):
    return text.split("\n")[0]


def zsh_function(command):
    name = function_of(command.words)
    yield f"{name}() {{"
    if command.commands:
        yield from zsh_commands(command, name)
    else:
        many = "..." in command.usage
        words = [zsh_option(option) for option in command.options]
        words += [zsh_operand(operand, many and operand is command.operands[-1]) for operand in command.operands]
        yield "    _arguments \\"
        yield from (f"        {word} \\" for word in words[:-1])
        yield f"        {words[-1]}"
    yield "}"
    yield ""


def zsh(program, path):
    """Returns the text of the completion for zsh of a program that has this path in the sources."""
    lines = [
        f"#compdef {' '.join(names_of(program, path))}",
        f"# Completion of {program.words[0]} for zsh, made of what its --help tells.",
        "",
    ]
    for command in program.each():
        lines += zsh_function(command)
    lines.append(f'{function_of(program.words)} "$@"')
    return "\n".join(lines) + "\n"
