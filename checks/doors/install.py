"""Trials of `make install`, `make uninstall` and dev/edits, and of what help, manuals and documents say of options."""

import os
import re
import shutil
import subprocess
import sys
import time

import tomllib

from checks.doors import documents, launchers
from checks.lib.tally import has
from precopy_dev.files import read_bytes, read_text
from precopy_dev.packaging import contents, options
from precopy_dev.tree import TOP
from precopy_tools import commands, version

SECONDS = 600


def make(*words, **more):
    """Runs make without a toolchain on the path: the built programs must be enough."""
    path = os.pathsep.join(it for it in os.environ["PATH"].split(os.pathsep) if not os.path.exists(f"{it}/rt"))
    how = {"stdin": subprocess.DEVNULL, "stdout": subprocess.PIPE, "stderr": subprocess.STDOUT, "timeout": SECONDS}
    environment = {**os.environ, "PATH": path, **more}
    return subprocess.run(["make", "-s", "-C", TOP, *words], env=environment, text=True, **how)


def output_of(*command, **how):
    done = subprocess.run(command, stdin=subprocess.DEVNULL, capture_output=True, timeout=SECONDS, **how)
    return done.stdout if done.returncode == 0 else f"status {done.returncode}: {done.stderr!r}".encode()


def files_below(folder):
    return sorted(os.path.join(at, name) for at, _, names in os.walk(folder) for name in names)


# ---- make install.


def run_from_there(tally, prefix):
    """The installed programs and tools, with nothing of the sources on their way."""
    bin_folder = os.path.join(prefix, "bin")
    environment = {"PATH": f"{bin_folder}:/usr/bin:/bin", "LC_ALL": "C.UTF-8"}
    trace = os.path.join(prefix, "share", "doc", "precopy", "examples", "a.pcwt")

    def shell(line):
        return output_of("sh", "-c", line, env=environment, cwd="/")

    image = shell(f"precopy image < '{trace}' | od -An -tx1 -v | tr -d ' \\n'").decode()
    tally.add(image.startswith("01" + "00" * 30 + "02"), f"the installed precopy writes the image {image[:80]}")
    told = shell(f"precopy-view json report < '{trace}'")
    tally.add(told.startswith(b'{"trace":{"pages":4,"size":16,"writes":5}'), f"the installed precopy-view: {told[:80]}")
    told = shell("precopy-view --version")
    tally.add(told.decode() == f"precopy-view (precopy) {version.VERSION}\n", f"precopy-view --version tells {told!r}")
    for name in contents.HELPERS:
        told = output_of(os.path.join(prefix, "lib", "precopy", name), "--version").decode()
        tally.add(told == f"{name} (precopy) {version.VERSION}\n", f"{name} --version tells {told!r}")
    back = shell(f"precopy-export '{trace}' - | precopy-import - - | cmp - '{trace}' && echo same")
    tally.add(back == b"same\n", f"installed precopy-export and precopy-import: {back}")
    where = "from precopy_tools import places; print(places.program())"
    library = os.path.join(prefix, "lib", "precopy", "python")
    found = output_of(sys.executable, "-Bc", where, cwd="/", env={"PYTHONPATH": library}).decode()
    good = os.path.realpath(found.strip()) == os.path.realpath(os.path.join(bin_folder, "precopy"))
    tally.add(good, f"the installed tools run the program {found}")
    page = os.path.realpath(os.path.join(prefix, "share", "precopy", "precopy.html"))
    told = shell("precopy-page").decode()
    tally.add(told == f"{page}\n" and os.path.isfile(page), f"precopy-page tells {told!r} in place of {page}")
    for name in contents.TOOLS:
        told = shell(f"precopy-{name} --version").decode()
        tally.add(told == f"precopy-{name} (precopy) {version.VERSION}\n", f"precopy-{name} --version tells {told!r}")
        told = shell(f"precopy-{name} --help").decode()
        good = f"usage: precopy-{name} " in told and "tools/" not in told
        tally.add(good, f"precopy-{name} --help tells {told[:300]!r}")


def find_large_pages(tally, prefix):
    """An installed program that waits for its trace has become the program proper, with the setting of dev/start."""
    for name, word in (("precopy", "image"), ("precopy-view", "show")):
        path, end = os.path.join(prefix, "bin", name), time.monotonic() + SECONDS
        started = subprocess.Popen([path, word], stdin=subprocess.PIPE, stdout=subprocess.DEVNULL, env={})
        proper, runs, found = os.path.realpath(os.path.join(prefix, "lib", "precopy", name)), "", ""
        # A process that has just become another program has no variables for a moment.
        while (runs != proper or not found) and time.monotonic() < end and started.poll() is None:
            runs = os.readlink(f"/proc/{started.pid}/exe")
            # As the C library reads the variable, it may end each of its parts by a 0 in this memory.
            found = read_bytes(f"/proc/{started.pid}/environ").decode().rstrip("\0").replace("\0", ":")
        started.kill()
        started.communicate()
        good = runs == proper and found == f"GLIBC_TUNABLES={':'.join(launchers.LARGE_PAGES)}"
        tally.add(good, f"the installed {name} runs {runs} with {found!r}")


def read_manuals(tally, folder, prefix):
    pages = files_below(os.path.join(prefix, "share", "man"))
    names = {os.path.basename(page) for page in pages}
    wanted = {"precopy.1", "precopy-view.1", *(f"precopy-{name}.1" for name in contents.TOOLS)}
    tally.add(names == wanted, f"the manuals that are installed are {sorted(names)}")
    if has("mandoc", "mandoc", "the form of manuals"):
        for page in pages:
            told = subprocess.run(["mandoc", "-T", "lint", page], capture_output=True, text=True).stdout
            # Other pages of precopy are not where mandoc looks for them.
            told = [line for line in told.split("\n") if line and "referenced manual not found" not in line]
            tally.add(not told, f"mandoc says of {os.path.basename(page)}: {told}")


def check(tally, folder):
    destination = os.path.join(folder, "a root")
    ran = make("install", f"DESTDIR={destination}", "PREFIX=/usr")
    if not tally.add(ran.returncode == 0 and not ran.stdout, f"make install: {ran.stdout}"):
        return
    first = files_below(destination)
    run_from_there(tally, os.path.join(destination, "usr"))
    find_large_pages(tally, os.path.join(destination, "usr"))
    documents.check(tally, folder, os.path.join(destination, "usr"))
    tally.add(files_below(destination) == first, "the installed programs leave files where they are installed")
    read_manuals(tally, folder, os.path.join(destination, "usr"))
    ran = make("install", f"DESTDIR={destination}", "PREFIX=/usr")
    tally.add(ran.returncode == 0 and files_below(destination) == first, f"make install once more: {ran.stdout}")
    ran = make("uninstall", f"DESTDIR={destination}", "PREFIX=/usr")
    left = files_below(destination)
    tally.add(ran.returncode == 0 and not left, f"make uninstall leaves {left[:5]}: {ran.stdout}")
    os.makedirs(destination, exist_ok=True)
    tally.add(not os.listdir(destination), f"make uninstall leaves the folders {os.listdir(destination)}")
    ran = make("uninstall", f"DESTDIR={destination}", "PREFIX=/usr")
    good = ran.returncode != 0 and "Traceback" not in ran.stdout
    tally.add(good, f"make uninstall with nothing installed: {ran.stdout}")
    # Without DESTDIR, and over files of others, which stay.
    prefix = os.path.join(folder, "prefix")
    other = os.path.join(prefix, "share", "man", "man1", "other.1")
    os.makedirs(os.path.dirname(other))
    open(other, "w").close()
    ran = make("install", f"PREFIX={prefix}", "ZSHDIR=" + os.path.join(prefix, "zsh"), DESTDIR="")
    completion = os.path.join(prefix, "zsh", "_precopy-view")
    tally.add(ran.returncode == 0 and os.path.isfile(completion), f"make install with ZSHDIR: {ran.stdout}")
    ran = make("uninstall", f"PREFIX={prefix}", "ZSHDIR=" + os.path.join(prefix, "zsh"), DESTDIR="")
    left = files_below(prefix)
    tally.add(ran.returncode == 0 and left == [other], f"make uninstall leaves {left}: {ran.stdout}")


# ---- dev/edits.


def check_edits(tally, folder):
    """Words that name nothing: nothing is tried then, and that is no success."""
    for words, told in [
        (["none_such"], "crates.txt has no crate none_such"),
        ([], "name the crates"),
        (["--only", "no_such_edit", "collector"], "nothing was tried"),
        (["--unknown"], "name the crates"),
    ]:
        ran = subprocess.run([f"{TOP}/dev/edits", *words], capture_output=True, text=True, timeout=SECONDS)
        good = ran.returncode == 2 and told in ran.stderr and ran.stdout.endswith("0 passed, 1 failed\n")
        tally.add(good, f"edits {words}: status {ran.returncode}, {ran.stdout!r}, {ran.stderr!r}")


# ---- Options in help, manuals and documents.


def words_of_manual(text):
    """The long options and the commands that a manual names."""
    text = re.sub(r"(?m)^\.\\\".*$", "", text)
    long_options = {f"--{name}" for name in re.findall(r"(?:Fl|,) -([a-z][\w-]*)", text)}
    commands = {" ".join(words.split()) for words in re.findall(r"(?m)^\.(?:It )?Cm ([a-z ]+?)(?: ?[A-Z,.].*)?$", text)}
    return long_options, commands


def check_program(tally, program):
    """The manual names exactly the options and the commands of the help, and docs/COMMANDS.md all options."""
    name = program.words[0]
    named, commands = words_of_manual(read_text(TOP, "man", f"{name}.1"))
    told = {option.name for command in program.each() for option in command.options} - {"--help"}
    tally.add(named - {"--help"} == told, f"the manual of {name} and its help differ in {sorted(named ^ told)}")
    leaves = {" ".join(command.words[1:]) for command in program.each() if not command.commands}
    tally.add(leaves <= commands, f"the manual of {name} lacks the commands {sorted(leaves - commands)}")
    known = {" ".join(command.words[1:]) for command in program.each()} | {"help"}
    tally.add(commands <= known, f"the manual of {name} has the commands {sorted(commands - known)}")
    page = read_text(TOP, "docs", "COMMANDS.md")
    for option in sorted(told):
        tally.add(f"`{option}" in page, f"docs/COMMANDS.md does not name {option} of {name}")


def check_tools(tally):
    """Each tool that is installed can be run, and has --version; those that pip installs are the same."""
    with open(os.path.join(TOP, "pyproject.toml"), "rb") as file:
        scripts = tomllib.load(file)["project"]["scripts"]
    expected = [f"precopy-{name}" for name in contents.TOOLS]
    tally.add(sorted(scripts) == expected, f"pyproject.toml has {sorted(scripts)}")
    for name in contents.TOOLS:
        launched = re.search(r"python\" (\S+) ", read_text(TOP, "tools", name))
        good = launched and launched[1] == commands.MODULES.get(name)
        tally.add(good, f"tools/{name} runs {launched}, and pip {commands.MODULES.get(name)}")
        told = output_of(os.path.join(TOP, "tools", name), "--version").decode()
        tally.add(told == f"{name} (precopy) {version.VERSION}\n", f"tools/{name} --version tells {told!r}")


def check_version(tally):
    """The newest entry of the changes has the version and the date of the tools, and the modules have that version."""
    for path in ("bindings/python/pyproject.toml", "bindings/rust/Cargo.toml"):
        told = re.search(r'^version = "(.*)"$', read_text(TOP, path), re.M)
        tally.add(told and told[1] == version.VERSION, f"{path} begins with {told}")
    newest = re.search(r"^## (\S+), (\S+)$", read_text(TOP, "CHANGELOG.md"), re.M)
    tally.add(newest and newest.groups() == (version.VERSION, version.DATE), f"CHANGELOG.md begins with {newest}")


def check_words(tally, folder):
    programs, tools = contents.told_by_help()
    for program in programs:
        with tally.case(f"what is said of {program.words[0]}") as case:
            check_program(case, program)
    for tool in tools:
        with tally.case(f"the help of {tool.words[0]}") as case:
            told = {option.name for option in tool.options}
            case.add({"--help", "--version"} <= told, f"{tool.words[0]} --help tells {sorted(told)}")
            good = tool.about and all(option.help for option in tool.options)
            case.add(good, f"{tool.words[0]} has options without help")
    check_tools(tally)
    check_version(tally)
    unread = os.path.join(folder, "unread")
    shutil.copy("/bin/false" if os.path.exists("/bin/false") else "/usr/bin/false", unread)
    try:
        options.read(unread)
        tally.add(False, "help that cannot be read is taken")
    except options.Unread:
        tally.add(True, "")
