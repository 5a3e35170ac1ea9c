"""Trials of the packages: two builds are equal, lintian finds nothing, and they work in a fresh Debian tree."""

import contextlib
import glob
import os
import re
import shlex
import shutil
import subprocess
import tarfile

from checks.doors import documents
from checks.lib.tally import has, left_out
from precopy_dev import js_package
from precopy_dev.files import read_bytes, read_text
from precopy_dev.packaging import contents, release
from precopy_dev.tree import TOP

SECONDS, SECONDS_TO_BEGIN = 400, 1500
SUITE, MIRROR = "bookworm", "http://deb.debian.org/debian"
# Files of the system's own that any installation changes.
OF_THE_SYSTEM = ("var/lib/dpkg", "var/lib/apt", "var/cache", "var/log", "proc", "sys", "dev", "tmp", "root")


def run(*command, **how):
    usual = {"stdin": subprocess.DEVNULL, "stdout": subprocess.PIPE, "stderr": subprocess.STDOUT, "timeout": SECONDS}
    return subprocess.run(command, text=True, errors="replace", **{**usual, **how})


def make(what, folder):
    """Makes a package in a folder, and returns the files that are there."""
    os.makedirs(folder)
    ran = run(os.path.join(TOP, "dev", "package"), what, "--output", folder)
    return ran, sorted(os.listdir(folder))


def same(one, other):
    with open(one, "rb") as first, open(other, "rb") as second:
        return first.read() == second.read()


def make_twice(tally, what, folder):
    """Makes a package twice, and returns the files of the first."""
    folders = [os.path.join(folder, f"{what}{number}") for number in (1, 2)]
    (ran, names), (_, again) = (make(what, each) for each in folders)
    if not tally.add(ran.returncode == 0 and names and names == again, f"make {what}: {names}: {ran.stdout}"):
        return []
    for name in names:
        equal = same(*(os.path.join(each, name) for each in folders))
        tally.add(equal, f"{name} differs from one build to the next")
    return [os.path.join(folders[0], name) for name in names]


# ---- The tarball.


def try_tarball(tally, folder):
    files = make_twice(tally, "dist", folder)
    if not files:
        return []
    ran = run("sha256sum", "-c", os.path.basename(files[1]), cwd=os.path.dirname(files[1]))
    tally.add(ran.returncode == 0, f"the checksum of the tarball: {ran.stdout}")
    tree = os.path.join(folder, "a tarball")
    with tarfile.open(files[0]) as tar:
        owners = {(each.uid, each.gid, each.mtime) for each in tar}
        tar.extractall(tree)
    tally.add(len(owners) == 1, f"the tarball has files of several owners or times: {owners}")
    (top,) = (os.path.join(tree, name) for name in os.listdir(tree))
    line = "bin/precopy image < share/doc/precopy/examples/gzip.pcwt | wc -c; bin/precopy-record --version"
    line += '; bin/precopy-view --version; head -c 15 "$(bin/precopy-page)"'
    ran = run("sh", "-c", line, cwd=top, env={"PATH": os.environ["PATH"]})
    wanted = "".join(f"precopy-{name} (precopy) {contents.version.VERSION}\n" for name in ("record", "view"))
    wanted = f"102400\n{wanted}<!doctype html>"
    tally.add(ran.stdout == wanted, f"the programs of the tarball, where it was unpacked: {ran.stdout}")
    return files


# ---- The package.


def try_lintian(tally, package):
    if has("lintian", "lintian", "what lintian says of the package"):
        # As root it wants to be told that this is meant.
        ran = run("lintian", "--allow-root", "--tag-display-limit", "0", package)
        told = [line for line in ran.stdout.split("\n") if line[:2] in ("E:", "W:")]
        tally.add(ran.returncode == 0 and not told, f"lintian says {told or ran.stdout}")


def files_of(tree):
    """All files and folders of a tree, but for those that any installation changes."""
    found = set()
    for at, folders, names in os.walk(tree):
        place = os.path.relpath(at, tree)
        if place.startswith(OF_THE_SYSTEM):
            folders.clear()
            continue
        found.update(os.path.join(place, name) for name in names + folders if not name.endswith(".pyc"))
    return {it for it in found if not it.startswith(tuple(f"./{each}" for each in OF_THE_SYSTEM))}


def in_tree(tree, line):
    environment = {"PATH": "/usr/sbin:/usr/bin:/sbin:/bin", "LC_ALL": "C.UTF-8", "DEBIAN_FRONTEND": "noninteractive"}
    for name in ("http_proxy", "https_proxy"):
        if name in os.environ:
            environment[name] = os.environ[name]
    return run("chroot", tree, "sh", "-c", line, env=environment)


def try_library(tally, folder, files):
    """Links the example in C with the library as it is unpacked, and runs it."""
    tree = os.path.join(folder, "library")
    for package in files:
        run("dpkg-deb", "-x", package, tree)
    (where,) = glob.glob(f"{tree}/usr/lib/*/libprecopy.a")
    lib, plan = os.path.dirname(where), os.path.join(folder, "plan")
    source = os.path.join(TOP, "examples", "c", "plan.c")
    ran = run("cc", "-I", f"{tree}/usr/include", source, "-L", lib, "-lprecopy", "-o", plan)
    if tally.add(ran.returncode == 0, f"linking with the packed library: {ran.stdout}"):
        words = ("report", "--min", "500", "--max", "4000", "--threshold", "10")
        with open(os.path.join(TOP, "examples", "gzip.pcwt"), "rb") as trace:
            report = run(contents.program_file("precopy"), *words, stdin=trace).stdout.splitlines()
            trace.seek(0)
            ran = run(plan, "500", "4000", "10", stdin=trace, env={"LD_LIBRARY_PATH": lib})
        wanted = [line for line in report if line.startswith(("round ", "stop "))]
        tally.add(wanted and ran.stdout.splitlines() == wanted, f"the example over the packed library: {ran.stdout}")


def try_symbols(tally, files):
    """Programs that are linked with the library depend on it by its symbols: those are the calls of the header."""
    (package,) = (path for path in files if os.path.basename(path).startswith("libprecopy6_"))
    told = run("dpkg-deb", "--info", package, "symbols").stdout
    listed = re.findall(r"^ (precopy_\w+)@PRECOPY_6 \d", told, re.M)
    called = re.findall(
        r"^(?:uint32_t |bool |const char \*)(precopy_\w+)\(", read_text(TOP, "include", "precopy.h"), re.M
    )
    tally.add(called and set(listed) == set(called), f"the symbols of {package} are {listed}, and not {called}")


def try_loaded(tally, tree):
    line = "import ctypes; it = ctypes.CDLL('libprecopy.so.6').precopy_version; it.restype = ctypes.c_char_p"
    ran = in_tree(tree, f'python3 -c "{line}; print(it().decode())"')
    tally.add(ran.stdout == f"{contents.version.VERSION}\n", f"in a fresh tree: the library loaded: {ran.stdout}")
    line = "import precopy; trace = open('/usr/share/doc/precopy/examples/gzip.pcwt', 'rb').read()"
    line += "; print(precopy.plan(trace, precopy.Settings()).total, precopy.__file__)"
    ran = in_tree(tree, f'cd / && python3 -c "{line}"')
    wanted = "47 /usr/lib/python3/dist-packages/precopy/__init__.py\n"
    tally.add(ran.stdout == wanted, f"in a fresh tree: the Python module: {ran.stdout}")


def run_documents(tally, tree):
    """All commands of the installed documents."""

    def in_folder(page, words):
        place = f"/tmp/{page.replace('/', '-')}"
        go_there = f"(test -d {place} || cp -r /usr/share/doc/precopy {place}) && cd {place}"
        ran = in_tree(tree, f"{go_there} && {shlex.join(words)}")
        return ran.returncode, ran.stdout

    documents.commands(tally, f"{tree}/usr/share/doc/precopy", in_folder)


def try_fresh_tree(tally, tree, files):
    for package in files:
        shutil.copy(package, f"{tree}/tmp")
    names = [os.path.basename(package).partition("_")[0] for package in files]
    ran = in_tree(tree, "apt-get update 2>&1")
    if ran.returncode:
        left_out("the package in a fresh Debian tree", f"apt-get update fails there: {ran.stdout[-200:]}")
        return
    before = files_of(tree)
    ran = in_tree(tree, "apt-get install -y --no-install-recommends /tmp/*.deb 2>&1")
    if not tally.add(ran.returncode == 0, f"apt-get install of the package in a fresh tree: {ran.stdout[-600:]}"):
        return
    run_documents(tally, tree)
    for name in contents.TOOLS:
        ran = in_tree(tree, f"precopy-{name} --help > /dev/null && precopy-{name} --version")
        wanted = f"precopy-{name} (precopy) {contents.version.VERSION}\n"
        tally.add(ran.stdout == wanted, f"in a fresh tree: precopy-{name} --version: {ran.stdout}")
    trace = "/usr/share/doc/precopy/examples/gzip.pcwt"
    ran = in_tree(tree, f"precopy-export {trace} - | precopy-import - - | cmp - {trace} && echo equal")
    tally.add(ran.stdout == "equal\n", f"in a fresh tree: precopy-export and precopy-import: {ran.stdout}")
    ran = in_tree(tree, 'precopy-page && head -c 15 "$(precopy-page)"')
    wanted = "/usr/share/precopy/precopy.html\n<!doctype html>"
    tally.add(ran.stdout == wanted, f"in a fresh tree: precopy-page: {ran.stdout}")
    ran = in_tree(tree, "dpkg --verify precopy && dpkg -L precopy | grep -c /man1/")
    tally.add(ran.stdout == f"{2 + len(contents.TOOLS)}\n", f"in a fresh tree: the manuals: {ran.stdout}")
    try_loaded(tally, tree)
    purge = f"apt-get purge -y {' '.join(names)} 2>&1 && apt-get autoremove --purge -y 2>&1"
    ran = in_tree(tree, purge)
    left = files_of(tree) - before
    tally.add(ran.returncode == 0 and not left, f"removing the package leaves {sorted(left)[:5]}: {ran.stdout[-300:]}")


@contextlib.contextmanager
def fresh_debian(folder):
    """A new Debian tree with nothing but what its packages need, or None if there can be none here."""
    tree, why = os.path.join(folder, "debian"), "not root"
    try:
        if os.geteuid() == 0:
            ran = run("debootstrap", "--variant=minbase", SUITE, tree, MIRROR, timeout=SECONDS_TO_BEGIN)
            why = ran.returncode and f"status {ran.returncode}: {ran.stdout[-200:]}"
        if why:
            left_out("the package in a fresh Debian tree", f"debootstrap cannot run: {why}")
        yield None if why else tree
    finally:
        # debootstrap may leave these mounted; what is below them is not this tree's.
        for name in ("proc", "sys", "dev/pts", "dev"):
            subprocess.run(["umount", f"{tree}/{name}"], stderr=subprocess.DEVNULL)


def try_release(tally, folder, made):
    """A release has the packages and the tarball to the byte, and its checksums hold. It wants a clean tree."""
    if run("git", "status", "--porcelain", cwd=TOP).stdout:
        left_out("a release", "the tree has changes that are not committed")
        return
    ran, names = make("release", os.path.join(folder, "release"))
    tally.add(ran.returncode == 0, f"make release: {ran.stdout}")
    for path in made:
        at = os.path.join(folder, "release", os.path.basename(path))
        tally.add(os.path.exists(at) and same(path, at), f"{os.path.basename(path)} of a release differs")
    others = {"CHANGES.md", "NOTICES", "SHA256SUMS", contents.PAGE, release.NODE}
    tally.add(set(names) == others | set(map(os.path.basename, made)), f"a release has {names}")
    ran = run("sha256sum", "--strict", "-c", "SHA256SUMS", cwd=os.path.join(folder, "release"))
    tally.add(ran.returncode == 0 and ran.stdout.count(": OK\n") == len(names) - 1, f"its checksums: {ran.stdout}")
    if shutil.which("npm"):
        try_node(tally, folder, os.path.join(folder, "release", release.NODE))
    else:
        left_out("the package for Node of a release, installed", "there is no npm")


def try_node(tally, folder, package):
    """The package for Node of a release is installed without a network, and has what `make js` makes."""
    place = os.path.join(folder, "node")
    os.makedirs(place)
    words = ("--offline", "--no-audit", "--no-fund", "--no-update-notifier", "--cache", os.path.join(folder, "npm"))
    ran = run("npm", "install", *words, package, cwd=place)
    tally.add(ran.returncode == 0, f"npm install: {ran.stdout}")
    top = os.path.join(place, "node_modules", "precopy-planner")
    found = {os.path.relpath(os.path.join(at, name), top) for at, _, names in os.walk(top) for name in names}
    wanted = js_package.package_of(contents.module())
    tally.add(found == set(wanted), f"the package for Node has {sorted(found ^ set(wanted))} or lacks them")
    for name in found & set(wanted):
        tally.add(read_bytes(top, name) == wanted[name], f"{name} of the package for Node differs")


def check(tally, folder):
    tarball = try_tarball(tally, folder)
    if not all(has(tool, "debhelper", "the packages for Debian") for tool in ("dh", "dh_python3")):
        return
    files = make_twice(tally, "deb", folder)
    try_release(tally, folder, [*files, *tarball])
    for package in files:
        print(f"  {os.path.basename(package)}: {os.path.getsize(package):,} bytes", flush=True)
        try_lintian(tally, package)
    if files:
        try_symbols(tally, files)
    if has("cc", "gcc", "the packed library, linked"):
        try_library(tally, folder, files)
    if files and has("debootstrap", "debootstrap", "the package in a fresh Debian tree"):
        with fresh_debian(folder) as tree:
            if tree:
                try_fresh_tree(tally, tree, files)
