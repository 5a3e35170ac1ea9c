"""The library for C: libprecopy.a and libprecopy.so.6, made of the proved archive of crates/precopy_c.

Both hold the same object, in which only the functions of include/precopy.h have names that others see.
"""

import os
import shutil
import subprocess
import sys
import tempfile

from precopy_dev.packaging import compilers, contents
from precopy_dev.tree import TOP

ARCHIVE = os.path.join(TOP, "crates", "precopy_c", "out", "libprecopy_c.a")
FOLDER = os.path.join(TOP, "out", "library")
# The number of the interface, which is PRECOPY_ABI.
INTERFACE = 6
NAME = f"libprecopy.so.{INTERFACE}"
# What it is made of besides the archive.
PARTS = ("include/precopy.h", "packaging/messages.c", "packaging/status_texts.h", "packaging/library.map")
PARTS += ("python/precopy_tools/version.py",)
CRATE = "bindings/rust"
CONFIG = """\
prefix={prefix}
libdir={lib}
includedir={include}

Name: precopy
Description: plans of pre-copy live migrations, memory of recorded guests, and frames of pages
Version: {version}
Libs: -L${{libdir}} -lprecopy
Cflags: -I${{includedir}}
"""


def tool(name):
    return compilers.tool(name, "the library")


def heap():
    """Returns the toolchain's archive that calls malloc, realloc and free for proved code."""
    command = shutil.which("rt")
    if not command:
        raise compilers.Lacks("the Rattle toolchain is not here: its command rt is not on the path")
    path = os.path.join(os.path.dirname(os.path.dirname(os.path.realpath(command))), "c", "liblibc_c.a")
    if not os.path.isfile(path):
        raise compilers.Lacks(f"the Rattle toolchain here has no {path}")
    return path


def build():
    """Makes the library of the archive, and returns the paths of both forms."""
    if not os.path.isfile(ARCHIVE):
        raise contents.NotBuilt("the library is not built: make lib builds it")
    os.makedirs(FOLDER, exist_ok=True)
    include, here = os.path.join(TOP, "include"), os.path.join(TOP, "packaging")
    with tempfile.TemporaryDirectory() as room:
        words, whole = os.path.join(room, "messages.o"), os.path.join(room, "precopy.o")
        options = ["-std=c99", "-O2", "-fPIC", "-Wall", "-Wextra", "-pedantic", "-I", include]
        version = f'-DPRECOPY_VERSION="{contents.version.VERSION}"'
        compilers.run(tool("cc"), *options, version, "-c", os.path.join(here, "messages.c"), "-o", words)
        compilers.run(tool("ld"), "-r", "-o", whole, "--whole-archive", ARCHIVE, heap(), "--no-whole-archive", words)
        compilers.run(tool("objcopy"), "--wildcard", "--keep-global-symbol=precopy_*", whole)
        compilers.run(tool("strip"), "--strip-unneeded", "--enable-deterministic-archives", whole)
        return pack(room, whole, os.path.join(here, "library.map"))


def is_current():
    """Returns whether both forms are there, and nothing that they are made of is newer."""
    parts = [ARCHIVE, __file__, *(os.path.join(TOP, it) for it in PARTS)]
    made = [os.path.join(FOLDER, name) for name in ("libprecopy.a", NAME)]
    if not all(map(os.path.isfile, [*parts, *made])):
        return False
    return max(map(os.path.getmtime, parts)) <= min(map(os.path.getmtime, made))


def make(_asked):
    """Builds the library if it is not built or something has changed, and then says where it is."""
    if subprocess.run([os.path.join(TOP, "dev", "build"), "--if-needed", "precopy_c"]).returncode:
        raise contents.NotBuilt("the library could not be built")
    if not is_current():
        for path in build():
            print(f"precopy: {os.path.relpath(path, TOP)} is built", file=sys.stderr, flush=True)


def pack(room, whole, versions):
    """Puts an object into an archive and into a shared library, and each in its place once it is whole."""
    archive, shared = os.path.join(room, "libprecopy.a"), os.path.join(room, NAME)
    compilers.run(tool("ar"), "rcsD", archive, whole)
    # A call from one of its functions to another is its own, whatever else is loaded under that name.
    link = [f"-Wl,-soname,{NAME}", f"-Wl,--version-script={versions}", "-Wl,-Bsymbolic-functions"]
    link += ["-Wl,-z,text", "-Wl,-z,defs", "-Wl,-z,now", "-Wl,--build-id=none", "-Wl,-s"]
    compilers.run(tool("cc"), "-shared", *link, "-o", shared, whole)
    made = [os.path.join(FOLDER, os.path.basename(path)) for path in (archive, shared)]
    for path, place in zip((archive, shared), made):
        shutil.copy(path, f"{place}.part")
        os.replace(f"{place}.part", place)
    short = os.path.join(FOLDER, "libprecopy.so")
    if not os.path.islink(short):
        os.symlink(NAME, short)
    return made


def config(prefix, lib, include):
    """The text for pkg-config, with folders as a compiler takes them."""
    return CONFIG.format(prefix=prefix, lib=lib, include=include, version=contents.version.VERSION)


def entries(places, told):
    """Yields what an installation has of the library, of which `make lib` made both forms, with this text for
    pkg-config, and of the crate for Rust, as source."""
    lib = places.library
    for name in ("libprecopy.a", NAME):
        path = os.path.join(FOLDER, name)
        if not os.path.isfile(path):
            raise contents.NotBuilt("the library is not built: make lib builds it")
        yield contents.Entry(os.path.join(lib, name), contents.read(path))
    header = contents.read("include/precopy.h")
    yield contents.Entry(os.path.join(lib, "libprecopy.so"), link=NAME)
    yield contents.Entry(os.path.join(places.include, "precopy.h"), header)
    yield contents.Entry(os.path.join(lib, "pkgconfig", "precopy.pc"), told.encode())
    for path in contents.sources_below(CRATE):
        place = os.path.join(places.share, "rust", os.path.relpath(path, CRATE))
        yield contents.Entry(place, contents.read(path))
