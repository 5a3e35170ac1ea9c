"""Trials of what `make install` and `make install-lib` put in place of the library."""

import os
import shutil
import sys

from checks.lib.library_runs import is_done, run
from checks.lib.tally import left_out, why_not
from precopy_dev.files import read_bytes, read_text, write_file
from precopy_dev.tree import TOP
from precopy_tools import version

# What of the sources an installation of the library needs besides what is built: no program, and no crate.
ENOUGH = ("dev", "packaging", "python", "tools", "include", "bindings", "out/library")
SOURCES = ("share/precopy/rust/Cargo.toml", "share/precopy/rust/build.rs", "share/precopy/rust/src/lib.rs")


def files_below(folder):
    return sorted(os.path.relpath(os.path.join(at, it), folder) for at, _, names in os.walk(folder) for it in names)


def link_and_run(tally, folder, prefix):
    """What is below a prefix is enough to compile, link and run a program, by pkg-config if it is there."""
    library = os.path.join(prefix, "lib")
    flags = [f"-I{prefix}/include", f"-L{library}", "-lprecopy"]
    if why := why_not("pkg-config"):
        left_out("what pkg-config tells of the library", why)
    else:
        environment = {**os.environ, "PKG_CONFIG_PATH": f"{library}/pkgconfig"}
        told = run("pkg-config", "--cflags", "--libs", "precopy", env=environment).stdout.decode().split()
        tally.add(set(told) == set(flags), f"pkg-config tells {told}, not {flags}")
        told = run("pkg-config", "--modversion", "precopy", env=environment).stdout.decode().strip()
        tally.add(told == version.VERSION, f"pkg-config tells the version {told}")
    built = os.path.join(folder, "installed")
    done = run("cc", "-std=c99", f"{TOP}/examples/c/plan.c", "-o", built, *flags)
    if is_done(tally, done, "examples/c/plan.c is compiled with what is installed"):
        trace, environment = read_bytes(TOP, "examples/a.pcwt"), {**os.environ, "LD_LIBRARY_PATH": library}
        done = run(built, "2", "4", "1", input=trace, env=environment)
        tally.add(done.stdout.startswith(b"round 0 from 0 to 2000 rate 2"), f"plan.c with what is installed: {done}")


def build_crate(tally, folder, prefix):
    """A program over the crate that is installed, which finds the library beside it."""
    if why := why_not("cargo"):
        left_out("the installed crate", why)
        return
    source = os.path.join(folder, "a program")
    os.makedirs(f"{source}/src")
    manifest = '[package]\nname = "it"\nversion = "0.1.0"\nedition = "2021"\n\n[dependencies]\n'
    for path, text in (
        ("Cargo.toml", f'{manifest}precopy = {{ path = "{prefix}/share/precopy/rust" }}\n'),
        ("src/main.rs", 'fn main() {\n    println!("{}", precopy::version());\n}\n'),
    ):
        write_file(text, source, path)
    environment = {name: it for name, it in os.environ.items() if name != "PRECOPY_LIBRARY_DIR"}
    done = run("cargo", "run", "--offline", "--quiet", cwd=source, env=environment)
    tally.add(done.stdout.decode() == f"{version.VERSION}\n", f"a program over the installed crate: {done}")


def check_library_alone(tally, folder):
    """Where no program is built and no toolchain is there, the library is installed and taken away again."""
    sources, root = os.path.join(folder, "sources"), os.path.join(folder, "a root")
    for path in ENOUGH:
        shutil.copytree(os.path.join(TOP, path), os.path.join(sources, path), symlinks=True)
    words = os.path.join(sources, "dev", "package"), "install-lib", "--prefix", "/usr", "--destdir", root
    if not is_done(tally, run(*words), "the library is installed alone"):
        return
    found, prefix = files_below(root), os.path.join(root, "usr")
    wanted = {f"usr/{path}" for path in SOURCES} | {"usr/include/precopy.h", "usr/lib/pkgconfig/precopy.pc"}
    wanted |= {f"usr/lib/libprecopy.{kind}" for kind in ("a", "so", "so.6")}
    folders = ("usr/share/precopy/rust/", "usr/lib/precopy/installed-library")
    others = [path for path in found if path not in wanted and not path.startswith(folders)]
    tally.add(wanted <= set(found) and not others, f"install-lib installs {others}, and lacks {wanted - set(found)}")
    tally.add(
        "\nlibdir=/usr/lib\n" in read_text(f"{prefix}/lib/pkgconfig/precopy.pc"),
        "precopy.pc names the folders below DESTDIR",
    )
    tally.add(is_done(tally, run(*words), "install-lib again") and files_below(root) == found, "install-lib again")
    build_crate(tally, folder, prefix)
    take_away = words[0], "uninstall-lib", *words[2:]
    tally.add(run(*take_away).returncode == 0 and not os.listdir(root), f"uninstall-lib leaves {files_below(root)}")
    done = run(*take_away)
    good = done.returncode == 1 and b"there is no installation" in done.stderr
    tally.add(good, f"uninstall-lib with nothing installed: {done}")


def make(*words):
    """Runs make without a toolchain on the path."""
    path = os.pathsep.join(it for it in os.environ["PATH"].split(os.pathsep) if not os.path.exists(f"{it}/rt"))
    return run("make", "-s", "-C", TOP, *words, env={**os.environ, "PATH": path})


def check_make(tally, folder):
    """By make, below a prefix. All that is installed takes over the library that was, and is taken away with it."""
    prefix = os.path.join(folder, "alone")
    done = make("install-lib", f"PREFIX={prefix}")
    if is_done(tally, done, "make install-lib") and tally.add(not done.stderr, f"make install-lib says {done.stderr}"):
        link_and_run(tally, folder, prefix)
    programs = [os.path.join(TOP, "crates", name, "out", name) for name in ("precopy", "precopy_view")]
    if not all(os.access(path, os.X_OK) for path in programs):
        left_out("all that is installed", "the programs are not built in this tree")
        return
    if not is_done(tally, make("install", f"PREFIX={prefix}"), "make install after make install-lib"):
        return
    link_and_run(tally, folder, prefix)
    environment = {**os.environ, "PRECOPY_LIBRARY": os.path.join(prefix, "lib", "libprecopy.so")}
    binding = os.path.join(prefix, "share", "doc", "precopy", "bindings", "python")
    done = run(sys.executable, "-Bc", "import precopy; print(precopy.version())", cwd=binding, env=environment)
    tally.add(done.stdout.decode() == f"{version.VERSION}\n", f"the installed Python module: {done}")
    done = make("uninstall", f"PREFIX={prefix}")
    tally.add(done.returncode == 0 and not os.path.exists(prefix), f"make uninstall leaves {files_below(prefix)}")
    # The other way round, the library goes alone.
    for target in ("install", "install-lib", "uninstall-lib"):
        is_done(tally, make(target, f"PREFIX={prefix}"), f"make {target}")
    left = files_below(prefix)
    tally.add("bin/precopy" in left and "include/precopy.h" not in left, "make uninstall-lib after make install")
    done = make("uninstall", f"PREFIX={prefix}")
    tally.add(done.returncode == 0 and not os.path.exists(prefix), f"make uninstall leaves {files_below(prefix)}")
