"""Packages for Debian, made by debhelper from `debian/`. Two packages of the same contents are equal, byte for byte.

What `debian/` cannot say by itself is made here: the changes, from CHANGELOG.md, and the notices of what is linked.
"""

import email.utils
import os
import re
import shutil
import subprocess
import tempfile
import textwrap

from precopy_dev.files import write_file
from precopy_dev.packaging import compilers, contents, notices
from precopy_dev.tree import TOP, read

# What debian/rules works with besides debian/ itself.
LINKED = ("bindings", "dev", "packaging")


def changelog(text, maintainer):
    """The changes in Debian's form, from a text whose sections are '## VERSION, DATE' with a list."""
    parts = re.split(r"^## (\S+), (\S+)$", text, flags=re.M)[1:]
    for version, date, changes in zip(parts[::3], parts[1::3], parts[2::3]):
        items = re.findall(r"^- (.*(?:\n  .*)*)", changes, re.M)
        yield f"precopy ({version}) unstable; urgency=medium\n\n"
        for item in items:
            plain = " ".join(item.replace("`", "").split())
            yield textwrap.fill(plain, 76, initial_indent="  * ", subsequent_indent="    ", break_on_hyphens=False)
            yield "\n"
        yield f"\n -- {maintainer}  {email.utils.formatdate(contents.moment(date), localtime=False)}\n\n"


def copyright_of(maintainer):
    return f"""\
Format: https://www.debian.org/doc/packaging-manuals/copyright-format/1.0/
Upstream-Name: precopy
Upstream-Contact: {maintainer}

Files: *
Copyright: 2026 the authors of precopy
License: Apache-2.0
 On Debian systems the full text of this license is in
 /usr/share/common-licenses/Apache-2.0.
Comment:
{as_field(without_apache(notices.notices()))}"""


def without_apache(text):
    """Notices without the text of a licence that Debian has."""
    head, *parts = re.split(r"^(?=.+\n={78}$)", text, flags=re.M)
    where = "On Debian systems this license is in /usr/share/common-licenses/Apache-2.0.\n\n"
    is_apache = re.compile("TERMS AND CONDITIONS FOR USE, REPRODUCTION", re.I)
    short = [f"{part[: part.index('=')]}{'=' * 78}\n\n{where}" if is_apache.search(part) else part for part in parts]
    return head + "".join(short)


def as_field(text):
    """A text as lines of a field."""
    return "".join(f" {line or '.'}\n" for line in text.rstrip("\n").split("\n"))


def write_texts(folder, wanted):
    """Writes the changes and the notices into a copy of `debian/`, and there names who answers for the packages, if
    that is somebody else than `debian/control` says."""
    control = read("debian/control")
    named = re.search(r"^Maintainer: (.*)$", control, re.M)[1]
    maintainer = wanted or named
    texts = {
        "changelog": "".join(changelog(read("CHANGELOG.md"), maintainer)),
        "copyright": copyright_of(maintainer),
        "control": control.replace(named, maintainer, 1),
    }
    for name, text in texts.items():
        write_file(text, folder, name)


def build_all(folder, maintainer):
    """Makes the packages in a folder, and returns their paths."""
    for command in ("dh", "dh_python3"):
        compilers.tool(command, "packages for Debian")
    with tempfile.TemporaryDirectory() as room, tempfile.TemporaryDirectory() as made:
        shutil.copytree(os.path.join(TOP, "debian"), os.path.join(room, "debian"))
        for name in LINKED:
            os.symlink(os.path.join(TOP, name), os.path.join(room, name))
        write_texts(os.path.join(room, "debian"), maintainer)
        environment = {**os.environ, "PACKAGES": made}
        done = subprocess.run(["debian/rules", "binary"], cwd=room, env=environment, capture_output=True, text=True)
        if done.returncode:
            raise compilers.Lacks(f"debhelper made no packages:\n{done.stdout}{done.stderr}")
        for name in sorted(os.listdir(made)):
            yield shutil.move(os.path.join(made, name), os.path.join(folder, name))
