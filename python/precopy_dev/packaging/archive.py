"""A tarball of all that is installed, for systems without Debian's packages, and its checksum."""

import gzip
import hashlib
import io
import os
import platform
import re
import tarfile

from precopy_dev.files import write_file
from precopy_dev.packaging import contents, library

LEAST_PYTHON = "3.10"
INSTALL = """\
precopy {version}, for Linux on {machine} with the C library glibc {libc} or later.
The tools need Python {python} or later.

It runs in place: bin/precopy, bin/precopy-view and bin/precopy-record, .. To install it for all users:

    cp -R bin include lib share /usr/local/

share/doc/precopy/README.md says what it does.
"""


def least_libc(entries):
    """The C library that machine code needs, by the symbols that it names."""
    programs = [entry.data for entry in entries if entry.data.startswith(b"\x7fELF")]
    versions = [version for data in programs for version in re.findall(rb"\0GLIBC_(\d+)\.(\d+)", data)]
    return "{}.{}".format(*max((int(major), int(minor)) for major, minor in versions))


def add(tar, name, entry, moment):
    told = tarfile.TarInfo(f"{name}/{entry.place}")
    told.mtime, told.mode, told.uname, told.gname = moment, entry.mode, "root", "root"
    if entry.link is not None:
        told.type, told.linkname, told.mode = tarfile.SYMTYPE, entry.link, 0o777
    else:
        told.size = len(entry.data)
    tar.addfile(told, io.BytesIO(entry.data))


def tarball(name, entries):
    """A compressed tarball of one folder of this name. The same entries give the same bytes."""
    packed = io.BytesIO()
    with tarfile.open(fileobj=packed, mode="w", format=tarfile.GNU_FORMAT) as tar:
        for entry in sorted(entries, key=lambda entry: entry.place):
            add(tar, name, entry, contents.moment(contents.version.DATE))
    return gzip.compress(packed.getvalue(), 9, mtime=0)


def build(folder):
    """Writes the tarball and its checksum into a folder, and returns their paths."""
    version, machine = contents.version.VERSION, platform.machine()
    told = library.config("${pcfiledir}/../..", "${prefix}/lib", "${prefix}/include")
    places = contents.places_below("")
    entries = [*contents.contents(places), *library.entries(places, told)]
    text = INSTALL.format(version=version, machine=machine, libc=least_libc(entries), python=LEAST_PYTHON)
    entries.append(contents.Entry("INSTALL", text.encode()))
    name = f"precopy-{version}-linux-{machine}"
    data = tarball(name, entries)
    sum_line = f"{hashlib.sha256(data).hexdigest()}  {name}.tar.gz\n"
    for path, what in ((f"{name}.tar.gz", data), (f"{name}.tar.gz.sha256", sum_line.encode())):
        write_file(what, folder, path)
        yield os.path.join(folder, path)
