"""Packs the module for pip, with nothing but Python: pyproject.toml names this as its build backend.

Where `make lib` has built the library beside these sources, a wheel has it, and serves machines like this one. Without
it the wheel serves any machine on which the library is found, so it must be found here: by PRECOPY_LIBRARY, or by the
system. Else no wheel is made.
"""

import base64
import ctypes
import hashlib
import io
import os
import re
import sys
import sysconfig
import tarfile
import zipfile

HERE = os.path.dirname(os.path.abspath(__file__))
NAME = "libprecopy.so.6"
LIBRARY = os.path.join(HERE, "..", "..", "out", "library", NAME)
PARTS = sorted(it for it in os.listdir(os.path.join(HERE, "precopy")) if it.endswith((".py", ".typed")))
MOMENT = (1980, 1, 1, 0, 0, 0)


def read(*path):
    with open(os.path.join(HERE, *path), "rb") as file:
        return file.read()


def told(key):
    """Returns what pyproject.toml says of the project."""
    return re.search(rf'^{key} = "(.*)"$', read("pyproject.toml").decode(), re.M)[1]


def metadata():
    lines = ("Metadata-Version: 2.1", f"Name: {told('name')}", f"Version: {told('version')}")
    lines += (f"Summary: {told('description')}", f"Requires-Python: {told('requires-python')}")
    return "".join(f"{line}\n" for line in lines).encode()


def record(files):
    """Returns the list of files with their checksums, as the form of wheels has it."""
    for name, data in files.items():
        digest = base64.urlsafe_b64encode(hashlib.sha256(data).digest()).rstrip(b"=").decode()
        yield f"{name},sha256={digest},{len(data)}\n"


def need_library():
    """Ends the process if there is no library that the module could load."""
    try:
        ctypes.CDLL(os.environ.get("PRECOPY_LIBRARY") or NAME)
    except OSError as fault:
        sys.exit(f"precopy: the library is not built: run `make lib` in the sources, or set PRECOPY_LIBRARY ({fault})")


def build_wheel(wheel_directory, config_settings=None, metadata_directory=None):
    name = f"precopy-{told('version')}"
    files = {f"precopy/{part}": read("precopy", part) for part in PARTS}
    platform = "any"
    if os.path.exists(LIBRARY):
        files[f"precopy/{NAME}"] = read(LIBRARY)
        platform = re.sub(r"\W", "_", sysconfig.get_platform())
    else:
        need_library()
    tag, pure = f"py3-none-{platform}", "true" if platform == "any" else "false"
    files[f"{name}.dist-info/METADATA"] = metadata()
    wheel = f"Wheel-Version: 1.0\nGenerator: precopy\nRoot-Is-Purelib: {pure}\nTag: {tag}\n"
    files[f"{name}.dist-info/WHEEL"] = wheel.encode()
    listed = f"{name}.dist-info/RECORD"
    files[listed] = "".join([*record(files), f"{listed},,\n"]).encode()
    with zipfile.ZipFile(os.path.join(wheel_directory, f"{name}-{tag}.whl"), "w", zipfile.ZIP_DEFLATED) as made:
        for path, data in files.items():
            entry = zipfile.ZipInfo(path, MOMENT)
            entry.external_attr = 0o644 << 16
            made.writestr(entry, data, zipfile.ZIP_DEFLATED)
    return f"{name}-{tag}.whl"


def build_sdist(sdist_directory, config_settings=None):
    name = f"precopy-{told('version')}"
    files = {path: read(path) for path in ("pyproject.toml", "wheels.py", *(f"precopy/{part}" for part in PARTS))}
    with tarfile.open(os.path.join(sdist_directory, f"{name}.tar.gz"), "w:gz", format=tarfile.PAX_FORMAT) as made:
        for path, data in {"PKG-INFO": metadata(), **files}.items():
            entry = tarfile.TarInfo(f"{name}/{path}")
            entry.size, entry.mode = len(data), 0o644
            made.addfile(entry, io.BytesIO(data))
    return f"{name}.tar.gz"
