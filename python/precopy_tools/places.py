"""Where the programs and the page are: built in these sources, or installed with the tools."""

import os
import shutil

from precopy_tools.version import IS_INSTALLED, TOP


def program(name: str = "precopy") -> str:
    """The path of a program. In sources where it is not built yet, it is the path that it will have."""
    crate = name.replace("-", "_")
    if not IS_INSTALLED:
        return os.path.join(TOP, "crates", crate, "out", crate)
    installed = os.path.join(os.path.dirname(os.path.dirname(TOP)), "bin", name)
    return installed if os.access(installed, os.X_OK) else shutil.which(name) or name


def page() -> str:
    """The path of the page that plans in a browser, or the one that it will have. An installation has a link to it."""
    return os.path.realpath(os.path.join(TOP, *[] if IS_INSTALLED else ["out"], "precopy.html"))


def helper(name: str) -> str:
    """The path of a program that only tools run: installed, it is above them."""
    beside = os.path.join(TOP, name)
    return beside if os.access(beside, os.X_OK) else program(name)
