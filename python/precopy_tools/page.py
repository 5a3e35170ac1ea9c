"""Tells where the page is that plans in a browser.

    tools/page
    firefox "$(tools/page)"

It prints the path of precopy.html, one file that works from disk and without a network: drop a trace on it and move the
controls. It needs a browser with WebAssembly memory of 64-bit addresses, as Chromium and Firefox from version 134 on.

The status is 0, 1 if the page is not there, and 2 if the words are refused.
"""

import os
import sys

from precopy_tools import places, printed, version


def main(given: list[str]) -> int:
    parser = version.parser("page", __doc__)
    parser.parse_args(given)
    page = places.page()
    if not os.path.isfile(page):
        whence = "the package precopy has it" if version.IS_INSTALLED else "make page builds it"
        version.complain("page", f"there is no {page}; {whence}")
        return 1
    print(page)
    return 0


if __name__ == "__main__":
    sys.exit(printed.run("page", main, loses=True))
