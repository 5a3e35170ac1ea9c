"""Links between pages: the page is there, and has the heading that an anchor names."""

import os
import re

from checks.lib.pages import INDEX, pages
from precopy_dev.tree import TOP, read

LINK = re.compile(r"\]\(([^)\s]*)\)")


def anchors_of(path):
    """The anchors of a page's headings, as GitHub and pandoc make them: small letters and digits, blanks as hyphens."""
    text = re.sub(r"^```.*?^```", "", read(path), flags=re.M | re.S)
    heads = re.findall(r"^#+ (.*)", text, re.M)
    return {re.sub(r"[^\w\- ]", "", head.lower()).strip().replace(" ", "-") for head in heads}


def compared():
    """Yields whether each link leads to something, and what to tell if not. Addresses of the web are not followed."""
    for page in pages():
        for link in LINK.findall(read(page)):
            path, _, anchor = link.partition("#")
            if ":" in path:
                continue
            target = os.path.normpath(os.path.join(os.path.dirname(page), path)) if path else page
            there = target == INDEX or os.path.exists(os.path.join(TOP, target))
            yield there, f"{page} leads to {target}, which is not there"
            if anchor and there and target != INDEX:
                yield anchor in anchors_of(target), f"{page} leads to {target}#{anchor}, a heading that is not there"
