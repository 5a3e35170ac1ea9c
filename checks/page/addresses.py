"""Addresses that mean harm to the planner's page: each ends with a plan, or a refusal at its control."""

import itertools
import urllib.parse

from checks.lib.tally import expect
from checks.page.cases import example

PROTOTYPES = "constructor __proto__ prototype toString valueOf hasOwnProperty isPrototypeOf __defineGetter__".split()
KEYS = "skip ticks link first increase downtime reserve start rounds base tick sample window".split()
UNITS = {"link": "Gbit", "downtime": "s", "reserve": "ms", "tick": "us"}
ODD = ["", "-1", "1e9", "NaN", "0x10", "%", "%00", "%F0%9F%98%80", "1" * 400, "<script>", "null", "1/0", "0/1", "0/0"]
OTHERS = [
    "trace=constructor",
    "trace=__proto__",
    "of=constructor",
    "of=" + "0" * 12,
    "kept",
    "kept=",
    "&&&&",
    "=",
    "kept=skip%3Dconstructor",
    "kept=__proto__%3D1",
    "kept=link%3D0Kbit&kept=rounds%3D99&kept=sample%3D1%2F0",
    "hasOwnProperty=1",
    "constructor=1&__proto__=1&toString=1",
    "link=1Gbit&link=__proto__&link=2Gbit",
]
FRESH_EVERY = 10


def hostile_addresses():
    """Each key with names of prototypes, with what is huge, odd, empty and repeated; and others."""
    found = [f"{key}={word}" for key, word in itertools.product(KEYS, PROTOTYPES)]
    found += [f"{key}={word}" for key, word in itertools.product(KEYS, ODD[:7])]
    found += [f"{key}={word}" for key, word in zip(itertools.cycle(KEYS), ODD[7:] * 2)]
    for key in KEYS:
        unit = UNITS.get(key, "")
        found += [f"{key}={'9' * 15}{unit}", f"{key}=0{unit}", f"{key}=&{key}=1{unit}"]
    return found + OTHERS


def trace_is_open(page):
    return page.browser.value("document.body.classList.contains('loaded')")


def check_address(page, number, address):
    """An address that the user follows, or now and then a page that is opened by it, with a trace if it has none."""
    if number % FRESH_EVERY == 0:
        page.open(f"#{address}")
        page.browser.wait("/Choose it|Choose a trace|: [0-9,]+ pages? /.test(textOf('trace-state'))", 20)
        if not trace_is_open(page):
            page.load(example("gzip.pcwt"))
        page.wait_for_answer()
        shown = page.shown()
    else:
        shown = page.ask(f"trace=gzip&{address}")
    expect(shown["refused"] or (shown["rounds"] and not shown["stale"]), f"neither a plan nor a refusal: {shown}")
    expect(not shown["refused"] or shown["fault"], f"{shown['refused']} is refused without a word at its control")
    page.click("keep")
    faults = page.browser.value("atRest().then(() => faults)")
    expect(not faults, f"the page's code fails: {faults}")


def check_addresses(tally, page, tried):
    page.open_planned("#trace=gzip")
    for number, address in enumerate(hostile_addresses()):
        tried(tally, f"the address #{urllib.parse.unquote(address)[:60]!r}", check_address, page, number, address)
