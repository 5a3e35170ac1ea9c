"""What checks do on the planner's page: they ask for settings, and type."""

import json

from checks.page.browser import SECONDS
from checks.page.cases import example
from checks.view.limit_cases import RATES
from precopy_dev.files import read_bytes

PLAIN = {
    "trace": "sqlite",
    "link": "1Gbit",
    "downtime": "300ms",
    "first": "10",
    "reserve": "0ms",
    "start": "1000",
    "rounds": "30",
    "tick": "1ms",
    "base": "none",
    "window": "500",
}


def example_named(name, example_of):
    """An example as a file of another name, to be dropped."""
    return name, read_bytes(example(example_of))


def guest_with_record(name):
    """The example of SQLite and its record, as files of another name."""
    return [example_named(f"{name}.{kind}", f"guests/sqlite.light.{kind}") for kind in ("pcwt", "json")]


def asked(page, **more):
    """Asks for plain settings with some others."""
    return page.ask("&".join(f"{name}={word}" for name, word in {**PLAIN, **more}.items()))


def typed(page, name, text):
    """Types into a field, and returns what the page shows then."""
    return page.after(
        f"const field = document.getElementById('control-{name}'); field.value = {json.dumps(text)};"
        "field.dispatchEvent(new Event('input'));"
    )


def plan_starts(page, seconds=SECONDS):
    page.click("ask")
    done = "!document.getElementById('starts-answer').hidden && document.getElementById('starts-progress').hidden"
    page.browser.wait(done, seconds)


def spelled(amount, unit):
    """An amount as a word of the address, by the unit of its control."""
    if unit in (None, "ticks"):
        return str(amount)
    return f"{amount // 1_000}.{amount % 1_000:03}KB" if unit in RATES else f"{amount}us"
