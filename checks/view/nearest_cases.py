"""Cases of checks/view about refused amounts: the nearest that is told is taken, and nothing nearer is."""

from dataclasses import replace

from checks.lib.harness import drawn
from checks.lib.migration_model import Question
from checks.lib.tally import expect
from checks.lib.view_texts import ran

DRAWN = 120


def expect_refusal(view, asked, trace, name):
    """The program refuses an amount of this name, or does not, as the model says."""
    refusal = asked.limit_refusal()
    status, text, faults = ran(view, ["predict", *asked.words()], trace.path)
    is_named = refusal and refusal.told.startswith(f"--{name} ")
    if refusal:
        expect([status, text, faults] == refusal.of_view(), f"{asked}: {faults!r} in place of {refusal}")
    else:
        expect(status in (0, 3, 4, 5) and not faults, f"{asked}: {status}, {faults!r}")
    return int(refusal.told.startswith("--") and amount(refusal.told)) if is_named else None


def amount(told):
    """What the nearest that is told comes to."""
    word = told.rsplit(" ", 1)[1]
    units = {"Gbit": 125_000_000, "Mbit": 125_000, "Kbit": 125, "KB": 1_000, "us": 1, "ms": 1_000, "s": 1_000_000}
    number = word.rstrip("GMKBbituims")
    whole, _, places = number.partition(".")
    return int(whole) * units[word[len(number) :]] + int(places or 0)


def check_nearest(view, _, name, asked, trace):
    nearest = expect_refusal(view, asked, trace, name)
    expect(nearest is not None, f"{asked}: {name} is not refused first")
    expect(expect_refusal(view, replace(asked, **{name: nearest}), trace, name) is None, f"{nearest} is refused too")
    nearer = nearest + (1 if nearest < getattr(asked, name) else -1)
    again = expect_refusal(view, replace(asked, **{name: nearer}), trace, name)
    expect(again == nearest, f"{asked}: {nearer} is nearer than {nearest}: {again}")


def nearest_drawn(draw):
    """The name of an amount, and a question of which it is the first that is refused."""
    guest = draw.randrange(25, 1 << draw.randrange(5, 17)) if draw.random() < 0.5 else 25
    tick = 10 ** draw.randrange(7)
    share = tick * 25 / (4_096_000 * guest)
    rate = int(draw.randrange(2, 1_000_000) / share) + 1
    asked = Question(rate, None, 0, 0, tick, 4_096, 25, guest, None, 30, 0, None, False, clark=bool(draw.randrange(2)))
    low, high = max(0, int(draw.random() / share) - 1), int((1_000_002 + 10 ** draw.randrange(8)) / share) + 1
    name, changed = draw.choice(
        [
            ("link", {"link": low}),
            ("link", {"link": high}),
            ("first", {"first": low}),
            ("first", {"first": rate + high}),
            ("downtime", {"downtime": 4 * 10**14, "reserve": draw.randrange(10**6)}),
            ("reserve", {"downtime": draw.randrange(10**6), "reserve": 10**8}),
        ]
    )
    return name, replace(asked, clark=asked.clark or name == "first", **changed)


def nearest_tries(trace):
    """The tries of refused amounts over a trace of 25 pages of 4,096 bytes."""
    for draw in drawn("refused amounts", range(DRAWN)):
        yield check_nearest, *nearest_drawn(draw), trace
