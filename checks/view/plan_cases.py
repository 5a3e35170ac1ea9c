"""Cases of checks/view about by whose plan a migration goes: a hypervisor's looks, or with --clark Clark's rounds."""

from checks.lib.tally import expect
from checks.lib.view_texts import ran

LIMITS = ["--link=1GB", "--downtime=1ms"]
# The commands that know both plans, and those that know only Clark's.
OF_BOTH = [["predict"], ["when"], ["json", "predict"], ["json", "when"]]
OF_ROUNDS = [["show"], ["chart"], ["advise"], ["json", "report"], ["json", "sweep"]]
OF_CLARK = ["--first=1GB", "--inc=5", "--rounds=5", "--rounds=30", "--skip"]
NEEDED = "--first, --inc, --rounds and --skip are of Clark's rounds, and need --clark"
# What is told before that, with what it is told of.
BEFORE = [
    (["--rounds=5"], "--link and --downtime are needed, as in --link 10Gbit --downtime 300ms"),
    (["--link=1GB", "--skip"], "--link and --downtime go together, and --first and --reserve need them"),
    ([*LIMITS, "--rounds=0"], "settings S5"),
    ([*LIMITS, "--inc=1000001"], "settings S3"),
]
DONE = (0, 3, 4, 5)


def check_needs(view, _, command, words, line, trace):
    """Without --clark the words are refused with a line."""
    found = ran(view, [*command, *words], trace.path)
    expect(found == (2, "", f"precopy-view: {line}\n"), f"{command} {words}: {found}")


def check_takes(view, _, command, words, trace):
    status, text, faults = ran(view, [*command, *words], trace.path)
    expect(status in DONE and text and not faults, f"{command} {words}: status {status}, {faults!r}")


def check_unknown(view, _, command, trace):
    """A command that knows one plan alone has no such option."""
    status, text, faults = ran(view, [*command, "--clark"], trace.path)
    told = faults.startswith("error: unexpected argument '--clark' found\n")
    expect(status == 2 and not text and told, f"{command} --clark: status {status}, {faults!r}")


def plan_tries(trace):
    """The tries of the words over a trace with pages of 4,096 bytes."""
    for command in OF_BOTH:
        yield check_takes, command, LIMITS, trace
        yield check_takes, command, [*LIMITS, "--clark"], trace
        for word in OF_CLARK:
            yield check_needs, command, [*LIMITS, word], NEEDED, trace
            yield check_takes, command, [*LIMITS, word, "--clark"], trace
        yield check_needs, command, [*LIMITS, *OF_CLARK[:2], *OF_CLARK[3:]], NEEDED, trace
        yield from ((check_needs, command, words, line, trace) for words, line in BEFORE)
    yield from ((check_unknown, command, trace) for command in OF_ROUNDS)
