"""Cases of checks/harness about what is drawn: by a seed, which is told, and those draws that failed once."""

import re

from checks.harness.small import keep, small_check
from checks.harness.tally_cases import expect_told
from checks.lib.harness import Run, cases_of, expect

# Draws three numbers, and does not like one of them.
NUMBERS = """\
def check(tally, given):
    for draw in drawn("numbers", range(3)):
        number = draw.getrandbits(32)
        print("drew", number, "by", draw)
        tally.add(number != {}, "a number")
"""
SEED, OTHER = 7, 8


def numbers_of(done: Run) -> list[int]:
    return [int(number) for number in re.findall(rb"^drew (\d+) by ", done.output, re.M)]


def same_by_seed(_, folder):
    """A seed draws the same again, and another seed something else; without one it is drawn and told."""
    one, again, other = (numbers_of(small_check(folder, NUMBERS.format(0), seed=seed)) for seed in (SEED, SEED, OTHER))
    expect(len(one) == 3 and one == again and not set(one) & set(other), f"{one}, {again}, {other}")
    given = numbers_of(small_check(folder, NUMBERS.format(0), "--seed", str(OTHER)))
    expect(given == other, f"{given} by --seed, and {other} by the environment")
    done = small_check(folder, NUMBERS.format(0), seed=None)
    told = re.match(rb"seed (\d+)\n", done.output)
    expect(
        told and numbers_of(small_check(folder, NUMBERS.format(0), seed=int(told[1]))) == numbers_of(done), f"{done}"
    )


def same_whatever_else_is_drawn(_, folder):
    """A draw does not hang on those before it."""
    whole = numbers_of(small_check(folder, NUMBERS.format(0)))
    found = numbers_of(small_check(folder, NUMBERS.format(0).replace("range(3)", "[2, 0]")))
    expect(found == [whole[2], whole[0]], f"{found}, of {whole}")


def failed_draws(_, folder):
    """A failure tells its draw, and the line that keeps it. Once it is kept, it is tried with other seeds too."""
    wrong = numbers_of(small_check(folder, NUMBERS.format(0)))[1]
    line, told = f"numbers\t1\t{SEED}", f"  FAILED a number\n    drawn: numbers 1 of seed {SEED}\n"
    keeps = f"  KEEP it as a case by a line of checks/small/failed_seeds.tsv: {line}\tWHY\n"
    expect_told(small_check(folder, NUMBERS.format(wrong)), 1, "2 passed, 1 failed", told, keeps)
    expect_told(small_check(folder, NUMBERS.format(wrong), seed=OTHER), 0, "3 passed, 0 failed")
    keep(folder, f"# a comment\n{line}\tit was wrong\n")
    done = small_check(folder, NUMBERS.format(wrong), seed=OTHER)
    expect_told(done, 1, "4 passed, 1 failed", told)
    expect(b"KEEP" not in done.output, f"what is kept is to be kept: {done}")
    done = small_check(folder, NUMBERS.format(0), seed=OTHER)
    expect_told(done, 0, "5 passed, 0 failed", f"drew {wrong} by numbers 1 of seed {SEED}\n")


IN_CASES = """\
from checks.lib.tally import drawn_from


def a_case(_, folder):
    for draw in drawn("in a case", range(2)):
        expect(draw.number == 0, "wrong")


def another(_, folder):
    expect(False, "drawn from nothing")


def check(tally, given):
    run_cases(tally, [a_case, another], None)
    for draw in drawn("in a try", range(2)):
        tally.tries("a try", lambda: expect(draw.number == 0, "wrong"))
    with tally.case("several") as case:
        for draw in drawn("in several", range(2)):
            case.add(draw.number == 0, "wrong")
    tally.add(False, "drawn from nothing")
"""


def told_of_each_kind(_, folder):
    """The draw is told however a case is written, and none where nothing was drawn."""
    done = small_check(folder, IN_CASES)
    told = [
        f"a_case: wrong\n    drawn: in a case 1 of seed {SEED}\n",
        f"a try: wrong\n    drawn: in a try 1 of seed {SEED}\n",
        f"several: wrong\n    drawn: in several 1 of seed {SEED}\n",
    ]
    expect_told(done, 1, "1 passed, 5 failed", *(f"  FAILED {each}" for each in told))
    found = re.findall(rb"FAILED (?:another: )?drawn from nothing\n    drawn", done.output)
    expect(not found and done.output.count(b"  KEEP ") == 3, done.output.decode())


# A case that draws once.
OF_A_CASE = """\
def a_case(_, folder):
    draw = draws("of a case")
    number = draw.getrandbits(32)
    print("drew", number, "by", draw)
    expect(number != {}, "wrong")


def check(tally, given):
    run_cases(tally, [a_case], None)
"""


def kept_of_a_case(_, folder):
    """A case that draws is tried with each draw with which it failed once, too, and fails if one of them fails."""
    (wrong,), (other,) = (numbers_of(small_check(folder, OF_A_CASE.format(0), seed=seed)) for seed in (SEED, OTHER))
    told = f"  FAILED a_case: wrong\n    drawn: of a case 0 of seed {SEED}\n"
    keeps = f"  KEEP it as a case by a line of checks/small/failed_seeds.tsv: of a case\t0\t{SEED}\tWHY\n"
    expect_told(small_check(folder, OF_A_CASE.format(wrong)), 1, "0 passed, 1 failed", told, keeps)
    keep(folder, f"of a case\t0\t{SEED}\tit was wrong\n")
    expect_told(small_check(folder, OF_A_CASE.format(wrong), seed=OTHER), 1, "1 passed, 1 failed", told)
    done = small_check(folder, OF_A_CASE.format(0), seed=OTHER)
    expect_told(done, 0, "2 passed, 0 failed")
    expect(numbers_of(done) == [other, wrong], f"{done}")


def lines_that_keep_nothing(_, folder):
    """A line of which nothing is drawn fails, unless something is left out; and one that is none fails."""
    keep(folder, f"others\t1\t{SEED}\tit was wrong\n")
    told = f"draws that failed once: failed_seeds.tsv: nothing is drawn by ['others\\t1\\t{SEED}']\n"
    expect_told(small_check(folder, NUMBERS.format(0)), 1, "3 passed, 1 failed", f"  FAILED {told}")
    leaves_out = NUMBERS.format(0) + '    left_out("others", "no tool")\n'
    expect_told(small_check(folder, leaves_out), 0, "3 passed, 0 failed, 1 skipped")
    for line in (
        "numbers\t1\n",
        f"numbers\t1\t{SEED}\n",
        f"numbers\t1\t{SEED}\t\n",
        f"numbers 1 {SEED} it was wrong\n",
    ):
        keep(folder, line)
        done = small_check(folder, NUMBERS.format(0))
        expect(done.status == 1 and b"a kind, a number, a seed and a reason" in done.output, f"{line!r}: {done}")


CASES = cases_of(__name__)
