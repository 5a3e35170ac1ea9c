"""What performs a schedule: lines for QEMU's monitors, and scripts for `sh` with virsh or for `python3` with QMP."""

import json
import math
import os
import shlex
from typing import NamedTuple

from precopy_tools.evacuate import hours
from precopy_tools.evacuate.schedules import Placed
from precopy_tools.evacuate.ways import Way
from precopy_tools.quantities import micros_of, time_text

QMP_SCRIPT = os.path.join(os.path.dirname(os.path.abspath(__file__)), "qmp_script.py")
PLAN = "PLAN: list = []"
VIRSH_SCRIPT = """\
#!/bin/sh
# {title}
# A guest begins when the one before it in its slot has moved. If one fails, or at Ctrl-C, no other one begins.
# The status is 1 then.
state=$(mktemp -d) || exit 1
trap 'rm -r "$state"' EXIT
trap ': > "$state/stop"' INT TERM HUP

# move NUMBER BEFORE DOMAIN DOWNTIME SPEED URI [TIME [END]]: moves a guest as soon as that of number BEFORE has moved,
# not before a time in Unix seconds, and not from another one on.
move() {{
    until [ "$2" = 0 ] || [ -e "$state/$2" ] || [ -e "$state/stop" ]; do sleep 0.1; done
    until [ "$(date +%s)" -ge "${{7:-0}}" ] || [ -e "$state/stop" ]; do sleep 1; done
    [ "$(date +%s)" -lt "${{8:-9999999999}}" ] || {{ echo "$3: the window has ended" >&2; : > "$state/stop"; }}
    [ ! -e "$state/stop" ] || return 1
    echo "$3 begins"
    domain=$3
    case $3 in
    *[!0-9]*) ;;
    # virsh takes this name for the number of a guest; only domid looks for names alone.
    *) domain=$(virsh --quiet domuuid --domain "$(virsh --quiet domid --domain "$3")") ;;
    esac
    if virsh migrate-setmaxdowntime --domain "$domain" --downtime "$4" &&
        [ "$(date +%s)" -lt "${{8:-9999999999}}" ] &&
        virsh migrate --live --bandwidth "$5" --domain "$domain" --desturi "$6"; then
        echo "$3 has moved"
        : > "$state/$1"
    else
        echo "$3 has not moved" >&2
        : > "$state/stop"
    fi
    [ -e "$state/$1" ]
}}

{slots}
until wait; do :; done
[ ! -e "$state/stop" ]
"""


class Step(NamedTuple):
    """The move of a guest, in a script: its number from 1 on; those that have to have moved before, that of its slot
    and that of its group, with 0 for none; and when it begins, which is not before a time in Unix seconds, and before
    another one, with 0 for none."""

    number: int
    move: Placed
    of_slot: int
    of_group: int
    when: str
    not_before: int = 0
    closes: float = 0.0


def milliseconds(limit: float) -> int:
    """A limit of QEMU and of virsh, rounded down."""
    return max(1, micros_of(limit) // 1000)


def mebibytes(rate: float) -> int:
    """A speed of virsh: MiB a second, rounded down."""
    return max(1, int(rate) >> 20)


def steps_of(moves: list[Placed], groups: dict[str, int], opens: float = 0.0, closes: float = 0.0) -> list[Step]:
    """The moves in their order, each with those that it waits for. The schedule opens and closes at times in Unix
    seconds, or opens at any time: then no guest is held back."""
    found: list[Step] = []
    for number, move in enumerate(moves, 1):
        group = groups.get(move.guest.name, 0)
        slot = [step for step in found if step.move.slot == move.slot]
        same = [step for step in found if group and groups.get(step.move.guest.name, 0) == group]
        before = max([*slot[-1:], *same[-1:]], key=lambda step: step.move.end, default=None)
        is_timed = opens and (move.cost.hold or not before)
        not_before = math.ceil(opens + move.start / 1e6) if is_timed else 0
        when = when_text(move, before, not_before)
        of_slot, of_group = (steps[-1].number if steps else 0 for steps in (slot, same))
        found.append(Step(number, move, of_slot, of_group, when, not_before, closes))
    return found


def when_text(move: Placed, before: Step | None, not_before: int) -> str:
    """When a guest begins, in words."""
    hour = f"not before {hours.day_text(not_before)} {hours.clock_text(not_before)} UTC" if not_before else ""
    if before is None:
        return hour or "at once"
    moved = f"when {before.move.guest.name} has moved"
    return f"{moved}, and {hour}" if hour else f"{moved}, after about {time_text(move.start)}"


def slots_of(steps: list[Step]) -> list[list[Step]]:
    """The steps of each slot that has any."""
    slots: dict[int, list[Step]] = {}
    for step in steps:
        slots.setdefault(step.move.slot, []).append(step)
    return [slots[number] for number in sorted(slots)]


def title_of(steps: list[Step]) -> str:
    count, at_once = len(steps), len(slots_of(steps))
    return f"Moves {count} guest{'s' if count > 1 else ''}, {at_once} at once."


def virsh_line(step: Step, to: str) -> str:
    limits, before = step.move.guest.limits, 0 if step.of_group == step.of_slot else step.of_group
    words = [step.number, before, limits.domain or step.move.guest.name]
    words += [milliseconds(limits.downtime), mebibytes(step.move.cost.share), to]
    times = [step.not_before, int(step.closes)] if step.closes else [step.not_before] if step.not_before else []
    return f"move {' '.join(shlex.quote(str(word)) for word in (*words, *times))}"


def virsh_script(steps: list[Step], ways: dict[str, Way]) -> str:
    """The guests of each slot one after the other, and the slots side by side."""
    blocks = []
    for slot in slots_of(steps):
        lines = []
        for step in slot:
            name = step.move.guest.name
            lines += [f"    # {name}: {step.when}", f"    {virsh_line(step, ways[name].to)} &&"]
        lines[-1] = lines[-1].removesuffix(" &&")
        blocks += ["{", *lines, "} &"]
    return VIRSH_SCRIPT.format(title=title_of(steps), slots="\n".join(blocks))


def qmp_commands(move: Placed, to: str) -> list[dict]:
    """What a monitor of QEMU is told, in order."""
    parameters = {"max-bandwidth": int(move.cost.share), "downtime-limit": milliseconds(move.guest.limits.downtime)}
    return [
        {"execute": "qmp_capabilities"},
        {"execute": "migrate-set-parameters", "arguments": parameters},
        {"execute": "migrate", "arguments": {"uri": to}},
    ]


def qmp_blocks(steps: list[Step], ways: dict[str, Way]) -> str:
    """A block of commands for each monitor, each below a line that says when."""
    found = []
    for step in sorted(steps, key=lambda step: step.move.start):
        way = ways[step.move.guest.name]
        found.append(f"{step.move.guest.name}, {step.when}, to {way.monitor or 'its monitor'}:")
        found += [*map(json.dumps, qmp_commands(step.move, way.to)), ""]
    return "\n".join(found).rstrip("\n")


def qmp_script(steps: list[Step], ways: dict[str, Way]) -> str:
    """The script of this folder, with the plan in it."""
    plan = [
        {
            "number": step.number,
            "guest": step.move.guest.name,
            "slot": step.move.slot,
            "before": step.of_group,
            "not_before": step.not_before,
            "closes": step.closes,
            "monitor": ways[step.move.guest.name].monitor,
            "commands": qmp_commands(step.move, ways[step.move.guest.name].to)[1:],
        }
        for step in steps
    ]
    rows = "".join(f"    {row!a},\n" for row in plan)
    with open(QMP_SCRIPT, encoding="utf-8") as file:
        return file.read().replace(PLAN, f"# {title_of(steps)}\nPLAN: list = [\n{rows}]")


def printed(kind: str, steps: list[Step], ways: dict[str, Way]) -> str:
    """What stands below the table."""
    return qmp_blocks(steps, ways) if kind == "qmp" else virsh_script(steps, ways)


def script(kind: str, steps: list[Step], ways: dict[str, Way]) -> str:
    """One executable file."""
    return qmp_script(steps, ways) if kind == "qmp" else virsh_script(steps, ways)
