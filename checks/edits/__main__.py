"""Checks wrong bodies without a proof: each applies to these sources, and what it makes of them compiles.

    checks/run edits [--text] [WORD ...]

A wrong body stands in must-fail/ or in the file wrong-bodies of a crate (CONTRIBUTING.md). It is well formed, its name
is the only one of its crate, each text that it replaces stands once in its file, and the file changes. must-fail/ has
the bodies that are listed here, and no others. WORD picks the bodies whose names, as collector/last_frame_wins, contain
it. Edits of different lines are compiled together, and those near a refusal then one by one.
Compiling is the toolchain's pass over types and borrows, with no proof; an edited definition is parsed.
With --text nothing is compiled. It works in a copy elsewhere, and needs nothing that an earlier run built.
It says how many bodies the prover refused as they stand, by the record that `dev/edits --record` keeps. A body that
compiles is a case, and so are the record, the list and the twins.
"""

import os
import re
import shutil
import subprocess
import tempfile

from checks.lib.harness import expect, run_main
from precopy_dev import tree
from precopy_dev.edits.files import GATE, PROVER, TESTS, TOP, TWIN, BadEdit, crates, read_edits, text_of
from precopy_dev.files import read_text, write_file

# The bodies that the gate tries.
NAMED = {
    "collector": "accept_bytes_accepts_nothing last_frame_wins",
    "dirty_core": "core_run_always_refuses step_changes_nothing",
    "dirty_words": "close_drops_one_store close_gives_opening_back harvest_clears_and_answers_nothing "
    "harvest_without_clearing invented_page invented_place mark_before_store one_lock_round_the_table "
    "seats_answer_from_views",
    "live_tasks": "latest_bytes_under_old_place nothing_sent_live skipped_page_dropped",
    "migration_jobs": "always_write_error image_writes_its_input report_in_part_then_memory",
    "page_message": "zero_data_frame_accepted",
    "round_planner": "end_tick_in_both_rounds skip_by_whole_round",
    "stop_copy": "end_image_given_as_stop_image last_partial_word_left_out",
    "trace_codec": "reader_decodes_what_came reader_ignored trailing_bytes_accepted",
    "working_sets": "window_cut_counts_twice",
}
# What dev/edits noted of its tries.
RECORD = "docs/edits-tried.tsv"
KINDS = {"answer": "its answer", "limit": "a limit of its own", "names": "a name that went"}
SECONDS = 600
# The crate over all others that is compiled. The toolchain tells its use of a moved value last, after all that it finds
# in the crates below. So nothing is proved, and a pass that tells this alone has accepted them.
OVER = "over_all"
LAST = "#![tactic(auto)]\n\npub struct Once;\n\npub fn twice(once: Once) -> (Once, Once) {\n    (once, once)\n}\n"
TOLD = re.compile(r"^(\S+?):(\d+):\d+: error\[([\w-]+)\]: (.*)")


def applied_edits(tally):
    """Returns the well formed edits that apply, and counts those that are not, or do not."""

    def bad(name, why):
        tally.add(False, f"{name}: {why}")

    edits = []
    for edit in [edit for crate in crates() for edit in read_edits(crate, bad)]:
        try:
            edit.put_in(TOP)
            edits.append(edit)
        except BadEdit as why:
            bad(str(edit), why)
    names = {str(edit) for edit in edits}
    twins = {f"{edit.crate}/{edit.twin_of()}" for edit in edits if edit.kind == TWIN}
    with tally.case("twins") as case:
        for name in sorted(twins):
            case.add(name in names, f"{name} has a twin, and is no wrong body")
    there = {str(edit) for edit in edits if edit.kind == GATE}
    print(f"of {len(there)} bodies of the gate these have no twin: {' '.join(sorted(there - twins)) or 'none'}")
    listed = {f"{crate}/{name}" for crate, names in NAMED.items() for name in names.split()}
    differ = sorted(listed ^ there)
    tally.add(not differ, f"{differ}: must-fail/ and the list in checks/edits differ, or they do not apply")
    return edits


def make_room(room):
    """Copies the sources. Programs and libraries for C become libraries, so that one crate can stand on all."""
    skip = shutil.ignore_patterns("out", "must-fail", "data")
    shutil.copytree(f"{TOP}/crates", f"{room}/crates", ignore=skip)
    shutil.copy2(f"{TOP}/HANDLES", room)
    for name in os.listdir(f"{room}/crates"):
        root = f"{room}/crates/{name}/src/main.rt"
        if os.path.isfile(root):
            text = re.sub(r"^fn main\(.*?^\}\n", "", read_text(root), flags=re.M | re.S)
            os.remove(root)
            write_file(text, f"{room}/crates/{name}/src/lib.rt")
    os.makedirs(f"{room}/crates/{OVER}/src")
    write_file(LAST, f"{room}/crates/{OVER}/src/lib.rt")


class Compiler:
    """A copy of the sources in which edits are compiled."""

    def __init__(self, room):
        self.room, self.below = room, {name: crate.uses for name, crate in tree.crates().items()}
        make_room(room)

    def told(self, words, crate):
        ran = subprocess.run(
            words,
            cwd=f"{self.room}/crates/{crate}",
            stdout=subprocess.PIPE,
            stderr=subprocess.STDOUT,
            text=True,
            errors="replace",
            timeout=SECONDS,
        )
        return ran.stdout

    def errors(self, changes, edits):
        """Returns what the toolchain tells of the edits' crates with changed lines in place: where it is, and words."""
        crates = {edit.crate for edit in edits}
        changed = {path for path, _ in changes}
        was = {path: text_of(self.room, path) for path in changed}
        names = [f"{name}: {' '.join(below)}" for name, below in self.below.items()]
        write_file("\n".join([*names, f"{OVER}: {' '.join(sorted(crates))}", ""]), f"{self.room}/crates.txt")
        try:
            for path, text in was.items():
                lines = text.split("\n")
                for (changes_in, number), line in changes.items():
                    if changes_in == path:
                        lines[number] = line
                write_file("\n".join(lines), f"{self.room}/{path}")
            told = self.told(["rt", "check", "--only", ""], OVER)
        finally:
            for path, text in was.items():
                write_file(text, f"{self.room}/{path}")
        found = [it for it in map(TOLD.match, told.splitlines()) if it]
        # Of the crate over all the toolchain gives paths in its folder, of others whole ones.
        below = [(os.path.relpath(it[1], f"{self.room}/crates"), it) for it in found if os.path.isabs(it[1])]
        if not found:
            raise ValueError(f"the toolchain compiled nothing, and said:\n{told}")
        return [((f"crates/{path}", int(it[2]) - 1), f"{path}:{it[2]}: {it[4]}") for path, it in below]

    def refused(self, edits):
        """Returns the edits with which the toolchain refuses the sources, each with the first thing that it tells."""
        changes = {place: line for edit in edits for place, line in edit.changed_lines(TOP).items()}
        told = self.errors(changes, edits)
        if not told or len(edits) == 1:
            return {str(edit): told[0][1] for edit in edits if told}
        # Most errors are told of the very line that an edit wrote.
        places = {place for place, _ in told}
        near = [edit for edit in edits if places & {*edit.changed_lines(TOP)}]
        seen = " ".join(path for path, _ in places)
        near = near or [edit for edit in edits if f"crates/{edit.crate}/" in seen] or edits
        found = {}
        for edit in near:
            found.update(self.refused([edit]))
        rest = [edit for edit in edits if edit not in near]
        return {**found, **(self.refused(rest) if rest else {})}

    def unparsed(self, edits):
        """Returns those of these edits of definitions that do not parse, each with what the toolchain tells."""
        found = {}
        for edit in edits:
            changes = edit.put_in(TOP)
            for path, text in changes.items():
                write_file(text, f"{self.room}/crates/{OVER}/src/{os.path.basename(path)}")
            told = self.told(["rt", "fmt"], OVER)
            if told.strip():
                found[str(edit)] = told.strip().splitlines()[0]
            for path in changes:
                os.remove(f"{self.room}/crates/{OVER}/src/{os.path.basename(path)}")
        return found


def groups_of(edits):
    """Returns the edits in few groups. Those of a group change different lines."""
    groups = []
    for edit in edits:
        places = {*edit.changed_lines(TOP)}
        group = next((it for it in groups if not places & it[0]), None)
        if group is None:
            group = (set(), [])
            groups.append(group)
        group[0].update(places)
        group[1].append(edit)
    return [group for _, group in groups]


def compile_all(edits, tally):
    """Compiles the edits group by group, and counts them."""
    definitions = [edit for edit in edits if any(file.startswith("specs/") for file, *_ in edit.pairs)]
    bodies = [edit for edit in edits if edit not in definitions]
    with tempfile.TemporaryDirectory(prefix="edits-") as room:
        compiler = Compiler(os.path.realpath(room))
        tested = [edit for edit in bodies if edit.kind == TESTS]
        groups = groups_of(tested) + groups_of([edit for edit in bodies if edit.kind != TESTS])
        for number, group in enumerate(groups, 1):
            refused = compiler.refused(group)
            for edit in group:
                tally.add(str(edit) not in refused, f"{edit} does not compile: {refused.get(str(edit))}")
            print(f"group {number} of {len(groups)}: {len(group) - len(refused)} of {len(group)} compile", flush=True)
        unparsed = compiler.unparsed(definitions)
        for edit in definitions:
            tally.add(str(edit) not in unparsed, f"{edit} does not parse: {unparsed.get(str(edit))}")


def compare_record(edits, tally):
    """Compares the record of tries, of which each line has to be of an edit that was refused."""
    names, current = {str(edit): edit for edit in edits if edit.kind in (GATE, PROVER)}, {}
    with tally.case(RECORD) as case:
        for line in text_of(TOP, RECORD).splitlines():
            name, digest, _, how, _ = line.split("\t")
            case.add(name in names and how in KINDS, f"{name} is no edit here, or was not refused")
            if name in names and names[name].digest() == digest:
                current[how] = current.get(how, 0) + 1
    shown = ", ".join(f"{count} by {KINDS[how]}" for how, count in sorted(current.items()) if how in KINDS)
    print(f"of {len(names)} bodies the prover refused as they stand: {shown or 'none'}")


def more(parser):
    parser.add_argument("--text", action="store_true", help="compile nothing")
    parser.add_argument("word", nargs="*", help="a part of the name of a body, as collector/last_frame_wins")


def check(tally, given):
    edits = applied_edits(tally)
    compare_record(edits, tally)
    edits = [it for it in edits if not given.word or any(word in str(it) for word in given.word)]
    if given.text:
        tally.add(edits, f"no body has {given.word} in its name")
        return
    expect(shutil.which("rt"), "the toolchain's command rt is not on the path")
    compile_all(edits, tally)


if __name__ == "__main__":
    run_main(check, __doc__, more=more)
