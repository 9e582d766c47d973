#!/usr/bin/env python3
"""Plants bugs that no contract sees and asks that rows see them: each edit of tests/planted/CRATE/ is applied to a
copy, which is built without proof, and at least one row has to fail on it. The last line is `N passed, N failed`.

    scripts/planted_rows.py [NAME..]        those whose name has one of these words in it, or all; minutes for each
    scripts/planted_rows.py --gate          those of tests/planted/gate.txt, each on the row that it names there
    scripts/planted_rows.py --check         asks only whether each can still be applied

--gate builds one program with all its bugs, each of which has a switch. A row is run on a copy of that program in
which the switch of its bug alone is on, and has to fail; and on one in which none is on, and has to pass.

With --nice N the programs are built at that niceness, for a gate that proves at the same time. Rows run as always,
since they have a time limit.
"""
import argparse
import concurrent.futures
import glob
import os
import re
import subprocess
import tempfile
from collections.abc import Collection, Mapping, Sequence

from wmlabtools import TOP, edits, harness
from wmlabtools.planted import (
    NONE_IS_ON,
    SWITCH,
    SWITCHES,
    add_switch,
    built,
    copy_sources,
    copy_with,
    let_use_switches,
    plant,
    quick_program,
)

LIST = "tests/planted/gate.txt"
# The rows that are tried on a planted bug, but for those of long.rows, which only these bugs need.
NEEDS_LONG = "full_log"
# How long a row of the gate may take with and without its bug. Without it each takes a second; with threads one after
# the other it would take minutes, since each waits for the other as long as its steps last.
SECONDS = "15"


def planted(words: Collection[str]) -> list[str]:
    paths = sorted(os.path.relpath(path, TOP) for path in glob.glob(f"{TOP}/tests/planted/*/*.edit"))
    return [path for path in paths if not words or any(word in path for word in words)]


def rows_of_gate() -> dict[str, str]:
    """The planted bugs of the gate, each with the words of its row."""
    with open(f"{TOP}/{LIST}", encoding="utf-8") as file:
        lines = [line.strip().split(": ", 1) for line in file if line.strip() and not line.startswith("#")]
    return {f"tests/planted/{edit}": row for edit, row in lines}


def check_together(tally: harness.Tally, rows: Mapping[str, str]) -> None:
    """Whether the bugs of the gate can be applied to one copy, and each has a switch."""
    changed: dict[str, str] = {}
    for edit in rows:
        tally.check(SWITCH in edits.text_of(f"{TOP}/{edit}"), f"{edit} has no switch {SWITCH}")
        together = edits.changed_files(edit, changed_before=changed)
        tally.check(not isinstance(together, str), f"{edit}, after those before it in {LIST}", together)
        changed = changed if isinstance(together, str) else together


def red_rows(program: str, words: Sequence[str]) -> tuple[list[str], bool]:
    """The titles of the rows that fail on the program, and whether any was run."""
    ran = subprocess.run(
        [f"{TOP}/scripts/rows.py", "--wmlab", program, *words], stdout=subprocess.PIPE, text=True, check=False
    )
    return re.findall(r"(?m)^FAILED (.*)$", ran.stdout), not ran.stdout.endswith("0 passed, 0 failed\n")


def seen(program: str, words: Sequence[str]) -> tuple[bool, str]:
    """Whether rows fail on a program with a planted bug, and what to say of it."""
    red, is_run = red_rows(program, words)
    if not is_run:
        return False, f"no row has the words {words[0]}"
    return bool(red), f"{len(red)} rows see it, {red[0]}" if red else "no row sees it"


def tried(edit: str, niceness: int) -> tuple[bool, str]:
    """Whether rows fail on a program with this planted bug, and what to say of it."""
    with tempfile.TemporaryDirectory() as folder:
        program = built(edit, folder, niceness)
        if not program:
            return False, "it is not built"
        return seen(program, ["long.rows"] if NEEDS_LONG in edit else ["--without", "long.rows"])


def built_together(listed: Collection[str], folder: str, niceness: int) -> bytes | None:
    """The bytes of a program with all of these bugs, of which none is on, or nothing if it is not built."""
    copy_sources(folder)
    let_use_switches(folder, {edit.split("/")[-2] for edit in listed})
    for number, edit in enumerate(listed, 1):
        plant(edit, folder, f"({SWITCHES}::planted_bug() == {number})")
    add_switch(folder)
    program = quick_program(folder, niceness)
    if not program:
        return None
    with open(program, "rb") as file:
        return file.read()


def try_together(tally: harness.Tally, rows: Mapping[str, str], niceness: int) -> None:
    """Tries each bug of the gate on its row, and each row without a bug."""
    with tempfile.TemporaryDirectory() as folder:
        program = built_together(rows, folder, niceness)
        tally.check(program, "the program with the planted bugs is not built")
        if not program:
            return
        count = program.count(NONE_IS_ON.to_bytes(8, "little"))
        tally.check(count == 1, f"the program has {count} switches, not one")
        for number, (edit, row) in enumerate(rows.items(), 1):
            is_seen, said = seen(copy_with(program, number, folder), [row, "--seconds", SECONDS])
            tally.check(is_seen, edit, said)
            print(f"{edit}: {said}", flush=True)
        without = copy_with(program, NONE_IS_ON, folder)
        for row in sorted(set(rows.values())):
            red, is_run = red_rows(without, [row, "--seconds", SECONDS])
            tally.check(is_run and not red, f"{row}: it fails without a planted bug")


def main() -> None:
    parser = argparse.ArgumentParser(description=__doc__, formatter_class=argparse.RawDescriptionHelpFormatter)
    parser.add_argument("--check", action="store_true", help="ask only whether each can still be applied")
    parser.add_argument("--gate", action="store_true", help=f"only those of {LIST}, each on its row")
    parser.add_argument("--jobs", type=int, default=harness.processors(), help="bugs that are tried side by side")
    parser.add_argument("--nice", type=int, default=0, metavar="N", help="the niceness of the builds")
    parser.add_argument("names", nargs="*", metavar="NAME")
    options = parser.parse_args()
    if options.gate and options.names:
        parser.error("--gate tries all of its bugs, and takes no names")
    tally = harness.Tally()
    rows = rows_of_gate()
    for edit in rows:
        tally.check(os.path.isfile(f"{TOP}/{edit}"), f"{LIST} names {edit}, which is not there")
    listed = [edit for edit in planted(options.names) if edit in rows or not options.gate]
    if not listed:
        parser.error(f"there is no planted bug to try {' '.join(options.names)}".rstrip())
    to_try = []
    for edit in listed:
        changed = edits.changed_files(edit)
        tally.check(not isinstance(changed, str), edit, changed)
        if not options.check and not isinstance(changed, str):
            to_try.append(edit)
    if options.check or options.gate:
        check_together(tally, rows)
    if options.gate:
        try_together(tally, rows, options.nice)
        tally.end()
    with concurrent.futures.ThreadPoolExecutor(options.jobs) as pool:
        answers = pool.map(lambda edit: tried(edit, options.nice), to_try)
        for edit, (is_seen, said) in zip(to_try, answers):
            tally.check(is_seen, edit, said)
            print(f"{edit}: {said}", flush=True)
    tally.end()


if __name__ == "__main__":
    harness.run_script(main)
