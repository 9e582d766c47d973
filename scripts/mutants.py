#!/usr/bin/env python3
"""Changes the code that explains and draws in small ways, and asks that a row sees each change: no contract covers most
of it. A condition is negated, a statement is left out, an integer has another last bit, or a text is another one. The
last line is `N passed, N failed`.

    scripts/mutants.py [WORD..]         in all of that code, or in files with one of these words; many minutes
    scripts/mutants.py --check          asks only whether each line of tests/unseen.txt has its change

One program without proof has all the changes, each with a switch, as the planted bugs of the gate. A change is passed
over if tests/unseen.txt has its place, with the reason why no row is expected to see it.
"""
import argparse
import collections
import concurrent.futures
import glob
import os
import re
import tempfile
import threading

import rows
from collections.abc import Collection, Iterator, Mapping, Sequence
from typing import NamedTuple
from wmlabtools import TOP, harness, planted

CODE = ("wm_refusal/src/", "wm_explain/src/", "wm_phrase/src/", "wm_graph/src/", "wm_ast/src/instr_text.rt")
# The commands whose rows can see a change.
COMMANDS = ("explain", "graph")
UNSEEN = "tests/unseen.txt"
SECONDS = 15
# What is no code: comments, strings, characters; and what the prover reads, up to the end of its braces or its line.
NO_CODE = re.compile(r"""//[^\n]*|"(?:[^"\\]|\\.)*"|b?'(?:[^'\\]|\\[^u]|\\u\{\w+\})'""")
CLAUSE = re.compile(
    r"(?m)^\s*(?:(?:pub )?ghost|ensures\*?|requires\*?|#\[|(?:pub )?use |(?:pub(?:\(\w+\))? )?const )[^\n]*"
)
CONDITION = re.compile(r"\bif (?!let\b)")
STATEMENT = re.compile(r"(?<=[{};])\s*\n\s*(?P<begin>[a-z_][\w:]*)[.(!]")
INTEGER = re.compile(r"(?<![\w.\]])(?:\d+|0x[0-9A-Fa-f]+)(?:u8|u16|u32|u64|usize)?(?![\w.])")
KEYWORDS = "let return if for match while break continue else pub struct impl fn".split()
# A line with these has integers in patterns or types.
NO_EXPRESSION = re.compile(r"^\s*\||\.\.=|matches!|; \d+\]|\blet \[|^\s*[\w:]+\(\d+\)\s*$")

class Change(NamedTuple):
    """A change: its file and line, the line's code, what is changed and where, and how it is written with a switch."""

    path: str
    line: int
    code: str
    old: str
    start: int
    end: int
    wrap: str



def blanked(source: str) -> str:
    """The source with white space in place of what is no code, of the same length; of a text the quotes are left."""

    def blank(text: str) -> str:
        return re.sub(r"[^\n]", " ", text)

    text = NO_CODE.sub(lambda found: f'"{blank(found[0][1:-1])}"' if found[0][0] == '"' else blank(found[0]), source)
    for clause in reversed(list(CLAUSE.finditer(text))):
        end = clause.end()
        brace = text.find("{", clause.start(), end)
        if "const " in clause[0]:
            end = end_before(text, clause.start(), (";",)) or end
        elif brace >= 0 and "fn " not in clause[0]:
            end = max(end, closing(text, brace) + 1)
        text = text[: clause.start()] + blank(text[clause.start() : end]) + text[end:]
    return text


def closing(text: str, opening: int) -> int:
    """Where the bracket that opens here is closed."""
    depth = 0
    for at in range(opening, len(text)):
        depth += (text[at] in "([{") - (text[at] in ")]}")
        if depth == 0:
            return at
    return len(text)


def end_before(text: str, start: int, ends: tuple[str, ...]) -> int | None:
    """Where one of these texts first comes outside of brackets, or nothing."""
    depth = 0
    for at in range(start, len(text)):
        if depth == 0 and text.startswith(ends, at):
            return at
        depth += (text[at] in "([{") - (text[at] in ")]}")
        if depth < 0:
            return None
    return None


def is_in_macro(text: str, at: int) -> bool:
    """Whether a place is an argument of a macro."""
    depth = 0
    for before in range(at - 1, 0, -1):
        depth += (text[before] in ")]}") - (text[before] in "([{")
        if depth < 0:
            return text[before - 1] == "!"
    return False


def texts(source: str, text: str) -> Iterator[tuple[int, int, str]]:
    """The texts of the code, of which `text` is blanked, each with how it is written with a switch. Patterns are left
    out, and formats, which a macro needs as they are."""
    for found in NO_CODE.finditer(source):
        is_pattern = re.match(r"\s*(?:=>|\|)", source[found.end() :])
        if text[found.start()] == '"' and source[found.start() - 1] != "b" and not is_pattern:
            if not is_in_macro(text, found.start()):
                yield found.start(), found.end(), '(if {switch} {{ "?" }} else {{ {old} }})'


def spans(text: str) -> Iterator[tuple[int, int, str]]:
    """The places to change, each with how the code there is written with a switch."""
    for found in CONDITION.finditer(text):
        end = end_before(text, found.end(), (" {", " =>"))
        if end and " let " not in text[found.end() : end]:
            yield found.end(), end, "({old}) != {switch}"
    for found in STATEMENT.finditer(text):
        end = end_before(text, found.start("begin"), (";",))
        if end and found["begin"].split(":")[0] not in KEYWORDS:
            yield found.start("begin"), end + 1, "if !{switch} {{ {old} }}"
    for found in INTEGER.finditer(text):
        line = text[text.rfind("\n", 0, found.start()) + 1 : text.find("\n", found.end())]
        if "=>" not in text[found.end() : text.find("\n", found.end())] and not NO_EXPRESSION.search(line):
            yield found.start(), found.end(), "(if {switch} {{ {old} ^ 1 }} else {{ {old} }})"


def changes_of(path: str) -> tuple[str, list[Change]]:
    """The changes of a file, those around others first."""
    with open(f"{TOP}/{path}", encoding="utf-8") as file:
        source = file.read()
    found = [
        Change(path, line, source.split("\n")[line - 1].strip(), " ".join(source[start:end].split()), start, end, wrap)
        for start, end, wrap in (*spans(blanked(source)), *texts(source, blanked(source)))
        for line in [source.count("\n", 0, start) + 1]
    ]
    return source, sorted(found, key=lambda change: (change.start, -change.end))


def with_switches(source: str, changes: Sequence[Change], numbers: Mapping[Change, int], start: int, end: int) -> str:
    """The source from start to end with a switch for each change."""
    text, at = "", start
    for change in changes:
        if at <= change.start and change.end <= end and (change.start, change.end) != (start, end):
            inner = [each for each in changes if change.start <= each.start and each.end <= change.end]
            inner.remove(change)
            old = with_switches(source, inner, numbers, change.start, change.end)
            switch = f"({planted.SWITCHES}::planted_bug() == {numbers[change]})"
            text += source[at : change.start] + change.wrap.format(old=old, switch=switch)
            at = change.end
    return text + source[at:end]


def files_of(words: Collection[str] = ()) -> list[str]:
    """The files of that code, or those with one of these words."""
    paths = sorted(glob.glob("crates/*/src/**/*.rt", root_dir=TOP, recursive=True))
    paths = [path for path in paths if path.startswith(tuple(f"crates/{part}" for part in CODE))]
    return [path for path in paths if not words or any(word in path for word in words)]


def built(paths: Sequence[str], folder: str) -> tuple[bytes | None, dict[Change, int]]:
    """The bytes of a program with all changes of these files, and the changes by their numbers."""
    planted.copy_sources(folder)
    numbers: dict[Change, int] = {}
    for path in paths:
        source, changes = changes_of(path)
        numbers.update({change: len(numbers) + place for place, change in enumerate(changes, 1)})
        with open(f"{folder}/{path}", "w", encoding="utf-8") as file:
            file.write(with_switches(source, changes, numbers, 0, len(source)))
    planted.let_use_switches(folder, {path.split("/")[1] for path in paths})
    planted.add_switch(folder)
    program = planted.quick_program(folder, 0)
    if not program:
        return None, numbers
    with open(program, "rb") as file:
        return file.read(), numbers


def unseen_places() -> set[tuple[str, str, str]]:
    """The changes that no row sees: the file, what is changed, and the line that it is in."""
    with open(f"{TOP}/{UNSEEN}", encoding="utf-8") as file:
        lines = [line.rstrip("\n").split(" ## ") for line in file if line.strip() and not line.startswith("# ")]
    return {(path, old, code) for path, old, code, _ in lines}


def check_unseen(tally: harness.Tally) -> None:
    """Whether each change that no row sees is still one."""
    changes = {(change.path, change.old, change.code) for path in files_of() for change in changes_of(path)[1]}
    for path, old, code in sorted(unseen_places()):
        tally.check((path, old, code) in changes, f"{UNSEEN}: {path} has no `{old}` in a line `{code}`")


def row_that_sees(
    program: str, shown: Sequence[rows.Row], seen_before: collections.Counter[rows.Row], lock: threading.Lock
) -> rows.Row | None:
    """The first row that differs on a program, or nothing. Rows that saw changes of the same file come first."""
    with lock:
        order = sorted(shown, key=lambda row: -seen_before[row])
    for row in order:
        got, _ = rows.run(row, program, SECONDS)
        if not rows.fits(row.wanted(), got):
            with lock:
                seen_before[row] += 1
            return row
    return None


def try_all(tally: harness.Tally, program: bytes, numbers: Mapping[Change, int], jobs: int) -> None:
    shown = [row for row in rows.all_rows() if any(f"wmlab {word}" in row.command for word in COMMANDS)]
    shown = [row for row in shown if "long.rows" not in row.source]
    seen_before: dict[str, collections.Counter[rows.Row]] = collections.defaultdict(collections.Counter)
    lock, passed_over = threading.Lock(), unseen_places()
    with tempfile.TemporaryDirectory() as folder:

        def seen(change: Change) -> rows.Row | None:
            copy = planted.copy_with(program, numbers[change], folder)
            found = row_that_sees(copy, shown, seen_before[change.path], lock)
            os.remove(copy)
            return found

        without = planted.copy_with(program, planted.NONE_IS_ON, folder)
        for row in list(shown):
            right = rows.fits(row.wanted(), rows.run(row, without, SECONDS)[0])
            tally.check(right, f"{row.name()}: it fails without a change")
        to_try = [change for change in numbers if (change.path, change.old, change.code) not in passed_over]
        with concurrent.futures.ThreadPoolExecutor(jobs) as pool:
            for change, seen_by in zip(to_try, pool.map(seen, to_try)):
                tally.check(seen_by, f"{change.path}:{change.line}: no row sees a change of `{change.old}`")
    print(f"{len(to_try)} changes tried, {len(numbers) - len(to_try)} passed over ({UNSEEN})")


def main() -> None:
    parser = argparse.ArgumentParser(description=__doc__, formatter_class=argparse.RawDescriptionHelpFormatter)
    parser.add_argument("--jobs", type=int, default=harness.processors(), help="changes that are tried side by side")
    parser.add_argument("--check", action="store_true", help=f"ask only whether each line of {UNSEEN} has its change")
    parser.add_argument("words", nargs="*", metavar="WORD")
    options = parser.parse_args()
    tally = harness.Tally()
    if options.check:
        check_unseen(tally)
        tally.end()
    paths = files_of(options.words)
    if not any(changes_of(path)[1] for path in paths):
        parser.error(f"there is nothing to change in files with {' '.join(options.words)}")
    with tempfile.TemporaryDirectory() as folder:
        program, numbers = built(paths, folder)
    tally.check(program, "the program with the changes is not built")
    if program:
        try_all(tally, program, numbers, options.jobs)
    tally.end()


if __name__ == "__main__":
    harness.run_script(main)
