#!/usr/bin/env python3
"""Runs each row: a command line with its files, and what it prints, writes to standard error and ends with.

Rows are in tests/rows/*.rows (tests/README.md has their format), in the blocks `$ ./wmlab ..` of the pages, and in
the tables of examples/README.md. A log of a row with a verdict is also migrated, and completed if it is allowed. A row
that differs is shown as a diff. The last line is `N passed, N failed`.

    scripts/rows.py                      all rows
    scripts/rows.py check "two writers"  the rows with one of these words in file or title
    scripts/rows.py --update             writes what the program printed into the .rows files
    scripts/rows.py --files FOLDER TITLE writes the files of a row, and prints its command
"""
import concurrent.futures
import difflib
import glob
import itertools
import os
import re
import shlex
import signal
import subprocess
import tempfile
import time
from collections.abc import Iterator, Sequence
from typing import NamedTuple

from wmlabtools import TOP, harness

PAGES = ("README.md", "examples/README.md", "docs/*.md", "docs/dev/*.md")
# `«TEXT»*N` is TEXT N times, joined by commas, with the number of the copy, from 0, for each `%`, and more for
# `%+MORE`.
REPEATED = re.compile(r"«([^«»]*)»\*(\d+)")
NUMBER = re.compile(r"%(?:\+(\d+))?")
COUNTS = re.compile(r"counts of (\d+): (.*)")
MORE = "..."


class Row:
    """A command line and what is wanted of it."""

    def __init__(self, source: str, line: int, title: str) -> None:
        self.source, self.line, self.title = source, line, title
        self.files: dict[str, str] = {}
        # A row that was read has a command.
        self.command, self.last_line = "", line
        self.out: list[str] = []
        self.err: list[str] = []
        self.status = 0
        self.has_status, self.is_written = False, True

    def name(self) -> str:
        return f"{self.source}:{self.line}: {self.title}"

    def wanted(self) -> list[str]:
        """The wanted lines, in the form in which they are compared and shown."""
        return (
            [expanded(line) for line in self.out]
            + [f"! {line}" for line in self.err]
            + ([f"[{self.status}]"] if self.status else [])
        )


def expanded(text: str) -> str:
    """The text with its repetitions written out."""

    def copies(found: re.Match[str]) -> str:
        return ",".join(numbered(found[1], number) for number in range(int(found[2])))

    def numbered(text: str, number: int) -> str:
        return NUMBER.sub(lambda plus: str(number + int(plus[1] or 0)), text)

    return REPEATED.sub(copies, text)


# ---- reading


def rows_of_file(path: str) -> list[Row]:
    """The rows of a .rows file. Files that are given before the first title are there for each of its rows."""
    source = os.path.relpath(path, TOP)
    shared: dict[str, str] = {}
    row: Row | None = None
    rows: list[Row] = []
    with open(path, encoding="utf-8") as file:
        lines = file.read().split("\n")
    for number, line in enumerate(lines, 1):
        if not line.strip() or line.startswith("#"):
            continue
        given = re.fullmatch(r"(?:  )?(\S+) = (.*)", line)
        if given and not (row and row.command):
            (row.files if row else shared)[given[1]] = given[2]
        elif not line.startswith("  "):
            row = Row(source, number, line)
            row.files.update(shared)
            rows.append(row)
        else:
            read_line(row, line[2:], number)
    for row in rows:
        if not row.command:
            raise SystemExit(f"{row.name()}: it has no command line")
    return rows


def read_line(row: Row | None, line: str, number: int) -> None:
    """A line of a row: its command, or what is wanted of it."""
    if row is None:
        raise SystemExit(f"line {number} is before the first title: {line}")
    if line.startswith("$ "):
        if row.command:
            raise SystemExit(f"{row.name()}: it has two command lines")
        row.command = line[2:]
    elif not row.command:
        raise SystemExit(f"{row.source}:{number}: neither a file nor a command line: {line}")
    elif line.startswith("! "):
        row.err.append(line[2:])
    elif re.fullmatch(r"\[\d+\]", line):
        row.status, row.has_status = int(line[1:-1]), True
    else:
        row.out.append(line)
    row.last_line = number


def status_of(lines: Sequence[str]) -> int:
    """The status that goes with a verdict."""
    words = [line.split(" ")[0] for line in lines]
    return next((harness.STATUS[word] for word in words if word in harness.STATUS), 0)


def rows_of_page(path: str) -> list[Row]:
    """The command lines of the blocks of a page, `$ ./wmlab WORDS`, each with the lines that follow it, but for
    those that the launcher adds."""
    source, is_code = os.path.relpath(path, TOP), False
    rows: list[Row] = []
    row: Row | None = None
    with open(path, encoding="utf-8") as file:
        for number, line in enumerate(file.read().split("\n"), 1):
            if line.startswith("```"):
                is_code, row = not is_code, None
            elif is_code and line.startswith("$ "):
                row = None
                if line.startswith("$ ./wmlab "):
                    row = Row(source, number, line[2:])
                    row.command = line[2:].replace("./wmlab ", "wmlab ")
                    rows.append(row)
            elif is_code and row and not line.startswith("wmlab: "):
                row.out.append(line)
    for row in rows:
        row.status = status_of(row.out)
    return rows


class Cells(NamedTuple):
    """A row of a table: the heading above it, the number of its line, and what is between backticks in each cell."""

    heading: str
    line: int
    cells: list[str]


def cells_of_page(path: str) -> Iterator[Cells]:
    """Each row of the tables of a page."""
    heading = ""
    with open(path, encoding="utf-8") as file:
        for number, line in enumerate(file, 1):
            if line.startswith("#"):
                heading = line.strip("# \n")
            elif line.startswith("| `"):
                cells = [re.fullmatch(r"`(.*)`", cell.strip()) for cell in line.strip().strip("|").split(" | ")]
                yield Cells(heading, number, [cell[1] for cell in cells if cell])


def rows_of_examples() -> list[Row]:
    """The tables of the examples: modules with logs, scripts, and logs alone."""
    source = "examples/README.md"
    rows: list[Row] = []

    def add(number: int, command: str, out: list[str], status: int) -> None:
        row = Row(source, number, command)
        row.command, row.out, row.status = command, out, status
        rows.append(row)

    for heading, number, cells in cells_of_page(f"{TOP}/{source}"):
        if heading.startswith("Scripts"):
            module, script, outcome = cells[:3]
            played = f"wmlab drive examples/{module} {script}"
            again = f"{played} | tail -n 1 | wmlab check examples/{module} -"
            add(number, played, [outcome, "allowed threads=" + MORE, '["wasm-litmus-log",2,' + MORE], 0)
            add(number, again, ["allowed threads=" + MORE], 0)
        elif cells[0].endswith(".wasm"):
            module, log, line = cells[:3]
            status = status_of([line])
            words = f"examples/{module} examples/{log}"
            add(number, f"wmlab check {words}", [line], status)
            add(number, f"wmlab explain {words}", [line, MORE], status)
            add(number, f"wmlab graph {words}", [line] if status == 2 else ["digraph execution {", MORE, "}"], status)
        else:
            line = cells[1] if len(cells) > 1 else "allowed"
            add(number, f"wmlab rules examples/{cells[0]}", [line], status_of([line]))
    return rows


class Shown(NamedTuple):
    """An output of `explain` that a page shows: the line before it, which names its row, and its lines, the first of
    which may be a command over examples."""

    source: str
    lines: list[str]

    def fault(self, rows: Sequence[Row]) -> str:
        """What is wrong with it; nothing if it is the output of the row that is named, or, after a command, of some
        row. `scripts/transcripts.py` runs the command."""
        if self.lines[0].startswith("$ "):
            is_there = any(row.out == self.lines[1:] for row in rows)
            return "" if is_there else "no row of `explain` has this output"
        named = SOURCE.fullmatch(self.source)
        if not named:
            return "neither a command nor a line that names its row is before it"
        found = [row for row in rows if (row.source, row.title, row.command) == named.groups()]
        return "" if any(row.out == self.lines for row in found) else f"this is no output of {self.source}"


SOURCE = re.compile(r'From `(\S+)`, "(.+)": `(.+)`')


def outputs_of_explanations() -> list[Shown]:
    """The outputs that docs/EXPLANATIONS.md shows."""
    with open(f"{TOP}/docs/EXPLANATIONS.md", encoding="utf-8") as file:
        text = file.read()
    shown = []
    for block in re.finditer(r"(?m)(?:^    .*\n)+", text):
        source = text[: block.start()].rstrip("\n").rpartition("\n")[2]
        shown.append(Shown(source, re.sub(r"(?m)^    ", "", block[0]).rstrip("\n").split("\n")))
    return [each for each in shown if each.lines[0].split(" ")[0] in ("$", *harness.STATUS)]


def check_explanations(tally: harness.Tally, rows: Sequence[Row]) -> None:
    """Counts what is wrong with the outputs of that page, also that it has none."""
    outputs = outputs_of_explanations()
    tally.check(len(outputs) > 0, "docs/EXPLANATIONS.md shows outputs")
    explained = [row for row in rows if "wmlab explain " in row.command]
    for shown in outputs:
        fault = shown.fault(explained)
        tally.check(not fault, "docs/EXPLANATIONS.md", f"{fault}: {shown.lines[0]}")


# `check` and `rules` of one log, whose answer other ways to the same log keep.
JUDGED = re.compile(r"wmlab (check \S+|rules) (\S+)")


def rows_by_another_way(rows: Sequence[Row]) -> list[Row]:
    """For each row with a verdict: the log migrated has the same one, and is migrated to itself; an allowed log
    completed from its module is allowed too, and is completed to itself."""
    again = []
    for row in rows:
        found = JUDGED.fullmatch(row.command)
        verdict = row.out[0].split(" ")[0] if row.out else ""
        if not found or verdict not in ("allowed", "broken"):
            continue
        judge, log = found.groups()
        ways = ["migrate"]
        if verdict == "allowed" and judge != "rules":
            ways.append(f"complete {judge.split(' ')[1]}")
        for way in ways:
            command = f"wmlab {way} {log} >1.json; wmlab {way} 1.json | cmp - 1.json; wmlab {judge} 1.json"
            other = Row(row.source, row.line, f"{row.title}, by {way.split(' ')[0]}")
            other.files, other.command, other.out, other.status = row.files, command, row.out, row.status
            other.is_written = False
            again.append(other)
    return again


# ---- running


def write_files(row: Row, folder: str) -> None:
    """Writes the files of a row, with links to the folders that its command may name."""
    for name, place in (("examples",) * 2, ("litmus",) * 2, ("files", "tests/files"), ("scripts",) * 2):
        os.symlink(f"{TOP}/{place}", f"{folder}/{name}")
    for name, text in row.files.items():
        text = expanded(text)
        with open(os.path.join(folder, name), "wb") as file:
            file.write(bytes.fromhex(text) if name.endswith(".wasm") else text.encode())


def write_files_of(rows: Sequence[Row], folder: str, titles: Sequence[str]) -> None:
    """Makes the folder, with the files of the row of this title, and prints the row's command."""
    found = [row for row in rows if row.title in titles and row.is_written]
    if len(titles) != 1 or not found:
        raise SystemExit(f"--files takes the title of one row; {len(found)} rows have {list(titles)}")
    try:
        os.mkdir(folder)
    except OSError as error:
        raise SystemExit(f"cannot make {folder}: {error.strerror}") from error
    write_files(found[0], folder)
    print(f"in {folder}: {found[0].command}")


def finished(words: Sequence[str], folder: str, seconds: float) -> subprocess.CompletedProcess[bytes] | None:
    """The process with what it wrote, or nothing if it has not ended after so long; then what it started is ended."""
    to = subprocess.PIPE
    with subprocess.Popen(
        words, cwd=folder, start_new_session=True, stdin=subprocess.DEVNULL, stdout=to, stderr=to
    ) as started:
        try:
            out, err = started.communicate(timeout=seconds)
        except subprocess.TimeoutExpired:
            os.killpg(started.pid, signal.SIGKILL)
            return None
    return subprocess.CompletedProcess(words, started.returncode, out, err)


def run(row: Row, program: str, limit: float) -> tuple[list[str], float]:
    """The lines that came, in the form in which they are compared, or a sentence on why there are none; and the
    seconds."""
    start = time.monotonic()
    with tempfile.TemporaryDirectory() as folder:
        write_files(row, folder)
        # The words are the shell's, but for `*` and `?`: scripts of turns have a `*`.
        words = ["sh", "-f", "-c", f'wmlab() {{ {shlex.quote(program)} "$@"; }}\n{row.command}']
        ran = finished(words, folder, limit)
        if not ran:
            return [f"it did not end in {limit} s"], time.monotonic() - start
    out = lines_of(ran.stdout)
    err = [f"! {line}" for line in lines_of(ran.stderr)]
    return out + err + ([f"[{ran.returncode}]"] if ran.returncode else []), time.monotonic() - start


def lines_of(data: bytes) -> list[str]:
    """The lines of what was printed; a last one that is not ended is marked."""
    if not data:
        return []
    *lines, last = data.decode(errors="backslashreplace").split("\n")
    return lines + ([last + "(no newline)"] if last else [])


def fits(wanted: Sequence[str], got: Sequence[str]) -> bool:
    """Whether the lines are those that are wanted. `...` alone means one or more lines, at the end of a line for
    the rest of it, and a line `counts of N: A, B` for a table of outcomes among these, sorted, whose counts add up to
    N."""
    if not wanted:
        return not got
    first, rest = wanted[0], wanted[1:]
    if first == MORE:
        return any(fits(rest, got[taken:]) for taken in range(1, len(got) + 1))
    counts = COUNTS.fullmatch(first)
    if counts:
        table = [re.fullmatch(r"( *\d+)  (.+)", line) for line in got]
        counted = [line for line in itertools.takewhile(bool, table) if line]
        outcomes = [line[2] for line in counted]
        total = sum(int(line[1]) for line in counted)
        aligned = all(len(line[1]) == 8 for line in counted)
        among = set(outcomes) <= set(counts[2].split(", ")) and outcomes == sorted(set(outcomes))
        return aligned and among and total == int(counts[1]) and fits(rest, got[len(counted) :])
    if not got:
        return False
    if first.endswith(MORE):
        return got[0].startswith(first.removesuffix(MORE)) and fits(rest, got[1:])
    return first == got[0] and fits(rest, got[1:])


def shortened(lines: Sequence[str]) -> list[str]:
    return [line if len(line) <= 400 else f"{line[:200]} .. {line[-150:]} ({len(line)} characters)" for line in lines]


def difference(row: Row, got: Sequence[str]) -> str:
    shown = difflib.unified_diff(shortened(row.wanted()), shortened(got), "wanted", "got", lineterm="")
    return "\n".join(shown)


# ---- updating


def update(row: Row, got: Sequence[str]) -> None:
    """Writes what came into the row's file, in place of the lines after its command."""
    path = f"{TOP}/{row.source}"
    with open(path, encoding="utf-8") as file:
        lines = file.read().split("\n")
    at = next(number for number in range(row.line, len(lines)) if lines[number] == f"  $ {row.command}")
    end = at + 1
    while end < len(lines) and lines[end].startswith("  "):
        end += 1
    lines[at + 1 : end] = [f"  {line}" for line in got]
    with open(path, "w", encoding="utf-8") as file:
        file.write("\n".join(lines))


def can_be_updated(row: Row) -> bool:
    plain = not any(line.endswith(MORE) or COUNTS.fullmatch(line) or REPEATED.search(line) for line in row.out)
    return row.is_written and row.source.endswith(".rows") and plain


# ---- all


def all_rows() -> list[Row]:
    rows = []
    for path in sorted(glob.glob(f"{TOP}/tests/rows/*.rows")):
        found = rows_of_file(path)
        rows += found + ([] if path.endswith("long.rows") else rows_by_another_way(found))
    for pattern in PAGES:
        for path in sorted(glob.glob(f"{TOP}/{pattern}")):
            rows += rows_of_page(path)
    return rows + rows_of_examples()


def main() -> None:
    parser = harness.arguments(__doc__)
    parser.add_argument("--update", action="store_true", help="write what the program printed into the .rows files")
    parser.add_argument(
        "--without", action="append", default=[], metavar="WORD", help="leave out the rows with this word"
    )
    parser.add_argument("--files", metavar="FOLDER", help="write the files of the row of this title, and run nothing")
    parser.add_argument("--times", type=int, default=0, metavar="N", help="print the N rows that took longest")
    parser.add_argument("--seconds", type=int, default=120, metavar="N", help="how long a row may take")
    parser.add_argument("--jobs", type=int, default=harness.processors(), help="rows that run side by side")
    parser.add_argument(
        "words", nargs="*", metavar="WORD", help="run only the rows with one of these words in file or title"
    )
    options = parser.parse_args()
    rows = all_rows()
    tally = harness.Tally()
    if options.files:
        write_files_of(rows, options.files, options.words)
        return
    check_explanations(tally, rows)
    if options.words:
        rows = [row for row in rows if any(word in row.name() for word in options.words)]
    rows = [row for row in rows if not any(word in row.name() for word in options.without)]
    program = harness.program_of(options)
    changed, times = [], []
    with concurrent.futures.ThreadPoolExecutor(options.jobs) as pool:
        for row, (got, seconds) in zip(rows, pool.map(lambda row: run(row, program, options.seconds), rows)):
            times.append((seconds, row))
            is_right = fits(row.wanted(), got)
            tally.check(
                is_right, f"{row.name()}\n  $ {row.command}", "\n" + difference(row, got) if not is_right else ""
            )
            if not is_right and options.update and can_be_updated(row):
                changed.append((row, got))
    for row, got in sorted(changed, key=lambda each: -each[0].line):
        update(row, got)
        print(f"updated {row.name()}")
    for seconds, row in sorted(times, key=lambda each: -each[0])[: options.times]:
        print(f"{seconds:.2f} s {row.name()}")
    tally.end()


if __name__ == "__main__":
    harness.run_script(main)
