"""Transcripts of pages: the lines `$ COMMAND` of a block of code, each with the lines that it prints.

A comment before a block tells how it is taken:

    <!-- not run: REASON -->     its commands are not run
    <!-- needs: TOOL.. -->       its commands are run if these tools are there
    <!-- file: NAME -->          the block is the content of this file, for the commands after it
    <!-- counts vary -->         lines that begin with a number are a histogram: counts, their order, and which lines
                                 come may differ, and one line or more comes

In an expected line `..` is any text. A line `...` is one or more lines. Empty lines are not compared. A line `[N]` is
the status; without it the status is that of the verdict that is printed, or 0.
"""
import dataclasses
import re
from collections.abc import Iterator, Sequence

from . import harness

MARK = re.compile(r"<!-- (not run|needs|file|counts vary)(?:: (.*?))? -->")
INDENT = "    "
STATUS = re.compile(r"\[(\d+)\]")
COUNTED = re.compile(r"( *)([\d,]+)( +\S.*)")
ANY, MORE = "..", "..."


@dataclasses.dataclass
class Block:
    """A block of code: the number of its first line, its lines without indentation, and the comments before it."""

    first: int
    lines: list[str]
    marks: dict[str, str]


@dataclasses.dataclass
class Transcript:
    """A command of a block, with the lines and the status that the page shows."""

    line: int
    command: str
    marks: dict[str, str]
    shown: list[str] = dataclasses.field(default_factory=list)

    def status(self) -> int:
        stated = self.stated()
        if stated:
            return int(stated[1])
        words = (line.split(" ")[0] for line in self.shown)
        return next((harness.STATUS[word] for word in words if word in harness.STATUS), 0)

    def lines(self) -> list[str]:
        """The expected lines, without that of the status."""
        return self.shown[:-1] if self.stated() else self.shown

    def stated(self) -> re.Match[str] | None:
        return STATUS.fullmatch(self.shown[-1]) if self.shown else None


def blocks_of(text: str) -> Iterator[Block]:
    """The blocks of code of a page, fenced or indented."""
    block: Block | None = None
    marks: dict[str, str] = {}
    is_fenced, was_empty = False, True
    for number, line in enumerate(text.split("\n"), 1):
        is_fence = line.startswith("```")
        is_indented = line.startswith(INDENT) and was_empty and not block
        if block and is_fence:
            yield block
            block = None
        if not is_fenced and (is_fence or is_indented):
            block, marks = Block(number + is_fence, [], marks), {}
        if is_fence:
            is_fenced = not is_fenced
        elif block and (is_fenced or not line or line.startswith(INDENT)):
            block.lines.append(line if is_fenced else line.removeprefix(INDENT))
        elif block:
            yield block
            block = None
        mark = MARK.fullmatch(line)
        if mark and not block:
            marks[mark[1]] = mark[2] or ""
        elif line and not block:
            marks = {}
        was_empty = not line
    if block:
        yield block


def without_empty_end(lines: list[str]) -> list[str]:
    end = len(lines)
    while end and not lines[end - 1]:
        end -= 1
    return lines[:end]


def transcripts_of(block: Block) -> list[Transcript]:
    """The commands of a block. A command that ends in a backslash goes on in the next line."""
    found: list[Transcript] = []
    goes_on = False
    for number, line in enumerate(without_empty_end(block.lines), block.first):
        if goes_on:
            found[-1].command += "\n" + line
        elif line.startswith("$ "):
            found.append(Transcript(number, line[2:], block.marks))
        elif found and line:
            found[-1].shown.append(line)
        goes_on = line.endswith("\\") and bool(found) and (goes_on or line.startswith("$ "))
    return found


def fits_line(wanted: str, got: str) -> bool:
    pattern = ".*".join(re.escape(part) for part in wanted.split(ANY))
    return re.fullmatch(pattern, got) is not None


def counted(lines: Sequence[str]) -> int:
    """How many of the first lines begin with a number."""
    return next((at for at, line in enumerate(lines) if not COUNTED.fullmatch(line)), len(lines))


def fits_histogram(wanted: Sequence[str], got: Sequence[str]) -> bool:
    """Whether the lines are some of the expected ones, each once, with any counts."""

    came = [COUNTED.sub(r"\3", line).strip() for line in got]
    known = {COUNTED.sub(r"\3", line).strip() for line in wanted}
    return bool(got) and set(came) <= known and len(set(came)) == len(came)


def fits(wanted: Sequence[str], got: Sequence[str], counts_vary: bool = False) -> bool:
    """Whether the lines that came are those that a page shows."""
    if not wanted:
        return not got
    if wanted[0] == MORE:
        return any(fits(wanted[1:], got[taken:], counts_vary) for taken in range(1, len(got) + 1))
    length = counted(wanted) if counts_vary else 0
    if length:
        came = counted(got)
        return fits_histogram(wanted[:length], got[:came]) and fits(wanted[length:], got[came:], counts_vary)
    return bool(got) and fits_line(wanted[0], got[0]) and fits(wanted[1:], got[1:], counts_vary)
