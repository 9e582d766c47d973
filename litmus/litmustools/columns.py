"""Replaces the columns of engines in the gallery's page, where the others stay as they are."""
import re
from collections.abc import Mapping
from dataclasses import dataclass

from .gallery import Collected, Row
from .page import EXPLORE, counts, engines_line

ROW = re.compile(r"\| `([^`]+)` \| (.*) \|")
COUNTED = ("permitted, and seen in an engine", "seen, and not permitted")


def cells_of(line: str) -> list[str]:
    """The cells of a line of a table. A backquoted part may have no bar."""
    return [cell.strip() for cell in line.strip().strip("|").split(" | ")]


HEAD = "| Test | Outcome | Rules | Store buffers"


@dataclass(frozen=True)
class Columns:
    """The columns of the engines that ran, behind others, of which each table's head begins with `head`."""

    head: str
    rows: Mapping[str, Row]
    collected: Collected
    date: str

    @property
    def engines(self) -> list[str]:
        return list(self.collected.engines)

    @property
    def fixed(self) -> int:
        return len(cells_of(self.head))

    def row(self, line: str) -> str:
        cells = cells_of(line)[: self.fixed]
        row = self.rows[cells[0].strip("`")]
        return f"| {' | '.join([*cells, *(str(row.times(engine)) for engine in self.engines)])} |"

    def line(self, line: str, before: str) -> str:
        """A line of the page, after another one, with these columns."""
        if line.startswith(self.head):
            return f"{self.head} | {' | '.join(self.engines)} |"
        if before.startswith(self.head):
            return "|---" * (self.fixed + len(self.engines)) + "|"
        if line.startswith("Engines ("):
            return engines_line(self.collected, self.date)
        if line.startswith("- **") and "how often the engine gave the outcome" in line:
            return f"- **{', '.join(self.engines)}**{line[line.index(': how often') :]}"
        for name in COUNTED:
            if line.startswith(f"| {name} |"):
                return f"| {name} | {counts(self.collected.rows)[name]} |"
        match = ROW.fullmatch(line)
        return self.row(line) if match and match[1] in self.rows and "=" in match[2] else line


def replaced(text: str, collected: Collected, date: str) -> str:
    """The page with the columns of the engines that ran. A page may have no column of what `explore` lists."""
    head = f"{HEAD} | {EXPLORE}" if f"{HEAD} | {EXPLORE} |" in text else HEAD
    columns = Columns(head, {row.test.name: row for row in collected.rows}, collected, date)
    lines = text.split("\n")
    return "\n".join(columns.line(line, before) for line, before in zip(lines, ["", *lines]))
