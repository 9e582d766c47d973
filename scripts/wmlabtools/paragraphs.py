"""The paragraphs and table cells of a page that are longer than this project writes."""
import re
from collections.abc import Iterator, Sequence
from typing import NamedTuple

from . import TOP

WORDS = 60
CELL = 40
# A list item begins a paragraph of its own.
ITEM = re.compile(r"\s*(?:[-*]|\d+\.) ")


class Part(NamedTuple):
    """A paragraph or a table cell: the number of its first line, its text, and the most words that it may have."""

    line: int
    text: str
    limit: int


def words_of(text: str) -> int:
    """How many words a text has; code counts as one."""
    return len(re.sub(r"`[^`]*`", "code", text).split())


def paragraphs(lines: Sequence[str]) -> Iterator[Part]:
    """Each paragraph and each table cell."""
    parts: list[str] = []
    first, in_code = 0, False
    for number, line in enumerate([*lines, ""], 1):
        if line.startswith("```"):
            in_code = not in_code
        is_code = in_code or line.startswith("```") or (line.startswith("    ") and not parts and not ITEM.match(line))
        is_break = is_code or not line.strip() or line.startswith(("#", "|"))
        if parts and (is_break or ITEM.match(line)):
            yield Part(first, " ".join(parts), WORDS)
            parts = []
        if line.startswith("|") and not is_code:
            for cell in line.split("|"):
                yield Part(number, cell, CELL)
        elif not is_break:
            first = first if parts else number
            parts.append(line)


def long_ones(name: str) -> list[str]:
    """What is too long in a page, each with its line and its number of words."""
    with open(f"{TOP}/{name}", encoding="utf-8") as file:
        lines = file.read().split("\n")
    found = []
    for number, text, limit in paragraphs(lines):
        if words_of(text) > limit:
            found.append(f"{name}:{number}: {words_of(text)} words, at most {limit}: {text.strip()[:60]}..")
    return found
