"""The clauses of the crates, which have to be readable: a line of one has at most 140 characters."""
import glob
import re

from . import TOP

COLUMNS = 140
CLAUSE = re.compile(r"^[ \t]*(?:requires|ensures)\b[^\n{]*\{", re.MULTILINE)


def end_of(text: str, start: int) -> int:
    """The offset of the bracket that closes the one before `start`."""
    depth = 1
    for offset in range(start, len(text)):
        depth += (text[offset] == "{") - (text[offset] == "}")
        if depth == 0:
            return offset
    return len(text)


def wide_lines() -> tuple[int, list[str]]:
    """How many clauses there are, and the places of lines that are too wide, as lines."""
    count = 0
    wide: list[str] = []
    for path in sorted(glob.glob(f"{TOP}/crates/*/src/**/*.rt", recursive=True)):
        with open(path, encoding="utf-8") as file:
            text = file.read()
        for found in CLAUSE.finditer(text):
            count += 1
            number = text.count("\n", 0, found.start()) + 1
            for line in text[found.start() : end_of(text, found.end()) + 1].split("\n"):
                if len(line) > COLUMNS:
                    wide.append(f"{path.removeprefix(TOP + '/')}:{number} has {len(line)} characters")
                number += 1
    return count, wide
