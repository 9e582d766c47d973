"""One access of a cycle: its word, its range, and its instruction."""
import re
from dataclasses import dataclass

WORD = re.compile(r"(un|sc|rmw)([1248]?)(?:@([1-9][0-9]?))?")
LOCATION_BYTES = 16


class BadCycle(Exception):
    """What is wrong with the text of a cycle, in a sentence."""


@dataclass(frozen=True)
class Access:
    """`order` is `un`, `sc` or `rmw`; `offset` is counted from the beginning of the location."""

    order: str
    width: int
    offset: int

    @property
    def is_atomic(self) -> bool:
        return self.order != "un"

    @property
    def word(self) -> str:
        width = "" if self.width == 4 else str(self.width)
        return f"{self.order}{width}" + (f"@{self.offset}" if self.offset else "")

    @property
    def range(self) -> "range":
        return range(self.offset, self.offset + self.width)


def access_of(word: str) -> Access:
    """The access that a word names."""
    found = WORD.fullmatch(word)
    if not found:
        raise BadCycle(f"{word}: expected un, sc or rmw, then 1, 2, 4 or 8 bytes and @OFFSET if they are others")
    access = Access(found[1], int(found[2] or 4), int(found[3] or 0))
    if access.is_atomic and access.offset % access.width:
        raise BadCycle(f"{word}: an atomic access is at a multiple of its width")
    if access.offset + access.width > LOCATION_BYTES:
        raise BadCycle(f"{word}: a location has {LOCATION_BYTES} bytes")
    return access


PLAIN = Access("un", 4, 0)
