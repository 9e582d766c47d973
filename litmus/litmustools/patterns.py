"""Conditions on outcomes in the words of the recorder: an end for each thread, as docs/RECORDING.md lists them."""
import re
from collections.abc import Iterable, Sequence
from dataclasses import dataclass
from enum import Enum

from .accesses import BadCycle

TRAPS = ("unreachable", "divide-by-zero", "overflow", "out-of-bounds", "unaligned", "exhausted")
VALUE = re.compile(r"\d+|0[xX][\da-fA-F]+")
SET = re.compile(r"\{(.*)\}")
NAMED = ("-", "cut", "trap:*", *(f"trap:{name}" for name in TRAPS))
MOST = 1 << 64
EXPECTED = (
    "expected a value such as 5 or 0x5, -, cut, trap:NAME, trap:*, a set of these such as {0,1}, ! before one of them, "
    "or *"
)


class Kind(Enum):
    """What a condition asks: that no outcome fits, that one does, or that all do."""

    NEVER = "never"
    SOME = "some"
    ALL = "all"


OPTIONS = {"forbid": Kind.NEVER, "~exists": Kind.NEVER, "want": Kind.SOME, "exists": Kind.SOME, "forall": Kind.ALL}


@dataclass(frozen=True)
class Pattern:
    """Some ends of a thread, or all others. An end `trap:*` is each trap."""

    ends: frozenset[str]
    is_negated: bool

    def fits(self, end: str) -> bool:
        is_there = end in self.ends or (end.startswith("trap:") and "trap:*" in self.ends)
        return is_there != self.is_negated


ANY = Pattern(frozenset(), True)


@dataclass(frozen=True)
class EndsCondition:
    """A condition of an option, with a pattern for each thread."""

    option: str
    text: str
    patterns: tuple[Pattern, ...]

    @property
    def kind(self) -> Kind:
        return OPTIONS[self.option]

    @property
    def words(self) -> str:
        return f'--{self.option} "{self.text}"'

    def fits(self, outcome: str) -> bool:
        ends = outcome.split(" ")
        return all(pattern.fits(end) for pattern, end in zip(self.patterns, ends, strict=True))

    def looked_for(self, outcomes: Iterable[str]) -> list[str]:
        """The outcomes that it forbids or wants, or that are not what all have to be."""
        return [outcome for outcome in outcomes if self.fits(outcome) != (self.kind is Kind.ALL)]


def end_of(word: str) -> str | None:
    """An end as outcomes have it, with its value in decimal; None if it is not one."""
    if VALUE.fullmatch(word):
        # A value may begin with zeros, which Python refuses in `int(word, 0)`.
        value = int(word, 16) if word[:2] in ("0x", "0X") else int(word)
        return str(value) if value < MOST else None
    return word if word in NAMED else None


def pattern_of(word: str) -> Pattern | None:
    """What a word of a condition has of a thread's end; None if it is not one."""
    if word == "*":
        return ANY
    named = word.removeprefix("!")
    members = SET.fullmatch(named)
    ends = [end_of(member) for member in (members[1].split(",") if members else [named])]
    known = frozenset(end for end in ends if end is not None)
    return None if None in ends else Pattern(known, word != named)


def ends_condition(option: str, given: str, threads: int) -> EndsCondition:
    """The condition that an option spells."""
    spaced = re.sub(r"\{[^}]*\}", lambda found: re.sub(r"\s+", "", found[0]), given)
    words = spaced.split()
    patterns = []
    for word in words:
        pattern = pattern_of(word)
        if pattern is None:
            sign = "; values have no sign: an i32 of -1 is 0xffffffff" if re.search(r"-\d", word) else ""
            raise BadCycle(f'--{option} "{given}": "{word}" is not an end; {EXPECTED}{sign}')
        patterns.append(pattern)
    if len(words) != threads:
        raise BadCycle(f'--{option} "{given}": {len(words)} ends for {threads} threads')
    return EndsCondition(option, " ".join(words), tuple(patterns))


# The most outcomes that a line names.
MOST_NAMED = 5


@dataclass(frozen=True)
class Judged:
    """What came of a condition: its word, `ok`, `FAILED` or `open` if a bound left it so; its line; and the outcomes
    that it looks for."""

    condition: EndsCondition
    word: str
    line: str
    looked_for: list[str]


def judged(condition: EndsCondition, outcomes: Sequence[str], bound: str | None) -> Judged:
    """What the outcomes of a module come to, all of them if no bound was met."""
    found = condition.looked_for(outcomes)
    named = ", ".join([*found[:MOST_NAMED], *([f"{len(found) - MOST_NAMED} more"] if len(found) > MOST_NAMED else [])])
    is_wanted = condition.kind is Kind.SOME
    if found:
        word, what = "ok" if is_wanted else "FAILED", named
    elif bound is not None:
        word, what = "open", f"{absent(condition.kind)} within a bound that was met ({bound}); others may be possible"
    else:
        word, what = "FAILED" if is_wanted else "ok", absent(condition.kind)
    return Judged(condition, word, f"{word} {condition.words}: {what}", found)


def absent(kind: Kind) -> str:
    return "no other outcome" if kind is Kind.ALL else "no such outcome"


def ends_conditions(given: Sequence[tuple[str, str]], threads: int) -> list[EndsCondition]:
    """The conditions of a command line: each option with its outcome."""
    return [ends_condition(option, text, threads) for option, text in given]
