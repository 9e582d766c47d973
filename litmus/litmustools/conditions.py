"""Conditions of tests, as herd's tools write them: `exists (0:r0=0 /\\ 1:r0=0)`, `~exists ..` and `forall ..`."""
import re
from collections.abc import Mapping
from dataclasses import dataclass

from .accesses import BadCycle

TOKEN = re.compile(r"\s*(?:(/\\|\\/|~|not\b|[()=])|(-?0x[0-9a-fA-F]+|-?\d+(?![\w:]))|((?:\d+:)?[A-Za-z_$][\w.$]*))")
QUANTIFIER = re.compile(r"\s*(~\s*exists|exists|forall)\b(.*)", re.DOTALL)
KINDS = {"exists": "Allowed", "~exists": "Forbidden", "forall": "Required"}
VALUE_BITS = 64


@dataclass(frozen=True)
class Formula:
    """`=` with a name and a value, `/\\` and `\\/` of formulas, or `~` of one."""

    operator: str
    parts: tuple["Formula", ...] = ()
    name: str = ""
    value: int = 0

    def holds(self, values: Mapping[str, tuple[int, int]]) -> bool:
        """Whether it holds if each name has this value, of so many bits."""
        if self.operator == "=":
            value, bits = values[self.name]
            return (value - self.value) % (1 << bits) == 0
        if self.operator == "~":
            return not self.parts[0].holds(values)
        return (all if self.operator == "/\\" else any)(part.holds(values) for part in self.parts)

    def names(self) -> set[str]:
        return {self.name} if self.operator == "=" else {name for part in self.parts for name in part.names()}

    @property
    def text(self) -> str:
        if self.operator == "=":
            return f"{self.name}={self.value}"
        if self.operator == "~":
            return f"~({self.parts[0].text})"
        return f" {self.operator} ".join(part.text if part.operator == "=" else f"({part.text})" for part in self.parts)


@dataclass(frozen=True)
class Condition:
    """`kind` is `exists`, `~exists` or `forall`."""

    kind: str
    formula: Formula

    @property
    def text(self) -> str:
        return f"{self.kind} ({self.formula.text})"

    def is_validated(self, positive: int, negative: int) -> bool:
        """Whether states that satisfy the formula in so many iterations, and not in others, are as the condition has
        them."""
        return {"exists": positive > 0, "~exists": positive == 0, "forall": negative == 0}[self.kind]


class Parser:
    """Reads a formula: `~` binds closest, then `/\\`, then `\\/`."""

    def __init__(self, text: str) -> None:
        self.text, self.at = text, 0
        self.tokens = list(self.split())

    def split(self) -> list[tuple[str, str]]:
        found: list[tuple[str, str]] = []
        at, text = 0, self.text.rstrip()
        while at < len(text):
            match = TOKEN.match(text, at)
            if not match:
                raise BadCycle(f"condition {text!r}: {text[at:].strip()!r} is not expected; write exists (a=0 /\\ b=0)")
            kind = "operator" if match[1] else "value" if match[2] else "name"
            found.append((kind, match[1] or match[2] or match[3]))
            at = match.end()
        return found

    def next(self) -> tuple[str, str]:
        return self.tokens[self.at] if self.at < len(self.tokens) else ("end", "its end")

    def take(self, *wanted: str) -> str:
        kind, token = self.next()
        if kind not in wanted and token not in wanted:
            raise BadCycle(f"condition {self.text.strip()!r}: expected {' or '.join(wanted)} before {token}")
        self.at += 1
        return token

    def any_of(self, operator: str) -> Formula:
        part = self.any_of("/\\") if operator == "\\/" else self.single()
        parts = [part]
        while self.next()[1] == operator:
            self.at += 1
            parts.append(self.any_of("/\\") if operator == "\\/" else self.single())
        return part if len(parts) == 1 else Formula(operator, tuple(parts))

    def single(self) -> Formula:
        if self.next()[1] in ("~", "not"):
            self.at += 1
            return Formula("~", (self.single(),))
        if self.next()[1] == "(":
            self.at += 1
            inner = self.any_of("\\/")
            self.take(")")
            return inner
        name = self.take("name")
        self.take("=")
        return Formula("=", name=name, value=int(self.take("value"), 0))

    def whole(self) -> Formula:
        formula = self.any_of("\\/")
        self.take("end")
        return formula


def formula_of(text: str) -> Formula:
    return Parser(text).whole()


def condition_of(text: str) -> Condition:
    """The condition that a text spells."""
    match = QUANTIFIER.fullmatch(text)
    if not match:
        raise BadCycle(f"condition {text.strip()!r}: expected exists, ~exists or forall, and then (a=0 /\\ b=0)")
    return Condition(match[1].replace(" ", ""), formula_of(match[2]))


def conjunction(values: Mapping[str, int]) -> Formula:
    """That each name has this value."""
    parts = tuple(Formula("=", name=name, value=value) for name, value in values.items())
    return parts[0] if len(parts) == 1 else Formula("/\\", parts)
