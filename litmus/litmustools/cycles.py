"""Cycles: their edges, their text, and the one form of all that differ by where they begin."""
import re
from dataclasses import dataclass
from functools import cached_property

from .accesses import PLAIN, Access, BadCycle, access_of

PROGRAM_ORDER = re.compile(r"Po([ds])([RW])([RW])")
COMMUNICATION = {"Rf": ("W", "R"), "Fr": ("R", "W"), "Co": ("W", "W")}


@dataclass(frozen=True)
class Edge:
    """`kind` is `Po`, `Rf`, `Fr` or `Co`."""

    kind: str
    source: str
    target: str
    is_external: bool
    is_same_location: bool

    @property
    def word(self) -> str:
        if self.kind == "Po":
            return f"Po{'s' if self.is_same_location else 'd'}{self.source}{self.target}"
        return self.kind + ("e" if self.is_external else "i")


def edge_of(word: str) -> Edge:
    """The edge that a word names."""
    found = PROGRAM_ORDER.fullmatch(word)
    if found:
        return Edge("Po", found[2], found[3], False, found[1] == "s")
    kind, place = word[:2].replace("Ws", "Co"), word[2:]
    if kind not in COMMUNICATION or place not in ("e", "i"):
        raise BadCycle(f"{word}: expected an edge such as PodWR, PosRR, Rfe, Fre, Coe, Rfi, Fri or Coi")
    return Edge(kind, *COMMUNICATION[kind], place == "e", True)


@dataclass(frozen=True)
class Cycle:
    """Edge k leads from access k to the next one."""

    edges: tuple[Edge, ...]
    accesses: tuple[Access, ...]

    def __len__(self) -> int:
        return len(self.edges)

    @property
    def text(self) -> str:
        words = " ".join(edge.word for edge in self.edges)
        if all(access == PLAIN for access in self.accesses):
            return words
        return f"{words} : {' '.join(access.word for access in self.accesses)}"

    @property
    def shape(self) -> str:
        return " ".join(edge.word for edge in self.edges)

    def edge_to(self, k: int) -> Edge:
        """The edge that leads to access k."""
        return self.edges[k - 1]

    def direction(self, k: int) -> str:
        """What the edges make of access k: `R`, `W`, or `RW` for an update of which they need both."""
        before, after = self.edge_to(k).target, self.edges[k].source
        return before if before == after else "RW"

    def rotated(self, k: int) -> "Cycle":
        return Cycle(self.edges[k:] + self.edges[:k], self.accesses[k:] + self.accesses[:k])

    @cached_property
    def beginnings(self) -> list[int]:
        """The accesses at which a thread begins; of a cycle of one thread, the first."""
        return [k for k in range(len(self)) if self.edge_to(k).is_external] or [0]

    @property
    def canonical(self) -> "Cycle":
        """The form that all cycles which differ by where they begin have in common."""
        forms = [self.rotated(k) for k in self.beginnings]
        return min(forms, key=lambda cycle: (cycle.shape, [access.word for access in cycle.accesses]))

    def threads(self) -> list[list[int]]:
        """The accesses of each thread, in program order, by their numbers."""
        found: list[list[int]] = []
        for k, _ in enumerate(self.edges):
            if k == 0 or self.edge_to(k).is_external:
                found.append([])
            found[-1].append(k)
        return found

    def locations(self) -> list[int]:
        """The location of each access."""
        count, at = max(1, sum(not edge.is_same_location for edge in self.edges)), 0
        found: list[int] = []
        for edge in self.edges:
            found.append(at)
            at = at if edge.is_same_location else (at + 1) % count
        return found


def check_joints(cycle: Cycle) -> None:
    for k, access in enumerate(cycle.accesses):
        before, after = cycle.edge_to(k), cycle.edges[k]
        if before.target != after.source and access.order != "rmw":
            raise BadCycle(f"{before.word} leads to {before.target} and {after.word} begins at {after.source}")


def check_counts(cycle: Cycle) -> None:
    external = sum(edge.is_external for edge in cycle.edges)
    if external == 1:
        raise BadCycle("one edge to another thread: expected none or at least two")
    if sum(not edge.is_same_location for edge in cycle.edges) == 1:
        raise BadCycle("one edge to another location: expected none or at least two")
    if external and not cycle.edges[-1].is_external:
        raise BadCycle(f"the last edge, {cycle.edges[-1].word}, has to lead to another thread")
    if not external and (cycle.edges[-1].kind == "Po" or len(cycle) < 2):
        raise BadCycle("a cycle of one thread ends with Rfi, Fri or Coi")


def cycle_of(text: str) -> Cycle:
    """The cycle that a text spells."""
    shape, _, accesses = text.partition(":")
    edges = tuple(edge_of(word) for word in shape.split())
    if not edges:
        raise BadCycle("a cycle has edges")
    words = accesses.split()
    if words and len(words) != len(edges):
        raise BadCycle(f"{len(words)} accesses for {len(edges)} edges")
    cycle = Cycle(edges, tuple(access_of(word) for word in words) or (PLAIN,) * len(edges))
    check_counts(cycle)
    check_joints(cycle)
    return cycle
