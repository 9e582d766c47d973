"""What a picture shows of an execution: the events of a log, and who reads from whom."""
import itertools
from collections.abc import Iterator, Sequence
from dataclasses import dataclass
from typing import Any

# The thread and the number of an event; an empty one is the initial memory.
Name = tuple[int, ...]
INIT: Name = ()


@dataclass(frozen=True)
class Event:
    """An event of a log. `writers` has the writer of each byte that it reads."""

    name: Name
    kind: str
    is_atomic: bool
    address: int
    width: int
    value: int
    written: int | None
    writers: tuple[Name, ...]

    @property
    def reads(self) -> bool:
        return self.kind != "w"

    @property
    def writes(self) -> bool:
        return self.kind != "r"

    @property
    def bytes(self) -> range:
        return range(self.address, self.address + self.width)

    def overlaps(self, other: "Event") -> bool:
        return self.address < other.address + other.width and other.address < self.address + self.width


@dataclass(frozen=True)
class Edge:
    """An edge of a kind: `sb`, `rf`, `co` or `fr`."""

    source: Name
    target: Name
    kind: str


def event_of(name: Name, logged: Sequence[Any]) -> Event:
    """An event as version 2 of a document has it."""
    kind, order, address, width, value, *rest = logged
    written = {"w": value, "r": None, "x": rest[0] if rest else None}[kind]
    writers = tuple(tuple(writer) for writer in rest[-1]) if kind != "w" else ()
    return Event(name, kind, order == "sc", address, width, value, written, writers)


class Execution:
    """The events of a document, and the edges between them."""

    def __init__(self, document: Sequence[Any]) -> None:
        _, _, threads, order = document
        self.starts = [thread[0] for thread in threads]
        self.threads = [
            [event_of((number, place), logged) for place, logged in enumerate(thread[4])]
            for number, thread in enumerate(threads)
        ]
        self.events: dict[Name, Event] = {event.name: event for thread in self.threads for event in thread}
        self.places: dict[Name, int] = {tuple(name): place for place, name in enumerate(order, 1)}

    def program_order(self) -> Iterator[Edge]:
        for thread in self.threads:
            yield from (Edge(one.name, next_one.name, "sb") for one, next_one in itertools.pairwise(thread))

    def reads_from(self) -> Iterator[Edge]:
        """Each event that reads, with each of its writers but the initial memory."""
        for event in self.events.values():
            yield from (Edge(writer, event.name, "rf") for writer in dict.fromkeys(event.writers) if writer)

    def synchronizes(self, edge: Edge) -> bool:
        """Whether the writer of a read synchronizes with it."""
        one, other = self.events[edge.source], self.events[edge.target]
        return edge.kind == "rf" and one.is_atomic and other.is_atomic and one.bytes == other.bytes
