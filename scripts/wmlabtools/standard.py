"""ECMA-262's memory model over a small candidate execution, written from its text and not from docs/MODEL.md. The
numbers of sections are those of the edition of 2025."""
from __future__ import annotations

import dataclasses
import itertools
from collections.abc import Callable, Iterable, Iterator, Sequence

Bytes = tuple[int, ...]
Relation = set[tuple["SharedEvent", "SharedEvent"]]


@dataclasses.dataclass(eq=False)
class SharedEvent:
    """A Shared Data Block event (29.1). `kind` is `read`, `write` or `update`, `order` is `Init`, `Unordered` or
    `SeqCst`."""

    name: str
    kind: str
    order: str
    no_tear: bool
    index: int
    size: int
    payload: Bytes = ()
    modify: Callable[[Bytes, Bytes], Bytes] | None = None

    def reads(self) -> bool:
        return self.kind != "write"

    def writes(self) -> bool:
        return self.kind != "read"

    def has(self, index: int) -> bool:
        return self.index <= index < self.index + self.size


def equal(one: SharedEvent, other: SharedEvent) -> bool:
    return (one.index, one.size) == (other.index, other.size)


def have_common_bytes(one: SharedEvent, other: SharedEvent) -> bool:
    return max(one.index, other.index) < min(one.index + one.size, other.index + other.size)


def overlap_by_the_letter(one: SharedEvent, other: SharedEvent) -> bool:
    return have_common_bytes(one, other) and not equal(one, other)


class Endless(Exception):
    """ValueOfReadEvent calls itself for ever."""


class Candidate:
    """A candidate execution (29.4): the event lists of the agents, what each read takes its bytes from, and the values
    that it chose. `overlapping` is how the standard's word is read."""

    def __init__(
        self,
        agents: Sequence[Sequence[SharedEvent]],
        sources: dict[SharedEvent, list[SharedEvent]],
        chosen: dict[SharedEvent, Bytes],
        overlapping: Callable[[SharedEvent, SharedEvent], bool],
    ) -> None:
        self.events = [event for agent in agents for event in agent]
        self.sources, self.chosen = sources, chosen
        self.synchronizes = self.synchronizing()
        self.before = closure(self.events, self.edges(agents, overlapping))

    # ---- 29.5, abstract operations

    def compose(self, read: SharedEvent, active: frozenset[SharedEvent]) -> Bytes:
        """ComposeWriteEventBytes (29.5.4)."""
        composed = []
        for index, writer in enumerate(self.sources[read], read.index):
            payload = writer.payload
            if writer.kind == "update":
                assert writer.modify is not None
                payload = writer.modify(self.value_of(writer, active), writer.payload)
            composed.append(payload[index - writer.index])
        return tuple(composed)

    def value_of(self, read: SharedEvent, active: frozenset[SharedEvent] = frozenset()) -> Bytes:
        """ValueOfReadEvent (29.5.5)."""
        if read in active:
            raise Endless
        return self.compose(read, active | {read})

    # ---- 29.6, relations

    def reads_from(self) -> Iterator[tuple[SharedEvent, int, SharedEvent]]:
        """The reads, each with the index of each byte and the write that it is taken from (29.6.2, 29.6.3)."""
        for read, writers in self.sources.items():
            for index, writer in enumerate(writers, read.index):
                yield read, index, writer

    def synchronizing(self) -> Relation:
        """29.6.5, without wait and notify."""
        return {
            (writer, read)
            for read, _, writer in self.reads_from()
            if read.order == writer.order == "SeqCst" and equal(read, writer)
        }

    def edges(
        self, agents: Sequence[Sequence[SharedEvent]], overlapping: Callable[[SharedEvent, SharedEvent], bool]
    ) -> Relation:
        """29.6.6, before it is made transitive."""
        in_agents = {pair for agent in agents for pair in itertools.combinations(agent, 2)}
        initial = {
            (one, other)
            for one in self.events
            if one.order == "Init"
            for other in self.events
            if other is not one and overlapping(one, other)
        }
        return in_agents | self.synchronizes | initial

    # ---- 29.7, valid executions: which properties are broken

    def broken(self, order: Sequence[SharedEvent]) -> set[str]:
        """The properties that the execution lacks, with this memory-order."""
        tests = {
            "reads-bytes-from": self.has_writers(),
            "strict": all((event, event) not in self.before for event in self.events),
            "chosen reads": self.has_chosen_reads(),
            "coherent reads": self.has_coherent_reads(),
            "tear free reads": self.has_tear_free_reads(),
        }
        place = {event: number for number, event in enumerate(order)}
        tests["memory-order"] = all(place[one] < place[other] for one, other in self.before)
        found = {name for name, holds in tests.items() if not holds}
        return found | {f"atomics {case}" for case in self.broken_cases(place)}

    def has_writers(self) -> bool:
        return all(
            writer.writes() and writer.has(index) and writer is not read for read, index, writer in self.reads_from()
        )

    def has_chosen_reads(self) -> bool:
        """29.7.1; the values of reads that take bytes from what doesn't write them are not looked at."""
        try:
            return not self.has_writers() or all(self.value_of(read) == self.chosen[read] for read in self.sources)
        except Endless:
            return False

    def has_coherent_reads(self) -> bool:
        """29.7.2."""
        return not any(
            (read, writer) in self.before
            or any(
                other.writes() and other.has(index) and (writer, other) in self.before and (other, read) in self.before
                for other in self.events
            )
            for read, index, writer in self.reads_from()
        )

    def has_tear_free_reads(self) -> bool:
        """29.7.3."""
        for read, writers in self.sources.items():
            whole = {writer for writer in writers if writer.no_tear and equal(writer, read)}
            if read.no_tear and len(whole) > 1:
                return False
        return True

    def broken_cases(self, place: dict[SharedEvent, int]) -> Iterator[int]:
        """29.7.4: the numbers of the conditions that some SeqCst write breaks."""
        for read, _, writer in self.reads_from():
            for other in self.events:
                between = place[writer] < place[other] < place[read]
                if other.writes() and other.order == "SeqCst" and between:
                    yield from self.conditions(read, writer, other)

    def conditions(self, read: SharedEvent, writer: SharedEvent, other: SharedEvent) -> Iterator[int]:
        after_writer = (writer, read) in self.before
        if (writer, read) in self.synchronizes and equal(read, other):
            yield 1
        if after_writer and (other, read) in self.before and writer.order == "SeqCst" and equal(writer, other):
            yield 2
        if after_writer and (writer, other) in self.before and read.order == "SeqCst" and equal(read, other):
            yield 3

    # ---- 29.8 and 29.9, races

    def has_data_race(self) -> bool:
        taken = {(read, writer) for read, _, writer in self.reads_from()}
        return any(
            self.is_data_race(one, other, taken)
            for one, other in itertools.combinations(self.events, 2)
            if "Init" not in (one.order, other.order)
        )

    def is_data_race(self, one: SharedEvent, other: SharedEvent, taken: Relation) -> bool:
        pairs = {(one, other), (other, one)}
        both_write = one.writes() and other.writes() and have_common_bytes(one, other)
        strong = one.order == other.order == "SeqCst" and equal(one, other)
        return not pairs & self.before and (both_write or bool(pairs & taken)) and not strong


def closure(events: Iterable[SharedEvent], edges: Relation) -> Relation:
    """The least transitive relation with these edges."""
    after: dict[SharedEvent, set[SharedEvent]] = {event: set() for event in events}
    for one, other in edges:
        after[one].add(other)
    found: Relation = set()
    for start in after:
        seen: set[SharedEvent] = set()
        front = list(after[start])
        while front:
            event = front.pop()
            if event not in seen:
                seen.add(event)
                front.extend(after[event] - seen)
        found.update((start, event) for event in seen)
    return found
