"""The memory model of docs/MODEL.md over all events of a small execution, written separately from the crates."""
import collections
import itertools
import json
from collections.abc import Iterator
from typing import Any, NamedTuple


class Initial:
    """The initial memory: it writes a 0 to each address, before all events."""

    name: str = "init"
    atomic: bool = False

    def writes(self, _address: int) -> bool:
        return True

    def byte_written(self, _address: int) -> int:
        return 0


INIT = Initial()


class Event:
    """An event. Its kind is `r`, `w`, or `x` for an update; `writers` has the writer of each byte that it reads."""

    def __init__(self, thread: int, number: int, kind: str, atomic: bool, address: int, width: int) -> None:
        self.thread, self.number, self.kind = thread, number, kind
        self.atomic, self.address, self.width = atomic, address, width
        self.read = self.written = 0
        self.writers: list[Writer] = []
        self.name = f"{thread}.{number}"

    def is_write(self) -> bool:
        return self.kind in "wx"

    def writes(self, address: int) -> bool:
        return self.is_write() and self.address <= address < self.address + self.width

    def byte_written(self, address: int) -> int:
        return self.written >> 8 * (address - self.address) & 255

    def byte_read(self, byte: int) -> int:
        return self.read >> 8 * byte & 255

    def may_not_tear(self) -> bool:
        return self.atomic or self.width <= 4 and self.address % self.width == 0


# What writes a byte that is read.
Writer = Event | Initial


class Fault(NamedTuple):
    """A case of a rule that is broken: the read, its byte, the byte's writer, and the other write, if there is one."""

    case: int
    read: Event
    byte: int
    writer: Writer
    other: Event | None = None


def same_range(one: Writer, other: Writer) -> bool:
    return (
        isinstance(one, Event)
        and isinstance(other, Event)
        and (one.address, one.width) == (other.address, other.width)
    )


class Execution:
    """The events of each thread, and their order."""

    def __init__(self, threads: list[list[Event]], order: list[Event]) -> None:
        self.events = [event for thread in threads for event in thread]
        self.reads = [event for event in self.events if event.kind in "rx"]
        self.writers: list[Writer] = [INIT, *self.events]
        self.by_name = {event.name: event for event in self.writers}
        self.place: dict[Writer, int] = {INIT: 0, **{event: place for place, event in enumerate(order, 1)}}
        self.sequenced = {pair for thread in threads for pair in itertools.combinations(thread, 2)}
        self.synchronized = {
            (writer, read)
            for read in self.reads
            for writer in read.writers
            if isinstance(writer, Event) and writer.atomic and read.atomic and same_range(writer, read)
        }
        self.after: dict[Event, set[Event]] = collections.defaultdict(set)
        for first, last in self.sequenced | self.synchronized:
            self.after[first].add(last)
        self.distances = {event: self.distances_from(event) for event in self.events}

    def distances_from(self, start: Event) -> dict[Event, int]:
        """How many edges lead from an event to each that it happens before."""
        found: dict[Event, int] = {}
        front, length = {start}, 0
        while front:
            front, length = {later for event in front for later in self.after[event]} - found.keys(), length + 1
            found.update(dict.fromkeys(front, length))
        return found

    def distance(self, first: Writer, last: Writer) -> int | None:
        """The length of a shortest chain of happens-before, None if there is none."""
        if isinstance(last, Initial):
            return None
        return 1 if isinstance(first, Initial) else self.distances[first].get(last)

    def before(self, first: Writer, last: Writer) -> bool:
        return self.distance(first, last) is not None

    def has_cycle(self) -> bool:
        return any(self.before(event, event) for event in self.events)

    def bytes_read(self) -> Iterator[tuple[Event, int, Writer]]:
        return ((read, byte, writer) for read in self.reads for byte, writer in enumerate(read.writers))

    # ---- the faults of each rule: their case, the read, its byte, the byte's writer, and the other write

    def value_faults(self) -> Iterator[Fault]:
        for read, byte, writer in self.bytes_read():
            address = read.address + byte
            if writer is read:
                yield Fault(1, read, byte, writer)
            elif not writer.writes(address):
                yield Fault(2, read, byte, writer)
            elif writer.byte_written(address) != read.byte_read(byte):
                yield Fault(3, read, byte, writer)

    def order_faults(self) -> Iterator[Fault]:
        for case, edges in (1, self.sequenced), (2, self.synchronized):
            for first, last in edges:
                if self.place[first] >= self.place[last]:
                    yield Fault(case, last, 0 if case == 1 else last.writers.index(first), first)

    def coherence_faults(self) -> Iterator[Fault]:
        for read, byte, writer in self.bytes_read():
            if self.before(read, writer):
                yield Fault(1, read, byte, writer)
            for other in self.events:
                if other.writes(read.address + byte) and self.before(writer, other) and self.before(other, read):
                    yield Fault(2, read, byte, writer, other)

    def tearing_faults(self) -> Iterator[Fault]:
        for read, byte, writer in self.bytes_read():
            for other in read.writers[:byte]:
                if not isinstance(other, Event) or other is writer:
                    continue
                whole = [isinstance(event, Event) and event.may_not_tear() for event in (read, writer, other)]
                if all(whole) and same_range(writer, read) and same_range(other, read):
                    yield Fault(1, read, byte, writer, other)

    def consistency_faults(self) -> Iterator[Fault]:
        for read, byte, writer in self.bytes_read():
            for other in self.events:
                between = self.place[writer] < self.place[other] < self.place[read]
                if other.is_write() and other.atomic and between:
                    for case in self.consistency_cases(read, writer, other):
                        yield Fault(case, read, byte, writer, other)

    def consistency_cases(self, read: Event, writer: Writer, other: Event) -> Iterator[int]:
        reads_before = self.before(writer, read)
        if (writer, read) in self.synchronized and same_range(other, read):
            yield 1
        if reads_before and self.before(other, read) and writer.atomic and same_range(writer, other):
            yield 2
        if reads_before and self.before(writer, other) and read.atomic and same_range(other, read):
            yield 3

    def faults(self) -> dict[str, Iterator[Fault]]:
        """The faults of each rule, the rules in the order in which they are tried."""
        return {
            "V1": self.value_faults(),
            "V2": self.order_faults(),
            "V3": self.coherence_faults(),
            "V4": self.tearing_faults(),
            "V5": self.consistency_faults(),
        }

    def first_faults(self) -> tuple[str, set[Fault]] | None:
        """The first rule that is broken, with all its faults; None if none is."""
        for rule, faults in self.faults().items():
            found = set(faults)
            if found:
                return rule, found
        return None

    # ---- other writers

    def fits(self, event: Writer, read: Event, byte: int) -> bool:
        """Whether an event leaves the value of a byte that was read, and neither is the read nor comes after it in its
        thread."""
        address = read.address + byte
        later = event is read or (read, event) in self.sequenced
        return not later and event.writes(address) and event.byte_written(address) == read.byte_read(byte)

    def others_that_fit(self, read: Event, byte: int, writer: Writer) -> list[Writer]:
        return [event for event in self.writers if event is not writer and self.fits(event, read, byte)]


def execution_of(log: str | bytes) -> Execution:
    """The execution of a log of version 2."""
    _, _, logged, order = json.loads(log)
    read = [
        [event_of(thread, number, fields) for number, fields in enumerate(events)]
        for thread, (*_, events) in enumerate(logged)
    ]
    threads = [[event for event, _ in thread] for thread in read]
    for event, keys in itertools.chain(*read):
        event.writers = [threads[key[0]][key[1]] if key else INIT for key in keys]
    return Execution(threads, [threads[thread][number] for thread, number in order])


def event_of(thread: int, number: int, fields: list[Any]) -> tuple[Event, list[list[int]]]:
    """The event of these fields, without its writers, and their keys."""
    kind, order, address, width, *values = fields
    event = Event(thread, number, kind, order == "sc", address, width)
    if kind == "w":
        (event.written,), keys = values, []
    elif kind == "r":
        event.read, keys = values
    else:
        event.read, event.written, keys = values
    return event, keys
