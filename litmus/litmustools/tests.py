"""The test of a cycle: the events of each thread, with addresses and values, and the outcome."""
from collections.abc import Collection, Sequence
from dataclasses import dataclass
from functools import cached_property
from itertools import permutations

from .accesses import LOCATION_BYTES, Access, BadCycle
from .cycles import Cycle, cycle_of

FIRST_FLAG = 64
LOCATION_NAMES = "xyzw"
EXPORTS = "abcd"
MOST_DIGIT = 9


@dataclass(frozen=True)
class Event:
    """An access of a thread. `written` is the value that it writes, or None; `expected` is the value that it reads in
    the outcome, or None if any."""

    thread: int
    access: Access
    location: str
    address: int
    reads: bool
    written: int | None
    expected: int | None = None

    @property
    def bytes(self) -> range:
        return range(self.address, self.address + self.access.width)

    @property
    def writes(self) -> bool:
        return self.written is not None

    @property
    def is_observed(self) -> bool:
        """Whether its value is a part of the outcome. What an exchange reads for the sake of its write is not."""
        return self.expected is not None

    @property
    def value(self) -> int:
        """The value that it reads in the outcome, of which it is a part."""
        assert self.expected is not None
        return self.expected

    def byte(self, at: int) -> int:
        """The byte that it writes at an address."""
        assert self.written is not None
        return self.written >> 8 * (at - self.address) & 255


@dataclass(frozen=True)
class Location:
    """The accesses of the cycle at one location: their numbers, and the writes in the order of their values."""

    name: str
    address: int
    members: tuple[int, ...]
    order: tuple[int, ...]
    is_uniform: bool


def is_write(cycle: Cycle, k: int) -> bool:
    """Whether access k writes as a part of the cycle; an update for its read alone does not."""
    return cycle.direction(k) != "R"


def position_read(cycle: Cycle, k: int, order: Sequence[int]) -> int | None:
    """How many writes of the location, in their order, came before what read k sees; None if any; -1 if the edges
    contradict this order. An update sees what is before its own write."""
    before, after, count = cycle.edge_to(k), cycle.edges[k], len(cycle)
    own = [order.index(k)] if k in order else []
    limits = own + ([order.index((k + 1) % count)] if after.kind == "Fr" else [])
    if before.kind != "Rf":
        return min(limits) if after.kind == "Fr" else None
    source = order.index((k - 1) % count) + 1
    return source if source <= min(limits, default=source) else -1


def keeps(cycle: Cycle, order: Sequence[int], members: Sequence[int]) -> bool:
    """Whether an order of the writes agrees with the `Co`, `Rf` and `Fr` edges."""
    count = len(cycle)
    for k in members:
        if cycle.edges[k].kind == "Co" and order.index(k) > order.index((k + 1) % count):
            return False
    return all(position_read(cycle, k, order) != -1 for k in members if cycle.direction(k) != "W")


def breaks_program_order(cycle: Cycle, order: Sequence[int]) -> int:
    thread_of = {k: thread for thread, accesses in enumerate(cycle.threads()) for k in accesses}
    pairs = [(a, b) for at, a in enumerate(order) for b in order[at + 1 :]]
    return sum(thread_of[a] == thread_of[b] and a > b for a, b in pairs)


def order_of_writes(cycle: Cycle, members: Sequence[int]) -> tuple[int, ...]:
    """The order of a location's writes: one that agrees with the edges, and if possible with program order."""
    writes = [k for k in members if is_write(cycle, k)]
    orders = [order for order in permutations(writes) if keeps(cycle, order, members)]
    if not orders:
        raise BadCycle("the edges at one location contradict each other")
    return min(orders, key=lambda order: breaks_program_order(cycle, order))


def locations_of(cycle: Cycle) -> list[Location]:
    """The locations of a cycle, in the order of its accesses."""
    at = cycle.locations()
    if max(at) >= len(LOCATION_NAMES):
        raise BadCycle(f"{max(at) + 1} locations: expected at most {len(LOCATION_NAMES)}")
    found = []
    for number in range(max(at) + 1):
        members = tuple(k for k, location in enumerate(at) if location == number)
        is_uniform = len({cycle.accesses[k].range for k in members}) == 1
        order = order_of_writes(cycle, members)
        found.append(Location(LOCATION_NAMES[number], LOCATION_BYTES * number, members, order, is_uniform))
    return found


def value_of(number: int, access: Access, is_uniform: bool) -> int:
    """The value of the write of this number: the number itself, or the number in each byte."""
    return number if is_uniform else int.from_bytes(bytes([number]) * access.width, "little")


class CycleReader:
    """The events of a cycle's accesses."""

    def __init__(self, cycle: Cycle) -> None:
        self.cycle = cycle
        self.locations = locations_of(cycle)
        self.location_of = {k: location for location in self.locations for k in location.members}
        self.numbers = {k: number for location in self.locations for k, number in self.numbers_at(location)}

    def numbers_at(self, location: Location) -> list[tuple[int, int]]:
        """The number that each write of a location writes: those of the cycle first, in their order."""
        others = [k for k in location.members if k not in location.order and self.cycle.accesses[k].order == "rmw"]
        return [(k, number) for number, k in enumerate([*location.order, *others], 1)]

    def snapshot(self, location: Location, access: Access, count: int, left_out: Collection[int] = ()) -> int:
        """What an access reads after the first writes of the location, of which some are left out."""
        value = 0
        order = [k for k in location.order[:count] if k not in left_out]
        for at in access.range:
            writers = [k for k in order if at in self.cycle.accesses[k].range]
            if writers:
                byte = self.numbers[writers[-1]]
                if location.is_uniform:
                    byte = byte if at == access.offset else 0
                value |= byte << 8 * (at - access.offset)
        return value

    def later_writes(self, k: int) -> list[int]:
        """The later accesses of the thread of k, but for the one from which k reads. What k reads beside that one has
        to come from elsewhere."""
        source = (k - 1) % len(self.cycle) if self.cycle.edge_to(k).kind == "Rf" else None
        thread = next(accesses for accesses in self.cycle.threads() if k in accesses)
        return [other for other in thread if other > k and other != source]

    def event(self, k: int, thread: int) -> Event:
        location, access = self.location_of[k], self.cycle.accesses[k]
        reads = access.order == "rmw" or self.cycle.direction(k) != "W"
        written = value_of(self.numbers[k], access, location.is_uniform) if k in self.numbers else None
        expected = None
        if self.cycle.direction(k) != "W":
            position = position_read(self.cycle, k, location.order)
            later = self.later_writes(k)
            expected = None if position is None else self.snapshot(location, access, position, later)
        address = location.address + access.offset
        return Event(thread, access, location.name, address, reads, written, expected)


@dataclass(frozen=True)
class LitmusTest:
    """A test: the events of its threads. `finals` are the locations whose final value is a part of the outcome."""

    name: str
    cycle: Cycle
    threads: tuple[tuple[Event, ...], ...]
    finals: tuple[str, ...] = ()

    @cached_property
    def events(self) -> dict[tuple[int, int], Event]:
        """Every event, by thread and number."""
        return {(t, i): event for t, events in enumerate(self.threads) for i, event in enumerate(events)}

    @cached_property
    def is_uniform(self) -> bool:
        """Whether each value that is read has one decimal digit."""
        by_location: dict[str, set[range]] = {}
        for event in self.events.values():
            by_location.setdefault(event.location, set()).add(event.bytes)
        written = [event.written for event in self.events.values() if event.written is not None]
        return all(len(ranges) == 1 for ranges in by_location.values()) and max(written) <= MOST_DIGIT

    @cached_property
    def is_free_of_races(self) -> bool:
        """Whether all accesses of the cycle are atomic, those of a location of one range."""
        at, accesses = self.cycle.locations(), self.cycle.accesses
        ranges = {(location, access.range) for location, access in zip(at, accesses)}
        return all(access.is_atomic for access in accesses) and len(ranges) == len(set(at))

    @property
    def starts(self) -> list[str]:
        return list(EXPORTS[: len(self.threads)])

    def observed(self, thread: int) -> list[Event]:
        """The events of a thread whose values are in its result."""
        return [event for event in self.threads[thread] if event.is_observed]

    @property
    def cycle_values(self) -> tuple[tuple[int, ...], ...]:
        """What the observed events of each thread read in the outcome."""
        return tuple(tuple(event.value for event in self.observed(t)) for t, _ in enumerate(self.threads))

    def result(self, thread: int, values: tuple[int, ...]) -> str:
        """The result of a thread whose observed events read these values, `-` if it has none."""
        if not values:
            return "-"
        if not self.is_uniform:
            return str(int(values == self.cycle_values[thread]))
        return str(int("".join(map(str, values))))

    def results(self, values: Sequence[tuple[int, ...]]) -> str:
        """The results of all threads, as `wmlab run` prints them."""
        return " ".join(self.result(thread, each) for thread, each in enumerate(values))

    @property
    def outcome(self) -> str:
        """The results in the cycle's outcome."""
        return self.results(self.cycle_values)


def needs_final(cycle: Cycle, location: Location) -> bool:
    """Whether the order of a location's writes is a part of the outcome that only a later read shows: of two writes,
    of which a `Co` edge or a read between them makes one the first."""
    if len(location.order) < 2:
        return False
    order = location.order
    is_ordered = any(cycle.edges[k].kind == "Co" for k in location.members) or any(
        cycle.edges[k].kind == "Fr" and (position_read(cycle, k, order) or 0) > 0 for k in location.members
    )
    thread_of = {k: thread for thread, accesses in enumerate(cycle.threads()) for k in accesses}
    is_program_order = thread_of[order[0]] == thread_of[order[-1]] and order[0] < order[-1]
    return is_ordered and not is_program_order


def final_value(reader: CycleReader, location: Location) -> tuple[Access, int]:
    """The access of the final reader, a plain one of the range of the last write, and what it reads."""
    last = reader.cycle.accesses[location.order[-1]]
    access = Access("un", last.width, last.offset)
    return access, reader.snapshot(location, access, len(location.order))


def with_finals(reader: CycleReader, threads: list[list[Event]], finals: Sequence[Location]) -> None:
    """Adds the flags, and the reads of the final values, to the threads."""
    writers = {event.thread for location in finals for event in reader_events(threads, location)}
    host = max(range(len(threads)), key=lambda thread: (-len(writers - {thread}), thread))
    flag = Access("sc", 4, 0)
    for thread in sorted(writers - {host}):
        address = FIRST_FLAG + LOCATION_BYTES * thread
        threads[thread].append(Event(thread, flag, f"done{thread}", address, False, 1))
        threads[host].append(Event(host, flag, f"done{thread}", address, True, None, 1))
    for location in finals:
        access, value = final_value(reader, location)
        address = location.address + access.offset
        threads[host].append(Event(host, access, location.name, address, True, None, value))


def reader_events(threads: Sequence[Sequence[Event]], location: Location) -> list[Event]:
    return [event for events in threads for event in events if event.location == location.name and event.writes]


def test_of(cycle: Cycle | str, name: str) -> LitmusTest:
    """The test of a cycle."""
    if isinstance(cycle, str):
        cycle = cycle_of(cycle)
    reader = CycleReader(cycle)
    threads = [[reader.event(k, thread) for k in accesses] for thread, accesses in enumerate(cycle.threads())]
    if len(threads) > len(EXPORTS):
        raise BadCycle(f"{len(threads)} threads: expected at most {len(EXPORTS)}")
    finals = [location for location in reader.locations if needs_final(cycle, location)]
    if finals:
        with_finals(reader, threads, finals)
    return LitmusTest(name, cycle, tuple(tuple(events) for events in threads), tuple(each.name for each in finals))
