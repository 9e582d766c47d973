#!/usr/bin/env python3
"""Compares the laws of the crates wm_standard, wm_sequential and wm_part with plain programs on random executions.

    scripts/random_laws.py [--count N] [--seed N]        4,000 executions, seed 1

An execution is an example or a run in which one access is made after the other, with some writers, values and places
changed. It is judged by the rules V1 to V5 (`wmlabtools/model.py`) and by ECMA-262 (`wmlabtools/standard.py`), which
share no code. The laws have to hold of each. So that they say something, each property of the standard has to be the
only one that some execution lacks, each rule the only one that some execution breaks, and what is no law has to fail
of some.
The last line is `N passed, N failed`.
"""
from __future__ import annotations

import argparse
import collections
import itertools
import random
from collections.abc import Callable, Iterator, Sequence

from random_logs import change_writer, run, set_byte
from wmlabtools import TOP, harness
from wmlabtools.model import INIT, Event, Execution, Initial, Writer, execution_of, same_range
from wmlabtools.standard import Candidate, SharedEvent, have_common_bytes, overlap_by_the_letter

MEMORY = 16
# The most events of an execution all of whose orders are tried.
FEW = 4
PROPERTIES = (
    "reads-bytes-from", "chosen reads", "coherent reads", "tear free reads", "memory-order", "atomics 1", "atomics 2",
    "atomics 3",
)
RULES = ("V1", "V2", "V3", "V4", "V5")
# Examples of what random accesses rarely show.
EXAMPLES = (
    "atomic-write-after-the-writer", "atomic-write-in-between", "atomic-write-known-to-the-reader",
    "overlapping-updates", "plain-store-buffering", "values-out-of-thin-air",
)


# ---- random executions


def random_threads(chance: random.Random) -> list[list[Event]]:
    """One to three threads of one to four accesses of a few bytes, without values."""
    atomic = chance.choice((0.2, 0.5, 0.9, 1))
    widths = chance.choice(((1,), (1, 2), (2,), (1, 2, 4, 8)))
    threads = []
    for thread in range(chance.choice((1, 2, 2, 2, 3))):
        events = []
        for number in range(chance.choice((1, 1, 2, 2, 3, 4))):
            kind = chance.choice("rrwwx")
            is_atomic = kind == "x" or chance.random() < atomic
            width = chance.choice(widths)
            address = chance.randint(0, 3)
            if chance.random() < 0.7:
                address -= address % width
            events.append(Event(thread, number, kind, is_atomic, address, width))
        threads.append(events)
    return threads


def change_values_in_a_ring(chance: random.Random, updates: list[Event]) -> None:
    """Has two updates take their lowest byte from each other, and leave it as they read it."""
    pair = chance.sample(updates, 2)
    for update, other in (pair, pair[::-1]):
        update.writers[0] = other
        set_byte(update, 0, 42)
        update.written = update.written & ~255 | 42


def tear(chance: random.Random, reads: list[Event], writes: list[Event]) -> None:
    """Has the bytes of a read come from two writes of its range, if there are two."""
    wholes = [(read, [write for write in writes if write is not read and same_range(write, read)]) for read in reads]
    torn = [(read, whole) for read, whole in wholes if len(whole) > 1 and read.width > 1]
    if torn:
        read, whole = chance.choice(torn)
        first, last = chance.sample(whole, 2)
        for byte in range(read.width):
            read.writers[byte] = first if byte < read.width // 2 else last
            set_byte(read, byte, read.writers[byte].byte_written(read.address + byte))


def example(chance: random.Random) -> tuple[list[list[Event]], list[Event]]:
    """The events of an example, and their order."""
    with open(f"{TOP}/examples/{chance.choice(EXAMPLES)}.json", "rb") as file:
        execution = execution_of(file.read())
    threads = [list(thread) for _, thread in itertools.groupby(execution.events, lambda event: event.thread)]
    return threads, sorted(execution.events, key=lambda event: execution.place[event])


def random_execution(chance: random.Random) -> tuple[list[list[Event]], list[Event], Execution]:
    if chance.random() < 0.1:
        threads, order = example(chance)
    else:
        threads = random_threads(chance)
        order = run(chance, threads)
    reads = [event for event in order if event.kind in "rx"]
    writes = [event for event in order if event.is_write()]
    updates = [event for event in order if event.kind == "x"]
    for _ in range(chance.choice((0, 1, 1, 2))):
        way = chance.random()
        if way > 0.7 or not reads:
            order.insert(chance.randrange(len(order)), order.pop(chance.randrange(len(order))))
        elif way > 0.6 and len(updates) > 1:
            change_values_in_a_ring(chance, updates)
        elif way > 0.55:
            set_byte(chance.choice(reads), 0, 7)
        elif way > 0.4:
            tear(chance, reads, writes)
        else:
            change_writer(chance, chance.choice(reads), writes)
    return threads, order, Execution(threads, order)


# ---- the candidate execution of a run


def bytes_of(value: int, width: int) -> tuple[int, ...]:
    return tuple(value.to_bytes(width, "little"))


def operation(chance: random.Random, event: Event) -> tuple[tuple[int, ...], Callable[..., tuple[int, ...]]]:
    """An operand and an operation by which an update makes what it wrote of what it read."""
    old, new = bytes_of(event.read, event.width), bytes_of(event.written, event.width)
    ways = (
        (new, lambda _, operand: operand),
        (tuple(a ^ b for a, b in zip(old, new)), lambda read, operand: tuple(a ^ b for a, b in zip(read, operand))),
        (
            bytes_of((event.written - event.read) % (1 << 8 * event.width), event.width),
            lambda read, operand: bytes_of(
                (int.from_bytes(read, "little") + int.from_bytes(operand, "little")) % (1 << 8 * len(read)), len(read)
            ),
        ),
    )
    return chance.choice(ways)


def shared_of(chance: random.Random, event: Event) -> SharedEvent:
    payload, modify = operation(chance, event) if event.kind == "x" else (bytes_of(event.written, event.width), None)
    aligned = event.address % event.width == 0 and event.width < 8
    return SharedEvent(
        event.name,
        {"r": "read", "w": "write", "x": "update"}[event.kind],
        "SeqCst" if event.atomic else "Unordered",
        event.atomic or aligned,
        event.address,
        event.width,
        payload,
        modify,
    )


def initial_events(size: int) -> list[SharedEvent]:
    """The Init events that write the memory, `size` bytes each."""
    starts = range(0, MEMORY, size)
    return [SharedEvent(f"init {start}", "write", "Init", True, start, size, (0,) * size) for start in starts]


def judged(
    chance: random.Random,
    threads: list[list[Event]],
    order: list[Event],
    size: int,
    overlapping: Callable[[SharedEvent, SharedEvent], bool],
) -> tuple[Candidate, list[SharedEvent]]:
    """The candidate execution of a run, and the order of its events. Each Init event writes `size` bytes, and one agent
    makes them in order."""
    initial = initial_events(size)
    shared = {event: shared_of(chance, event) for event in order}
    sources = {
        shared[event]: [
            shared[writer] if isinstance(writer, Event) else initial[index // size]
            for index, writer in enumerate(event.writers, event.address)
        ]
        for event in order
        if event.kind in "rx"
    }
    chosen = {shared[event]: bytes_of(event.read, event.width) for event in order if event.kind in "rx"}
    agents = [initial, *([shared[event] for event in thread] for thread in threads)]
    listed = [*initial, *(shared[event] for event in order)]
    return Candidate(agents, sources, chosen, overlapping), listed


# ---- what the laws speak of


def values_end(execution: Execution) -> bool:
    """Whether no chain of updates goes on for ever, each of which takes a byte from the next."""
    active: set[Event] = set()

    def ends(event: Writer) -> bool:
        if isinstance(event, Initial) or event.kind != "x":
            return True
        if event in active:
            return False
        active.add(event)
        found = all(map(ends, event.writers))
        active.remove(event)
        return found

    return all(ends(writer) for read in execution.reads for writer in read.writers)


def look_back(execution: Execution) -> bool:
    """Whether no update takes a byte from a later update."""
    place = execution.place
    return not any(
        read.kind == "x" and isinstance(writer, Event) and writer.kind == "x" and place[writer] >= place[read]
        for read in execution.reads
        for writer in read.writers
    )


def common(one: Event, other: Event) -> bool:
    return max(one.address, other.address) < min(one.address + one.width, other.address + other.width)


def races(execution: Execution) -> Iterator[tuple[Event, Event]]:
    """The races that `wmlab races` lists."""
    for one, other in itertools.combinations(execution.events, 2):
        weak = not (one.atomic and other.atomic and (one.address, one.width) == (other.address, other.width))
        writes = one.is_write() or other.is_write()
        ordered = execution.before(one, other) or execution.before(other, one)
        if writes and weak and common(one, other) and not ordered:
            yield one, other


def is_sequential(threads: list[list[Event]], order: list[Event]) -> bool:
    """Whether the order keeps that of each thread, and each byte read is that of its last write in it."""
    place = {event: number for number, event in enumerate(order)}
    if any(place[one] > place[other] for thread in threads for one, other in itertools.pairwise(thread)):
        return False
    last: dict[int, object] = {}
    for event in order:
        cells = range(event.address, event.address + event.width)
        if any(last.get(cell, INIT) is not writer for cell, writer in zip(cells, event.writers)):
            return False
        if event.is_write():
            last.update(dict.fromkeys(cells, event))
    return True


def reads_one_memory(order: list[Event]) -> bool:
    memory: dict[int, int] = {}
    for event in order:
        cells = range(event.address, event.address + event.width)
        if event.kind in "rx" and any(memory.get(cell, 0) != event.byte_read(byte) for byte, cell in enumerate(cells)):
            return False
        if event.is_write():
            memory.update({cell: event.byte_written(cell) for cell in cells})
    return True


def part_of(threads: list[list[Event]], order: list[Event], kept: set[Event]) -> tuple[list[list[Event]], list[Event]]:
    parts = [[event for event in thread if event in kept] for thread in threads]
    return parts, [event for event in order if event in kept]


def with_writers(kept: set[Event], execution: Execution, past: bool) -> set[Event]:
    """The events with the writers of their bytes, and, if `past`, with the earlier events of their threads."""
    front, found = list(kept), set(kept)
    while front:
        event = front.pop()
        more = {writer for writer in event.writers if isinstance(writer, Event)}
        more |= {first for first, last in execution.sequenced if past and last is event}
        front.extend(more - found)
        found |= more
    return found


# ---- the laws


class Case:
    """A random execution, and what the two sides say of it."""

    def __init__(self, chance: random.Random) -> None:
        self.chance = chance
        self.threads, self.order, self.execution = random_execution(chance)
        self.broken_rules = {rule for rule, faults in self.execution.faults().items() if any(True for _ in faults)}
        self.ends = values_end(self.execution)
        self.lacks = self.lacking(MEMORY, overlap_by_the_letter)
        self.races = list(races(self.execution))

    def lacking(self, size: int, overlapping: Callable[[SharedEvent, SharedEvent], bool]) -> set[str]:
        candidate, order = judged(self.chance, self.threads, self.order, size, overlapping)
        return candidate.broken(order)

    def valid(self) -> bool:
        return not self.broken_rules

    def sequential(self) -> bool:
        return is_sequential(self.threads, self.order)

    def laws(self) -> dict[str, bool]:
        """Whether each law holds of this execution."""
        valid, ends, race_free = self.valid(), self.ends, not self.races
        keeps_values = "V1" not in self.broken_rules
        return {
            "agrees with the standard": (valid and ends) == (not self.lacks),
            "agrees looking back": not look_back(self.execution) or valid == (not self.lacks),
            "agrees with Init as bytes": (valid and ends) == (not self.lacking(1, have_common_bytes)),
            "Init as bytes allows": not (valid and ends) or not self.lacking(1, overlap_by_the_letter),
            "agrees in some order": self.agrees_in_some_order(),
            "race-free runs are sequential": not (valid and race_free) or self.sequential(),
            "sequential runs are valid": not (self.sequential() and keeps_values) or valid,
            "one memory": not (self.sequential() and keeps_values) or reads_one_memory(self.order),
            "parts are valid": not valid or self.part_is_valid(),
            "parts keep happens-before": self.part_keeps_before(),
            "races show": not valid or self.races_show(),
        }

    def no_laws(self) -> dict[str, bool]:
        """Whether what is no law holds of this execution."""
        valid, sequential = self.valid(), self.sequential()
        plain = [pair for pair in self.races if not (pair[0].atomic and pair[1].atomic)]
        return {
            "values need not end": not valid or not self.lacks,
            "races of the standard are enough": not valid or self.has_standard_race() or sequential,
            "plain races are enough": not valid or bool(plain) or sequential,
            "Init as bytes is the same by the letter": self.lacking(1, overlap_by_the_letter) == self.lacks,
        }

    def has_standard_race(self) -> bool:
        candidate, _ = judged(self.chance, self.threads, self.order, MEMORY, overlap_by_the_letter)
        return candidate.has_data_race()

    def agrees_in_some_order(self) -> bool:
        if len(self.order) > FEW:
            return True
        orders = [list(order) for order in itertools.permutations(self.order)]
        by_rules = self.ends and any(not Execution(self.threads, order).first_faults() for order in orders)
        candidate, _ = judged(self.chance, self.threads, self.order, MEMORY, overlap_by_the_letter)
        named = {event.name: event for event in candidate.events}
        initial = candidate.events[0]
        return by_rules == any(
            not candidate.broken([initial, *(named[event.name] for event in order)]) for order in orders
        )

    def part_is_valid(self) -> bool:
        kept = with_writers({event for event in self.order if self.chance.random() < 0.5}, self.execution, False)
        return not Execution(*part_of(self.threads, self.order, kept)).first_faults()

    def part_keeps_before(self) -> bool:
        kept = with_writers({event for event in self.order if self.chance.random() < 0.5}, self.execution, True)
        part = Execution(*part_of(self.threads, self.order, kept))
        return all(
            self.execution.before(one, other) == (one in kept and part.before(one, other))
            for one in self.order
            for other in kept
        )

    def races_show(self) -> bool:
        """A race of an execution without a data race of the standard shows in one that is cut from it."""
        mixed = [pair for pair in self.races if pair[0].kind == "r" or pair[1].kind == "r"]
        if not mixed or self.has_standard_race():
            return True
        one, other = self.chance.choice(mixed)
        read, write = (one, other) if one.kind == "r" else (other, one)
        before = read.kind, read.read, read.written, list(read.writers)
        threads, order = self.cut(read, write)
        candidate, _ = judged(self.chance, threads, order, MEMORY, overlap_by_the_letter)
        holds = not Execution(threads, order).first_faults() and candidate.has_data_race()
        read.kind, read.read, read.written, read.writers = before
        return holds

    def cut(self, read: Event, write: Event) -> tuple[list[list[Event]], list[Event]]:
        """What happens before a read or a write, and both. The read is the last event, and takes what the write writes,
        and else the last bytes. If it is atomic, it may now write, as a compare-exchange does that no longer fails."""
        happens = self.execution.before
        kept = {event for event in self.order if event is write or happens(event, read) or happens(event, write)}
        _, earlier = part_of(self.threads, self.order, kept)
        for byte, cell in enumerate(range(read.address, read.address + read.width)):
            last: list[Writer] = [INIT, *(event for event in earlier if event.writes(cell))]
            read.writers[byte] = write if write.writes(cell) else last[-1]
            set_byte(read, byte, read.writers[byte].byte_written(cell))
        if read.atomic and self.chance.random() < 0.5:
            read.kind, read.written = "x", self.chance.getrandbits(8 * read.width)
        threads, _ = part_of(self.threads, self.order, kept | {read})
        return threads, [*earlier, read]


def compare(options: argparse.Namespace, tally: harness.Tally) -> collections.Counter[str]:
    """Tries the laws, and counts what each execution shows."""
    shown: collections.Counter[str] = collections.Counter()
    for number in range(options.count):
        case = Case(harness.chance_of(options, number))
        shown.update(f"only {name}" for name in case.lacks if len(case.lacks) == 1)
        shown.update(f"only {rule}" for rule in case.broken_rules if len(case.broken_rules) == 1)
        shown.update(name for name, holds in case.no_laws().items() if not holds)
        shown["valid"] += case.valid()
        shown["valid without a race"] += case.valid() and not case.races
        for name, holds in case.laws().items():
            tally.check(holds, name, f"case {number} of seed {options.seed}")
    return shown


def names_shown() -> Sequence[str]:
    """What some execution has to show."""
    no_laws = Case(random.Random(1)).no_laws()
    return ["valid", "valid without a race", *(f"only {name}" for name in (*PROPERTIES, *RULES)), *no_laws]


def main() -> None:
    parser = argparse.ArgumentParser(description=__doc__, formatter_class=argparse.RawDescriptionHelpFormatter)
    parser.add_argument("--count", type=int, default=4_000, help="executions")
    parser.add_argument("--seed", type=int, default=1)
    options, tally = parser.parse_args(), harness.Tally()
    shown = compare(options, tally)
    for name in names_shown():
        print(f"{name}: {shown[name]} of {options.count}")
        tally.check(shown[name] > 0, f"no execution shows: {name}")
    tally.end()


if __name__ == "__main__":
    harness.run_script(main)
