"""Every candidate execution of a test: a writer for each byte that is read, and a total order of the events."""
import re
from collections import Counter
from collections.abc import Iterable, Iterator, Mapping, Sequence
from dataclasses import dataclass, field
from functools import cache, cached_property
from itertools import islice, permutations, product
from math import factorial, prod

from wmlabtools import log

from .judges import Failed, Judge
from .orders import Access, Key, Pair, orders_of
from .tests import Event, LitmusTest

# How many candidates are asked at once; after an allowed one no more are, if only one outcome is wanted.
CHUNK = 500
MOST_ORDERS = 1_000_000
ANSWER = re.compile(r"allowed|broken V[1-5](?: case [1-3])?")


def parts_of(test: LitmusTest, event: Event) -> list[range]:
    """The bytes of an event, cut where any access of the test begins or ends."""
    cuts = {edge for other in test.events.values() for edge in (other.bytes.start, other.bytes.stop)}
    edges = sorted({event.bytes.start, event.bytes.stop} | {cut for cut in cuts if cut in event.bytes})
    return [range(start, stop) for start, stop in zip(edges, edges[1:])]


# What the observed events of each thread read.
Values = tuple[tuple[int, ...], ...]


@dataclass(frozen=True)
class Choice:
    """The writer of each byte of a read, by its key or None for the initial memory; and the value."""

    writers: tuple[Key | None, ...]
    value: int


def choices_of(test: LitmusTest, key: Key, by_byte: bool) -> Iterator[Choice]:
    """What a read may take its bytes from."""
    event = test.events[key]
    parts = parts_of(test, event)
    if by_byte:
        parts = [range(at, at + 1) for at in event.bytes]
    writers = {other: test.events[other] for other in test.events if other != key and test.events[other].writes}
    options: list[list[Key | None]]
    options = [[None, *(other for other, each in writers.items() if part.start in each.bytes)] for part in parts]
    for chosen in product(*options):
        by_address = {at: writer for part, writer in zip(parts, chosen) for at in part}
        value = sum(
            writers[writer].byte(at) << 8 * (at - event.address) for at, writer in by_address.items() if writer
        )
        yield Choice(tuple(by_address[at] for at in event.bytes), value)


def is_flag(event: Event) -> bool:
    return event.location.startswith("done")


def event_text(event: Event, choice: Choice | None) -> str:
    """An event as the log has it."""
    order = "sc" if event.access.is_atomic else "un"
    place = [order, event.address, event.access.width]
    if not event.reads or choice is None:
        return log.compact(["w", *place, event.written])
    by = [list(writer) if writer else [] for writer in choice.writers]
    if event.writes:
        return log.compact(["x", *place, choice.value, event.written, by])
    return log.compact(["r", *place, choice.value, by])


def threads_text(test: LitmusTest, chosen: Mapping[Key, Choice]) -> str:
    """The threads of a log in which each read has its choice."""
    threads = []
    for thread, events in enumerate(test.threads):
        texts = [event_text(event, chosen.get((thread, i))) for i, event in enumerate(events)]
        threads.append(f'["{test.starts[thread]}",[],["cut"],0,[{",".join(texts)}]]')
    return ",".join(threads)


def flag_pairs(test: LitmusTest, wanted: Mapping[Key, int]) -> tuple[Pair, ...]:
    """The write of each flag, and the read of it, if the read has to take its value from the write: then the write
    happens before it."""
    flags = {(event.location, event.writes): key for key, event in test.events.items() if is_flag(event)}
    pairs = [(key, flags[name, False]) for (name, writes), key in sorted(flags.items()) if writes]
    return tuple((write, read) for write, read in pairs if wanted[read])


@cache
def program_orders(lengths: tuple[int, ...], pairs: tuple[Pair, ...]) -> list[tuple[Key, ...]]:
    """Each order of the events in which every thread's are in program order, and of each pair the first event comes
    first."""
    if not any(lengths):
        return [()]
    found: list[tuple[Key, ...]] = []
    for thread, length in enumerate(lengths):
        last = (thread, length - 1)
        waits = any(one == last and other[1] < lengths[other[0]] for one, other in pairs)
        if length and not waits:
            shorter = (*lengths[:thread], length - 1, *lengths[thread + 1 :])
            found += [(*order, last) for order in program_orders(shorter, pairs)]
    return found


@cache
def order_texts(lengths: tuple[int, ...], pairs: tuple[Pair, ...]) -> list[str]:
    return [log.compact(order) for order in program_orders(lengths, pairs)]


@dataclass
class Found:
    """What came of one outcome: how many candidates had each answer, and the first allowed log."""

    answers: Counter[str] = field(default_factory=Counter)
    witness: str | None = None
    last: str | None = None

    @property
    def is_permitted(self) -> bool:
        return self.witness is not None


class Candidates:
    """The candidates of a test, as texts of logs; with `outcome`, those in which the observed events read this."""

    def __init__(
        self,
        test: LitmusTest,
        by_byte: bool = False,
        all_orders: bool = False,
        outcome: Values | None = None,
    ) -> None:
        self.test, self.reads = test, [key for key, event in test.events.items() if event.reads]
        self.wanted = self.wanted_values(outcome)
        self.choices = [self.kept_choices(key, by_byte) for key in self.reads]
        lengths = tuple(len(events) for events in test.threads)
        count = factorial(len(test.events)) // (1 if all_orders else prod(map(factorial, lengths)))
        if count > MOST_ORDERS:
            raise Failed(f"{test.name}: {count} orders of {len(test.events)} events, more than {MOST_ORDERS}")
        self.all_orders, self.lengths = all_orders, lengths

    @cached_property
    def orders(self) -> list[str]:
        """The texts of the orders."""
        if self.all_orders:
            return [log.compact(order) for order in permutations(self.test.events)]
        return order_texts(self.lengths, flag_pairs(self.test, self.wanted))

    def wanted_values(self, outcome: Values | None) -> dict[Key, int]:
        """What each read of a flag has to give, and with an outcome each observed event."""
        if outcome is None:
            return {key: event.value for key, event in self.test.events.items() if event.reads and is_flag(event)}
        observed = [key for key in self.reads if self.test.events[key].is_observed]
        return dict(zip(observed, (value for values in outcome for value in values), strict=True))

    def kept_choices(self, key: Key, by_byte: bool) -> list[Choice]:
        choices = choices_of(self.test, key, by_byte)
        if key not in self.wanted:
            return list(choices)
        return [choice for choice in choices if choice.value == self.wanted[key]]

    def count(self) -> int:
        count = len(self.orders)
        for choices in self.choices:
            count *= len(choices)
        return count

    def outcome_of(self, chosen: Sequence[Choice]) -> Values:
        """The values that the observed events of each thread read."""
        values: dict[int, list[int]] = {thread: [] for thread, _ in enumerate(self.test.threads)}
        for key, choice in zip(self.reads, chosen):
            if self.test.events[key].is_observed:
                values[key[0]].append(choice.value)
        return tuple(tuple(values[thread]) for thread in sorted(values))

    def groups(self) -> Iterator[tuple[Values, Iterator[str]]]:
        """The candidates in groups that differ in their order alone: the outcome, and the logs. Of the orders those are
        there that have to be tried (`orders`)."""
        flags = flag_pairs(self.test, self.wanted)
        accesses = {
            key: Access(event.address, event.access.width, event.access.is_atomic, event.writes)
            for key, event in self.test.events.items()
        }
        for chosen in product(*self.choices):
            by = {key: list(choice.writers) for key, choice in zip(self.reads, chosen)}
            yield self.outcome_of(chosen), self.ordered(chosen, orders_of(self.lengths, accesses, by, flags))

    def ordered(self, chosen: Sequence[Choice], orders: Iterable[str]) -> Iterator[str]:
        threads = threads_text(self.test, dict(zip(self.reads, chosen)))
        for order in orders:
            yield f'["wasm-litmus-log",2,[{threads}],{order}]'

    def __iter__(self) -> Iterator[tuple[Values, str]]:
        """Each candidate: its outcome and its log."""
        for chosen in product(*self.choices):
            outcome, threads = self.outcome_of(chosen), threads_text(self.test, dict(zip(self.reads, chosen)))
            for order in self.orders:
                yield outcome, f'["wasm-litmus-log",2,[{threads}],{order}]'


def value_text(test: LitmusTest, value: int) -> str:
    return str(value) if test.is_uniform else f"0x{value:x}"


def outcome_text(test: LitmusTest, outcome: Values) -> str:
    """An outcome: for each thread the values that it reads, `-` if none."""
    return " ".join(",".join(value_text(test, value) for value in values) or "-" for values in outcome)


def ask(candidates: Iterable[tuple[Values, str]], judge: Judge, until_allowed: bool = False) -> dict[Values, Found]:
    """What came of each outcome of some candidates. An answer other than `allowed` or a broken memory rule means that
    a candidate is not one of the test."""
    found: dict[Values, Found] = {}
    items = iter(candidates)
    while chunk := list(islice(items, CHUNK)):
        for (outcome, line), answer in zip(chunk, judge.answers([line for _, line in chunk]), strict=True):
            kind = ANSWER.match(answer)
            if not kind:
                raise Failed(f"a candidate is answered by {answer}: {line}")
            of_outcome = found.setdefault(outcome, Found())
            of_outcome.answers[kind[0]] += 1
            of_outcome.last = line
            if kind[0] == "allowed" and not of_outcome.witness:
                of_outcome.witness = line
        if until_allowed and any(each.is_permitted for each in found.values()):
            break
    return found
