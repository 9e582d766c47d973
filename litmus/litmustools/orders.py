"""The orders of a candidate's events that have to be tried. The rules V1, V3 and V4 do not look at the order, V2 only
at edges of happens-before, and V5 at a read, its writer and another atomic write. So orders that agree with V2 differ
for the rules only in the places of events that are in such a triple, and of those only of the atomic ones: where V5 has
a plain access in a triple, it demands an edge of happens-before too, by which V2 orders it."""
from collections.abc import Iterable, Iterator
from dataclasses import dataclass

# An event by its thread and number; and two events of which the first comes first.
Key = tuple[int, int]
Pair = tuple[Key, Key]


@dataclass(frozen=True)
class Access:
    """What V5 looks at."""

    address: int
    width: int
    is_atomic: bool
    is_write: bool

    @property
    def range(self) -> tuple[int, int]:
        return self.address, self.width


def synchronized(accesses: dict[Key, Access], writers: dict[Key, set[Key]]) -> set[Pair]:
    """Each atomic write with each atomic read of its range that reads from it."""
    found = set()
    for read, sources in writers.items():
        for writer in sources:
            one, other = accesses[writer], accesses[read]
            if one.is_atomic and other.is_atomic and one.range == other.range:
                found.add((writer, read))
    return found


def compared(accesses: dict[Key, Access], writers: dict[Key, set[Key]], from_initial: set[Key]) -> set[Key]:
    """The atomic events that V5 may compare: a read, its writer and another atomic write, which has the range of an
    atomic read, or that of an atomic writer. `from_initial` has the reads that take a byte from the initial memory."""
    writes = [key for key, access in accesses.items() if access.is_atomic and access.is_write]
    found: set[Key] = set()
    for read, sources in writers.items():
        for writer in (*sources, *([None] if read in from_initial else [])):
            for other in writes:
                if other in (writer, read):
                    continue
                by_read = accesses[read].is_atomic and accesses[other].range == accesses[read].range
                source = accesses[writer] if writer else None
                by_writer = source is not None and source.is_atomic and source.range == accesses[other].range
                if by_read or by_writer:
                    found |= {other, read, *([writer] if writer else [])}
    return {key for key in found if accesses[key].is_atomic}


class Orders:
    """The orders of events, of so many in each thread, that agree with program order and some pairs, one for each order
    of the compared events."""

    def __init__(self, lengths: tuple[int, ...], pairs: Iterable[Pair], compared_ones: Iterable[Key]) -> None:
        self.keys = [(thread, number) for thread, length in enumerate(lengths) for number in range(length)]
        self.place = {key: place for place, key in enumerate(self.keys)}
        self.before = {key: [(key[0], key[1] - 1)] if key[1] else [] for key in self.keys}
        for first, second in pairs:
            self.before[second].append(first)
        self.sorted = self.topological()
        self.all = (1 << len(self.keys)) - 1
        self.masks = {key: self.bit(key) for key in compared_ones}
        self.mask = sum(self.masks.values())
        self.earlier = self.ancestors() if len(self.sorted) == len(self.keys) else {}

    def bit(self, key: Key) -> int:
        return 1 << self.place[key]

    def topological(self) -> list[Key]:
        """The events, each after those before it; not all if there is a cycle."""
        found: list[Key] = []
        done: set[Key] = set()
        while ready := [k for k in self.keys if k not in done and all(other in done for other in self.before[k])]:
            found.append(ready[0])
            done.add(ready[0])
        return found

    def ancestors(self) -> dict[Key, int]:
        masks: dict[Key, int] = {}
        for key in self.sorted:
            masks[key] = 0
            for other in self.before[key]:
                masks[key] |= masks[other] | self.bit(other)
        return masks

    def texts(self, mask: int) -> list[str]:
        return [f"[{key[0]},{key[1]}]" for key in self.sorted if mask & self.bit(key)]

    def after(self, done: int, texts: list[str]) -> Iterator[str]:
        if not self.mask & ~done:
            yield f"[{','.join([*texts, *self.texts(self.all & ~done)])}]"
            return
        for key, bit in self.masks.items():
            if not done & bit and not self.earlier[key] & self.mask & ~done:
                new = (self.earlier[key] | bit) & ~done
                yield from self.after(done | new, [*texts, *self.texts(new)])

    def __iter__(self) -> Iterator[str]:
        if self.earlier:
            yield from self.after(0, [])


def orders_of(
    lengths: tuple[int, ...], accesses: dict[Key, Access], by: dict[Key, list[Key | None]], flags: Iterable[Pair]
) -> Iterator[str]:
    """The texts of the orders to try for these writers of each byte that is read. If all break V2, one is there."""
    writers = {read: {writer for writer in each if writer} for read, each in by.items()}
    from_initial = {read for read, each in by.items() if None in each}
    pairs = {*flags, *synchronized(accesses, writers)}
    orders = Orders(lengths, pairs, sorted(compared(accesses, writers, from_initial)))
    yield from orders if orders.earlier else Orders(lengths, flags, ())
