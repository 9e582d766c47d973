"""Whether an execution is sequentially consistent, by trying each order of the writes of each location.

In an order of the writes, a write is overwritten by a later one (coherence, `co`), and a read takes its bytes from
before a write that overwrites them (from-read, `fr`). The execution is sequentially consistent if, for some order,
these have no cycle with program order and reads-from.
"""
import graphlib
import itertools
import math
from collections.abc import Iterator, Sequence

from .executions import Event, Execution, Name

# More orders of the writes are not looked at.
MOST_ORDERS = 1_000
Pair = tuple[Name, Name]


def locations(execution: Execution) -> list[list[Event]]:
    """The writes, in groups of those that overlap, directly or through others."""
    groups: list[list[Event]] = []
    for event in filter(lambda event: event.writes, execution.events.values()):
        met = [group for group in groups if any(map(event.overlaps, group))]
        groups = [group for group in groups if group not in met] + [[*itertools.chain(*met), event]]
    return groups


def conflicts(execution: Execution, order: Sequence[Event]) -> Iterator[Pair]:
    """The pairs of `co` and `fr` of an order of the writes of a location."""
    for one, other in itertools.combinations(order, 2):
        if one.overlaps(other):
            yield one.name, other.name
    at = {each.name: number for number, each in enumerate(order)}
    for event in execution.events.values():
        for byte, writer in zip(event.bytes, event.writers):
            for other in order[at.get(writer, -1) + 1 :]:
                if byte in other.bytes and other is not event:
                    yield event.name, other.name


def has_cycle(pairs: Iterator[Pair]) -> bool:
    sorter: graphlib.TopologicalSorter[Name] = graphlib.TopologicalSorter()
    for one, other in pairs:
        sorter.add(other, one)
    try:
        sorter.prepare()
    except graphlib.CycleError:
        return True
    return False


def is_sequential(execution: Execution) -> bool | None:
    """Whether the execution is sequentially consistent; None if there are too many orders of its writes."""
    groups = locations(execution)
    if math.prod(math.factorial(len(group)) for group in groups) > MOST_ORDERS:
        return None
    fixed = [(edge.source, edge.target) for edge in (*execution.program_order(), *execution.reads_from())]
    orders = itertools.product(*(itertools.permutations(group) for group in groups))
    return any(
        not has_cycle(itertools.chain(fixed, *(conflicts(execution, order) for order in chosen))) for chosen in orders
    )
