"""Whether some writers and some order make a log allowed, by trying all of them: for logs of a few events."""
import itertools
from collections.abc import Iterator

from .model import INIT, Event, Execution, Writer


def writers_of(read: Event, byte: int, events: list[Event]) -> list[Writer]:
    """Who left the value of a byte that was read."""
    address = read.address + byte
    writers: list[Writer] = [INIT, *(event for event in events if event is not read and event.writes(address))]
    return [event for event in writers if event.byte_written(address) == read.byte_read(byte)]


def with_writers(threads: list[list[Event]]) -> Iterator[Execution]:
    """The executions with each writer of each byte, in no order."""
    events = [event for thread in threads for event in thread]
    reads = [event for event in events if event.kind in "rx"]
    choices = [
        list(itertools.product(*(writers_of(read, byte, events) for byte in range(read.width)))) for read in reads
    ]
    for chosen in itertools.product(*choices):
        for read, writers in zip(reads, chosen):
            read.writers = list(writers)
        yield Execution(threads, events)


def count_of_writers(threads: list[list[Event]]) -> int:
    events = [event for thread in threads for event in thread]
    count = 1
    for read in events:
        for byte in range(read.width if read.kind in "rx" else 0):
            count *= len(writers_of(read, byte, events))
    return count


def has_order(execution: Execution) -> bool:
    """Whether some order of the events keeps happens-before and the rule of sequential consistency."""
    demands: dict[Event, list[tuple[object, Event]]] = {}
    for read, _, writer in execution.bytes_read():
        for other in execution.events:
            if other.is_write() and other.atomic and other is not writer and other is not read:
                if any(True for _ in execution.consistency_cases(read, writer, other)):
                    demands.setdefault(read, []).append((writer, other))

    def is_kept(read: Event, place: dict[object, int]) -> bool:
        return not any(
            writer in place and other in place and place[writer] < place[other]
            for writer, other in demands.get(read, [])
        )

    def goes_on(place: dict[object, int], left: list[Event]) -> bool:
        if not left:
            return True
        for event in left:
            if any(execution.before(other, event) for other in left if other is not event):
                continue
            if is_kept(event, place):
                rest = [other for other in left if other is not event]
                if goes_on({**place, event: len(place)}, rest):
                    return True
        return False

    return goes_on({INIT: 0}, execution.events)


def is_allowed(execution: Execution) -> bool:
    """Whether these writers are allowed in some order."""
    if execution.has_cycle():
        return False
    unordered = (execution.value_faults(), execution.coherence_faults(), execution.tearing_faults())
    return not any(True for faults in unordered for _ in faults) and has_order(execution)


def has_witness(threads: list[list[Event]]) -> bool:
    """Whether some writers and some order make the log allowed. It changes the writers of the events."""
    return any(is_allowed(execution) for execution in with_writers(threads))
