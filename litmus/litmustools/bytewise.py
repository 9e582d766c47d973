"""A second enumeration of candidates, written apart from `candidates`: it starts from the log of the cycle and the
values. For each byte that is read it tries each value that the byte can have and each writer of that value, and then
each order of all events, also those against program order. For tests of few events alone."""
import json
from collections.abc import Iterator, Mapping, Sequence
from itertools import permutations, product
from typing import Any, NamedTuple

from .judges import Judge


# The threads of a log, as JSON has them; and a byte of a read, with its writer.
Threads = list[list[Any]]
Option = tuple[int, list[int]]
# The values that are read, and the text of a log.
Candidate = tuple[tuple[int, ...], str]


class Write(NamedTuple):
    thread: int
    number: int
    address: int
    data: bytes


def writes_of(threads: Threads) -> list[Write]:
    """Each event that writes: its thread, number, address and bytes."""
    found = []
    for t, thread in enumerate(threads):
        for i, event in enumerate(thread[4]):
            if event[0] in "wx":
                value = event[4] if event[0] == "w" else event[5]
                found.append(Write(t, i, event[2], value.to_bytes(event[3], "little")))
    return found


def byte_options(threads: Threads, t: int, i: int) -> list[list[Option]]:
    """For each byte of a read, each value with each event that wrote it; the memory begins as zeros."""
    event = threads[t][4][i]
    options: list[list[Option]] = []
    for at in range(event[2], event[2] + event[3]):
        here: list[Option] = [(0, [])]
        for writer, number, address, data in writes_of(threads):
            if address <= at < address + len(data) and (writer, number) != (t, i):
                here.append((data[at - address], [writer, number]))
        options.append(here)
    return options


def reads_of(threads: Threads) -> list[tuple[int, int]]:
    return [(t, i) for t, thread in enumerate(threads) for i, event in enumerate(thread[4]) if event[0] in "rx"]


def with_reads(threads: Threads, chosen: Mapping[tuple[int, int], Sequence[Option]]) -> Threads:
    """The threads in which the reads have these bytes and writers."""
    copied: Threads = json.loads(json.dumps(threads))
    for (t, i), each in chosen.items():
        event = copied[t][4][i]
        event[4] = int.from_bytes(bytes(value for value, _ in each), "little")
        event[-1] = [writer for _, writer in each]
    return copied


def candidates(document: str | bytes) -> Iterator[Candidate]:
    """Every candidate of the events of a log: the values that are read, and the text of its log."""
    head, version, threads, order = json.loads(document)
    reads = reads_of(threads)
    options = [list(product(*byte_options(threads, t, i))) for t, i in reads]
    for chosen in product(*options):
        changed = with_reads(threads, dict(zip(reads, chosen)))
        values = tuple(changed[t][4][i][4] for t, i in reads)
        for each in permutations(order):
            yield values, json.dumps([head, version, changed, each])


def count(document: str | bytes) -> int:
    """How many candidates there are."""
    _, _, threads, order = json.loads(document)
    total = 1
    for number in range(1, len(order) + 1):
        total *= number
    for t, i in reads_of(threads):
        for here in byte_options(threads, t, i):
            total *= len(here)
    return total


def permitted(document: str | bytes, judge: Judge) -> set[tuple[int, ...]]:
    """The values of each outcome that has an allowed candidate."""
    found: set[tuple[int, ...]] = set()
    batch: list[Candidate] = []
    for values, line in candidates(document):
        if values not in found:
            batch.append((values, line))
        if len(batch) == 2_000:
            found |= allowed(batch, judge)
            batch = []
    return found | allowed(batch, judge)


def allowed(batch: Sequence[Candidate], judge: Judge) -> set[tuple[int, ...]]:
    answers = judge.answers([line for _, line in batch])
    return {values for (values, _), answer in zip(batch, answers, strict=True) if answer.startswith("allowed")}


def reads_of_document(document: str | bytes) -> list[tuple[int, int]]:
    """The thread and the number of each event that reads."""
    return reads_of(json.loads(document)[2])
