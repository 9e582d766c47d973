#!/usr/bin/env python3
"""Asks the built program for a witness of small random logs, and tries all writers and all orders by a plain program.

    scripts/random_witness.py [--wmlab PATH] [--count N] [--seed N]        2,000 logs, seed 1

A log has at most seven events and no witness. The plain program knows the memory model (`wmlabtools/model.py`) and
nothing of a search: it tries each writer of each byte, and of each such execution all orders. If some are allowed, the
program has to print a document of the log that the model allows; otherwise that there is no witness. It may not give
up.
The last line is `N passed, N failed`.
"""
from __future__ import annotations

import itertools
import random

from random_logs import log_event
from wmlabtools import harness
from wmlabtools.log import document
from wmlabtools.model import Event, Execution, execution_of
from wmlabtools.witnesses import count_of_writers, has_witness

MOST_EVENTS = 7
# The most ways to choose writers of a log that is tried.
MOST_WRITERS = 3_000


def random_threads(chance: random.Random) -> list[list[Event]]:
    """One to four threads of accesses of a few bytes, with the values that they write."""
    atomic = chance.choice((0, 0.2, 0.5, 0.8, 1))
    widths = chance.choice(((1,), (1,), (2,), (4,), (1, 2), (2, 4), (1, 2, 4)))
    threads: list[list[Event]] = [[] for _ in range(chance.choice((1, 2, 2, 3, 3, 4)))]
    for _ in range(chance.randint(1, MOST_EVENTS)):
        thread = chance.randrange(len(threads))
        kind = chance.choice("rrrwwwx")
        is_atomic = kind == "x" or chance.random() < atomic
        width = chance.choice(widths)
        address = chance.choice((0, 0, 2)) if chance.random() < 0.8 else chance.randint(0, 3)
        address -= address % width if is_atomic else 0
        event = Event(thread, len(threads[thread]), kind, is_atomic, address, width)
        if event.is_write():
            event.written = sum(chance.choice((0, 1, 1, 2)) << 8 * byte for byte in range(width))
        threads[thread].append(event)
    return threads


def choose_values(chance: random.Random, threads: list[list[Event]]) -> None:
    """Has each byte that is read be one that some event leaves there, mostly."""
    events = [event for thread in threads for event in thread]
    for read in events:
        if read.kind not in "rx":
            continue
        for byte in range(read.width):
            address = read.address + byte
            left = [write.byte_written(address) for write in events if write is not read and write.writes(address)]
            value = chance.choice([0, *left, *left]) if chance.random() < 0.97 else 7
            read.read |= value << 8 * byte


def threads_of(execution: Execution) -> list[object]:
    """The events of a log without their writers."""
    return [
        (event.name, event.kind, event.atomic, event.address, event.width, event.read, event.written)
        for event in execution.events
    ]


def fault_of(text: str, status: int, threads: list[list[Event]]) -> str | None:
    """What is wrong with an answer about the threads, None if nothing is."""
    if has_witness(threads):
        if status != 0:
            return f"a witness is there, and it answers {text!r}"
        found = execution_of(text)
        broken = found.first_faults()
        if broken:
            return f"its document breaks {broken[0]}: {text}"
        if threads_of(found) != threads_of(Execution(threads, [])):
            return f"its document is of another log: {text}"
        return None
    count = sum(map(len, threads))
    wanted = f"no witness threads={len(threads)} events={count}\n"
    return None if (text, status) == (wanted, 1) else f"no witness is there, and it answers {text!r}"


def case_fault(wmlab: str, _number: int, chance: random.Random) -> str | None:
    threads = random_threads(chance)
    choose_values(chance, threads)
    while count_of_writers(threads) > MOST_WRITERS:
        threads = random_threads(chance)
        choose_values(chance, threads)
    for event in itertools.chain(*threads):
        event.writers = []
    log = document([["t", [], ["cut"], 0, [log_event(event) for event in thread]] for thread in threads], [])
    text, errors, status = harness.run(wmlab, ["witness", "-"], input=log)
    if errors or status not in (0, 1):
        return f"{text}{errors} of {log!r}"
    fault = fault_of(text, status, threads)
    return f"{fault}, of {log!r}" if fault else None


def main() -> None:
    options = harness.random_arguments(__doc__, 2_000, "logs").parse_args()
    harness.try_cases(options, "a witness", case_fault)


if __name__ == "__main__":
    harness.run_script(main)
