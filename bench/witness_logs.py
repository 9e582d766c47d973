"""Logs for `wmlab witness`: made with a seed on a machine with store buffers, so that each has a witness."""
from __future__ import annotations

import random
from collections import deque
from collections.abc import Callable, Generator

from wmlabtools import log

WIDTH = 4
# A kind, an order, an address and a value.
Access = tuple[str, str, int, int]
# Makes accesses, and is given what the cell had before each.
Program = Generator[Access, int, None]
# Makes the programs of a log of about so many events.
Maker = Callable[[random.Random, int], list[Program]]


class Machine:
    """Cells of four bytes, and a buffer of plain stores for each thread."""

    def __init__(self, threads: int, chance: random.Random):
        self.chance = chance
        self.events: list[list[list[object]]] = [[] for _ in range(threads)]
        self.cells: dict[int, int] = {}
        self.buffers: list[deque[tuple[int, int]]] = [deque() for _ in range(threads)]

    def publish(self, thread: int) -> None:
        address, value = self.buffers[thread].popleft()
        self.cells[address] = value

    def found(self, thread: int, address: int) -> int:
        own = [value for place, value in self.buffers[thread] if place == address]
        return own[-1] if own else self.cells.get(address, 0)

    def access(self, thread: int, kind: str, order: str, address: int, value: int) -> int:
        """Makes an access. Of a kind `+` it is an atomic addition, of a kind `?` an exchange of 0 for the value, which
        is an atomic read if the cell has another."""
        if order == "sc":
            while self.buffers[thread]:
                self.publish(thread)
        old, events = self.found(thread, address), self.events[thread]
        if kind == "w":
            events.append(["w", order, address, WIDTH, value])
        elif kind == "r" or (kind == "?" and old != 0):
            events.append(["r", order, address, WIDTH, old, []])
        else:
            value = old + value if kind == "+" else value
            events.append(["x", order, address, WIDTH, old, value, []])
        if events[-1][0] != "r":
            if order == "sc":
                self.cells[address] = value
            else:
                self.buffers[thread].append((address, value))
        return old

    def run(self, programs: list[Program], count: int) -> None:
        """Makes the accesses of the programs in turns of chance, until they end or there are so many events."""
        wanted: dict[int, Access] = {}
        for thread, program in enumerate(programs):
            if (first := next(program, None)) is not None:
                wanted[thread] = first
        for _ in range(count):
            if not wanted:
                return
            thread = self.chance.choice(list(wanted))
            old = self.access(thread, *wanted.pop(thread))
            try:
                wanted[thread] = programs[thread].send(old)
            except StopIteration:
                pass
            drained = self.chance.randrange(len(programs))
            if self.buffers[drained] and self.chance.random() < 0.4:
                self.publish(drained)

    def document(self) -> bytes:
        return log.document([["t", [], ["cut"], 0, events] for events in self.events], [])


def distinct(threads: int, is_mixed: bool) -> Maker:
    """Reads and writes of 64 cells, half of them atomic, where no value is written twice. Plain and atomic accesses
    are of the same cells if they are mixed."""

    def make(chance: random.Random, count: int) -> list[Program]:
        numbers = iter(range(1, 10**9))

        def program() -> Program:
            while True:
                order, cell = chance.choice(("un", "sc")), chance.randrange(32)
                address = WIDTH * (cell if is_mixed or order == "un" else cell + 32)
                kind = chance.choice("rw")
                yield kind, order, address, next(numbers) if kind == "w" else 0

        return [program() for _ in range(threads)]

    return make


def counter(threads: int) -> Maker:
    """Atomic additions to one cell."""

    def program() -> Program:
        while True:
            yield "+", "sc", 0, 1

    return lambda chance, count: [program() for _ in range(threads)]


def spin_lock(threads: int) -> Maker:
    """A plain counter behind a lock that is taken by exchanges."""

    def program() -> Program:
        while True:
            while (yield "?", "sc", 0, 1):
                pass
            old = yield "r", "un", 8, 0
            yield "w", "un", 8, old + 1
            yield "w", "sc", 0, 0

    return lambda chance, count: [program() for _ in range(threads)]


def ticket_lock(threads: int) -> Maker:
    """A plain counter behind a lock of tickets."""

    def program() -> Program:
        while True:
            ticket = yield "+", "sc", 0, 1
            while (yield "r", "sc", 4, 0) != ticket:
                pass
            old = yield "r", "un", 8, 0
            yield "w", "un", 8, old + 1
            yield "w", "sc", 4, ticket + 1

    return lambda chance, count: [program() for _ in range(threads)]


def made(maker: Maker, count: int, seed: int) -> bytes:
    """The document of a log of so many events."""
    chance = random.Random(seed)
    programs = maker(chance, count)
    machine = Machine(len(programs), chance)
    machine.run(programs, count)
    return machine.document()


LOGS: dict[str, Maker] = {
    "distinct values, plain and atomic cells apart": distinct(16, False),
    "distinct values, plain and atomic on the same cells": distinct(16, True),
    "atomic additions to a counter": counter(4),
    "spin lock around a counter": spin_lock(4),
    "ticket lock around a counter": ticket_lock(4),
}
