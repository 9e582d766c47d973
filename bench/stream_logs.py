"""Logs for `wmlab stream`: made with a seed on a machine with store buffers, so that each is allowed."""
import random
import re
from collections import deque

from wmlabtools import log, wasm
from wmlabtools.log import compact

FLAGS = 64
# Each turn stores its number at the first argument and loads at the second, and does so atomically 64 bytes above.
TURNS_MODULE = wasm.module_of(
    [
        wasm.body(
            bytes.fromhex(
                "0340"
                "20002002360200"
                "20012802001a"
                "20002002fe170240"
                "2001fe1002401a"
                "200241016b2102"
                "20020d00"
                "0b"
            )
        )
    ],
    types=[wasm.parameters(3)],
)


class Machine:
    """Memory cells of four bytes, and a buffer of plain stores for each thread."""

    def __init__(self, threads, chance):
        self.chance = chance
        self.events: list[list[log.LoggedEvent]] = [[] for _ in range(threads)]
        self.order: list[log.Key] = []
        self.cells: dict[int, tuple[int, log.Key]] = {}
        self.buffers: list[deque[tuple[int, int, log.Key]]] = [deque() for _ in range(threads)]

    def publish(self, thread):
        address, value, key = self.buffers[thread].popleft()
        self.cells[address] = (value, key)

    def access(self, thread, kind, order, address, value=0):
        key = [thread, len(self.events[thread])]
        if order == "sc":
            while self.buffers[thread]:
                self.publish(thread)
        self.order.append(key)
        if kind == "w":
            self.events[thread].append(["w", order, address, 4, value])
            if order == "sc":
                self.cells[address] = (value, key)
            else:
                self.buffers[thread].append((address, value, key))
            return
        own = [(stored, writer) for place, stored, writer in self.buffers[thread] if place == address]
        found, writer = own[-1] if own else self.cells.get(address, (0, []))
        self.events[thread].append(["r", order, address, 4, found, [writer] * 4])

    def run(self, programs):
        """Makes the accesses of each thread, in turns of chance."""
        left = [deque(program) for program in programs]
        while waiting := [thread for thread, program in enumerate(left) if program]:
            thread = self.chance.choice(waiting)
            self.access(thread, *left[thread].popleft())
            drained = self.chance.randrange(len(left))
            if self.buffers[drained] and self.chance.random() < 0.4:
                self.publish(drained)

    def log(self, starts):
        threads = [[name, arguments, ["cut"], 0, events] for (name, arguments), events in zip(starts, self.events)]
        return compact(["wasm-litmus-log", 2, threads, self.order])


def made_log(chance, starts, programs):
    machine = Machine(len(starts), chance)
    machine.run(programs)
    return machine.log(starts)


def store_buffering(chance):
    """A log of 4 events of examples/store-buffering.wasm."""
    programs = [[("w", "un", own, 1), ("r", "un", 4 - own)] for own in (0, 4)]
    return made_log(chance, [("a", []), ("b", [])], programs)


def in_turns(turns):
    """What makes logs of four threads with four events in each of this many turns."""

    def make(chance):
        starts, programs = [], []
        for thread in range(4):
            own, other, count = 4 * thread, 4 * ((thread + 1) % 4), chance.randrange(1, 2**20) * 4 + turns
            starts.append(("a", [own, other, count]))
            programs.append(
                [
                    access
                    for value in range(count, count - turns, -1)
                    for access in (
                        ("w", "un", own, value),
                        ("r", "un", other),
                        ("w", "sc", own + FLAGS, value),
                        ("r", "sc", other + FLAGS),
                    )
                ]
            )
        return made_log(chance, starts, programs)

    return make


def lines(make, count, seed):
    """So many logs, one a line."""
    chance = random.Random(seed)
    return "".join(f"{make(chance)}\n" for _ in range(count)).encode()


def changed(text, seed):
    """The logs with another number in each, so that most are broken or refused."""
    chance, found = random.Random(seed), []
    for line in text.splitlines():
        numbers = list(re.finditer(rb"\d+", line))
        number = chance.choice(numbers[1:])
        found.append(line[: number.start()] + b"%d" % chance.choice((0, 1, 5, 9)) + line[number.end() :])
    return b"".join(line + b"\n" for line in found)
