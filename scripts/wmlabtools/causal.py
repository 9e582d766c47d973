"""Every causal execution of a few small threads, by trying all of them: their accesses come one after the other in each
way, and each byte that is read is one that an access before, or the initial memory, left there.

So program order with reads-from has no cycle. Which of these executions are allowed is asked of the memory model
(`model.py`), which looks for an order of its own.
"""
import itertools
from collections.abc import Iterator, Sequence
from typing import NamedTuple

from . import model
from .small_threads import Function, Request
from .witnesses import is_allowed

# The most accesses of a thread that are tried. Only a loop that waits makes more.
MOST_ACCESSES = 8
# The thread and the number of an access; None for the initial memory.
Name = tuple[int, int] | None


class Made(NamedTuple):
    """An access that was made. `read` is 0 if it only writes, `written` None if it only reads; `writers` has the writer
    of each byte that it reads."""

    atomic: bool
    address: int
    width: int
    read: int
    written: int | None
    writers: tuple[Name, ...]

    def leaves(self, address: int) -> bool:
        return self.written is not None and self.address <= address < self.address + self.width

    def byte(self, address: int) -> int:
        assert self.written is not None
        return self.written >> 8 * (address - self.address) & 255


# The accesses that each thread has made.
State = tuple[tuple[Made, ...], ...]
# The ends of the threads, as a line of outcomes has them.
Ends = tuple[str, ...]


class TooMany(Exception):
    """The threads have more states than are looked at."""


class Threads:
    """Threads that are run here. `most` is how many states are looked at; with more, TooMany is raised."""

    def __init__(self, functions: Sequence[Function], most: int) -> None:
        self.functions, self.most = functions, most
        self.asked: dict[tuple[int, tuple[int, ...]], Request | str | None] = {}

    def next_of(self, thread: int, made: Sequence[Made]) -> Request | str | None:
        """What a thread asks for after these accesses, or its end; None if it has made as many as are tried."""
        key = thread, tuple(access.read for access in made)
        if key not in self.asked:
            asked = self.functions[thread].next_after(key[1])
            self.asked[key] = asked if isinstance(asked, str) or len(made) < MOST_ACCESSES else None
        return self.asked[key]

    def finished(self) -> dict[Ends, list[State]]:
        """The executions in which all threads have ended, by their ends."""
        found: dict[Ends, list[State]] = {}
        work: list[State] = [((),) * len(self.functions)]
        seen = set(work)
        while work:
            state = work.pop()
            nexts = [self.next_of(thread, made) for thread, made in enumerate(state)]
            ends = tuple(end for end in nexts if isinstance(end, str))
            if len(ends) == len(state):
                found.setdefault(ends, []).append(state)
            for thread, asked in enumerate(nexts):
                for made in choices(asked, state) if isinstance(asked, Request) else ():
                    longer = (*state[:thread], (*state[thread], made), *state[thread + 1 :])
                    if longer not in seen:
                        seen.add(longer)
                        work.append(longer)
                    if len(seen) > self.most:
                        raise TooMany
        return found

    def outcomes(self) -> dict[Ends, list[State]]:
        """The outcomes that the model allows, each with all its executions that are allowed."""
        return {
            ends: allowed for ends, states in self.finished().items() if (allowed := [*filter(is_permitted, states)])
        }


def choices(asked: Request, state: State) -> Iterator[Made]:
    """The ways to make an access after those of a state."""
    addresses = range(asked.address, asked.address + asked.width)
    if not asked.reads:
        yield Made(asked.atomic, asked.address, asked.width, 0, asked.written(0), ())
        return
    left: list[list[tuple[Name, int]]] = [
        [(None, 0)]
        + [
            ((thread, number), made.byte(address))
            for thread, accesses in enumerate(state)
            for number, made in enumerate(accesses)
            if made.leaves(address)
        ]
        for address in addresses
    ]
    for chosen in itertools.product(*left):
        read = sum(byte << 8 * index for index, (_, byte) in enumerate(chosen))
        writers = tuple(name for name, _ in chosen)
        yield Made(asked.atomic, asked.address, asked.width, read, asked.written(read), writers)


def execution_of(state: State) -> model.Execution:
    """The execution as the model has it, in no order."""
    threads = [[event_of(thread, *item) for item in enumerate(accesses)] for thread, accesses in enumerate(state)]
    for accesses, events in zip(state, threads):
        for made, event in zip(accesses, events):
            event.writers = [threads[name[0]][name[1]] if name else model.INIT for name in made.writers]
    return model.Execution(threads, [event for events in threads for event in events])


def event_of(thread: int, number: int, made: Made) -> model.Event:
    kind = "w" if not made.writers else "r" if made.written is None else "x"
    event = model.Event(thread, number, kind, made.atomic, made.address, made.width)
    event.read, event.written = made.read, made.written or 0
    return event


def is_permitted(state: State) -> bool:
    """Whether some order makes the execution one that the model allows."""
    return is_allowed(execution_of(state))
