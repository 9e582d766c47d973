"""A machine with store buffers, as `wmlab drive` has them, and the search for the shortest script with an outcome.

With `wrong` it is an engine that is wrong on purpose, for tests of the suite."""
import itertools
from collections import deque
from collections.abc import Iterable, Iterator
from dataclasses import dataclass, replace
from typing import TypeVar

from .candidates import Values
from .modules import instructions_of
from .tests import Event, LitmusTest

WRONG = {
    "plain-atomics": "atomic loads and stores are made as plain ones",
    "no-release": "an atomic store leaves earlier plain stores in their buffer",
    "torn-store": "a store becomes visible in two halves",
    "split-update": "an update is a load and, later, a store",
    "early-load": "an atomic store waits in the buffer, and later atomic loads do not wait for it",
    "stale-load": "an atomic load may answer with what the memory had before the last store",
}


# The bytes that are not 0, by their addresses; and a thread with nothing, or with the number of older stores.
Memory = tuple[tuple[int, int], ...]
Move = tuple[int, int | None]
Item = TypeVar("Item")


@dataclass(frozen=True)
class State:
    """How far each thread is, its waiting stores (the oldest first), the memory, what it was before the last store, the
    values read, and in wrong engines the stores of which a part or all is still to come."""

    done: tuple[int, ...]
    buffers: tuple[tuple[int, ...], ...]
    memory: Memory
    before: Memory
    reads: tuple[tuple[tuple[int, int], int], ...]
    halves: tuple[Event, ...] = ()


def changed(items: tuple[Item, ...], index: int, item: Item) -> tuple[Item, ...]:
    return (*items[:index], item, *items[index + 1 :])


def written(memory: Memory, event: Event, part: range | None = None) -> Memory:
    """The memory after a store, or after a part of its bytes."""
    contents = dict(memory)
    for at in part or event.bytes:
        contents[at] = event.byte(at)
    return tuple(sorted(contents.items()))


class Machine:
    """The moves of a test. A move is `(thread, None)`, its next access, or `(thread, K)`, the store with K older ones
    leaves the buffer."""

    def __init__(self, test: LitmusTest, wrong: str | None = None) -> None:
        self.test, self.wrong = test, wrong

    def start(self) -> State:
        count = len(self.test.threads)
        return State((0,) * count, ((),) * count, (), (), ())

    def is_atomic(self, event: Event) -> bool:
        if self.wrong == "plain-atomics" and not (event.reads and event.writes):
            return False
        return event.access.is_atomic

    def publish(self, state: State, thread: int, index: int) -> State:
        """The state after a store left its buffer."""
        buffer = state.buffers[thread]
        event = self.test.threads[thread][buffer[index]]
        rest = buffer[:index] + buffer[index + 1 :]
        state = replace(state, buffers=changed(state.buffers, thread, rest))
        return self.store(state, event)

    def store(self, state: State, event: Event) -> State:
        if self.wrong == "torn-store" and event.access.width > 1:
            middle = event.address + event.access.width // 2
            first = written(state.memory, event, range(event.address, middle))
            return replace(state, memory=first, before=state.memory, halves=(*state.halves, event))
        return replace(state, memory=written(state.memory, event), before=state.memory)

    def value(self, state: State, thread: int, event: Event, memory: Memory) -> int:
        contents = dict(memory)
        for index in state.buffers[thread]:
            waiting = self.test.threads[thread][index]
            contents.update((at, waiting.byte(at)) for at in waiting.bytes)
        return sum(contents.get(at, 0) << 8 * (at - event.address) for at in event.bytes)

    def drained(self, state: State, thread: int) -> State:
        while state.buffers[thread]:
            state = self.publish(state, thread, 0)
        return state

    def accesses(self, state: State, thread: int) -> Iterator[State]:
        """The states after the next access of a thread."""
        index = state.done[thread]
        event = self.test.threads[thread][index]
        state = replace(state, done=changed(state.done, thread, index + 1))
        is_atomic = self.is_atomic(event)
        waits = not is_atomic or self.wrong == "early-load"
        if event.writes and not event.reads and waits:
            buffer = (*state.buffers[thread], index)
            yield replace(state, buffers=changed(state.buffers, thread, buffer))
            return
        if is_atomic and not self.keeps_buffer(event):
            state = self.drained(state, thread)
        if not event.reads:
            yield self.store(state, event)
            return
        memories = [state.memory]
        if self.wrong == "stale-load" and is_atomic and not event.writes:
            memories.append(state.before)
        for memory in memories:
            value = self.value(state, thread, event, memory)
            after = replace(state, reads=(*state.reads, ((thread, index), value)))
            if event.writes and self.wrong == "split-update":
                yield replace(after, halves=(*after.halves, event))
            else:
                yield self.store(after, event) if event.writes else after

    def keeps_buffer(self, event: Event) -> bool:
        """Whether a wrong engine makes an atomic access while stores wait."""
        if self.wrong == "no-release":
            return event.writes and not event.reads
        return self.wrong == "early-load" and event.reads and not event.writes

    def leaves(self, state: State, thread: int) -> Iterator[int]:
        """Which stores may leave the buffer: those that overlap none of the older ones."""
        buffer, events = state.buffers[thread], self.test.threads[thread]
        if self.wrong == "early-load":
            buffer = buffer[:1]  # so that nothing but the load is early
        for k, index in enumerate(buffer):
            older = {at for other in buffer[:k] for at in events[other].bytes}
            if not older & set(events[index].bytes):
                yield k

    def moves(self, state: State) -> Iterator[tuple[Move | None, State]]:
        """Each move, with the state after it."""
        for event in state.halves:
            rest = tuple(other for other in state.halves if other is not event)
            yield None, replace(state, memory=written(state.memory, event), halves=rest)
        for thread, events in enumerate(self.test.threads):
            if state.done[thread] < len(events):
                for after in self.accesses(state, thread):
                    yield (thread, None), after
            for k in self.leaves(state, thread):
                yield (thread, k), self.publish(state, thread, k)

    def outcome(self, state: State) -> Values:
        values = dict(state.reads)
        return tuple(
            tuple(values[thread, i] for i, event in enumerate(events) if event.is_observed)
            for thread, events in enumerate(self.test.threads)
        )

    def is_done(self, state: State) -> bool:
        return all(done == len(events) for done, events in zip(state.done, self.test.threads))


def outcomes(machine: Machine, most: int = 200_000) -> dict[Values, tuple[Move | None, ...]]:
    """Every outcome of a machine, each with the shortest list of moves to it."""
    waiting: deque[tuple[State, tuple[Move | None, ...]]] = deque([(machine.start(), ())])
    seen: set[State] = set()
    found: dict[Values, tuple[Move | None, ...]] = {}
    while waiting and len(seen) < most:
        state, moves = waiting.popleft()
        key = replace(state, reads=tuple(sorted(state.reads)))
        if key in seen:
            continue
        seen.add(key)
        if machine.is_done(state):
            found.setdefault(machine.outcome(state), moves)
            continue
        waiting.extend((after, (*moves, move)) for move, after in machine.moves(state))
    return found


def repeated(turns: Iterable[str]) -> str:
    """TURNS, with `*K` for turns that are repeated."""
    runs = ((turn, len(list(run))) for turn, run in itertools.groupby(turns))
    return ",".join(turn if count == 1 else f"{turn}*{count}" for turn, count in runs)


def script(test: LitmusTest, moves: Iterable[Move]) -> str:
    """The TURNS of `wmlab drive` that make these moves, and then run each thread to its end."""
    at = [0] * len(test.threads)
    steps: list[list[int]] = []
    turns: list[str] = []
    for thread, _ in enumerate(test.threads):
        code = instructions_of(test, thread)
        steps.append([number + 1 for number, each in enumerate(code) if each.event] + [len(code) + 1])
    made = [0] * len(test.threads)
    for thread, which in moves:
        if which is None:
            to = steps[thread][at[thread]]
            turns += [str(thread)] * (to - made[thread])
            made[thread], at[thread] = to, at[thread] + 1
        else:
            turns.append(f"d{thread}/{which}" if which else f"d{thread}")
    for thread, each in enumerate(steps):
        turns += [str(thread)] * (each[-1] - made[thread])
    return repeated(turns)
