"""The search for a script of `wmlab drive` with an outcome: which thread goes on when, and which stores leave their
buffers.

What a thread does next depends on the values that it has read alone. `wmlab trace` tells it, once for each history of a
thread; the store buffers and the memory are kept here."""
import json
import os
import re
from collections import deque
from collections.abc import Callable, Iterator, Sequence
from dataclasses import dataclass, replace
from typing import Any

from wmlabtools import harness

from .buffers import changed, repeated
from .explored import Question
from .judges import Failed

# No outcome is looked for among more states, nor is `trace` asked more often for one.
MOST_STATES = 20_000
MOST_ASKED = 1_000
# How many steps of a thread are traced to come to its next access, and then how many if it has not come.
STEPS = (50, 1_000, 20_000)
BUFFER = 64
ACCESS = re.compile(
    r"(?:read|write|update) \d+\.\d+ (plain|atomic) address=(\d+) width=(\d+)(?: read=(\d+))?(?: written=(\d+))?"
)


@dataclass(frozen=True)
class Store:
    """The bytes that a store writes."""

    address: int
    width: int
    value: int

    @property
    def bytes(self) -> range:
        return range(self.address, self.address + self.width)

    def byte(self, address: int) -> int:
        return self.value >> 8 * (address - self.address) & 255


@dataclass(frozen=True)
class Step:
    """The next access of a thread, after some steps, the last of which makes it; or its end."""

    steps: int
    end: str | None = None
    is_atomic: bool = False
    reads: bool = False
    address: int = 0
    width: int = 0
    written: int | None = None


# For each event of a thread the value that it read, None if it only wrote.
History = tuple[int | None, ...]


@dataclass(frozen=True)
class State:
    """What each thread has done, its waiting stores, and the bytes that were stored."""

    histories: tuple[History, ...]
    buffers: tuple[tuple[Store, ...], ...]
    memory: tuple[tuple[int, int], ...]

    def stored(self, thread: int, address: int) -> int | None:
        """The byte that a thread sees, if it was stored."""
        waiting = [store for store in self.buffers[thread] if address in store.bytes]
        return waiting[-1].byte(address) if waiting else dict(self.memory).get(address)

    def published(self, thread: int, index: int) -> "State":
        buffer = self.buffers[thread]
        buffers = changed(self.buffers, thread, buffer[:index] + buffer[index + 1 :])
        return replace(self, buffers=buffers, memory=with_store(self.memory, buffer[index]))

    def drained(self, thread: int) -> "State":
        state = self
        while state.buffers[thread]:
            state = state.published(thread, 0)
        return state


def with_store(memory: tuple[tuple[int, int], ...], store: Store) -> tuple[tuple[int, int], ...]:
    contents = dict(memory)
    contents.update((address, store.byte(address)) for address in store.bytes)
    return tuple(sorted(contents.items()))


def histories_of(document: str) -> list[History]:
    """The histories of the threads of a log."""
    threads: list[list[list[Any]]] = [thread[4] for thread in json.loads(document)[2]]
    return [tuple(None if event[0] == "w" else event[4] for event in thread) for thread in threads]


class Undecided(Exception):
    """A limit of the search was met."""


@dataclass(frozen=True)
class Found:
    """The TURNS, or why there are none."""

    turns: str | None
    reason: str = ""


# Whether a thread may have a history.
MayHave = Callable[[int, History], bool]


class Scripts:
    """The scripts of a module."""

    def __init__(self, question: Question) -> None:
        self.question, self.most = question, int(question.events)
        self.next_steps: dict[tuple[int, History], Step] = {}
        # What an event writes whose read is the last one of a history.
        self.after_read: dict[tuple[int, History], int | None] = {}
        self.initial: dict[int, int] = {}
        self.asked = 0

    # ---- what the program tells

    def lines(self, command: str, turns: Sequence[str]) -> list[str]:
        """What `trace` or `drive` prints."""
        question = self.question
        ran = harness.run(
            question.program, [command, question.module, repeated(turns), *question.starts], cwd=os.getcwd()
        )
        if ran.status:
            raise Failed(f"{question.program} {command}: {ran.printed.splitlines()[:1] or ran.errors}")
        return ran.printed.splitlines()

    def trace(self, turns: Sequence[str]) -> list[str]:
        self.asked += 1
        if self.asked > MOST_ASKED:
            raise Undecided(f"{MOST_ASKED:,} traces")
        return self.lines("trace", turns)

    def ask(self, state: State, turns: Sequence[str], thread: int) -> None:
        """Learns the next access of a thread, and what it reads in this state."""
        for steps in STEPS:
            *made, outcome = self.trace([*turns, *[str(thread)] * steps])[len(turns) :]
            end = outcome.split()[1 + thread]
            for count, line in enumerate(made, 1):
                access = ACCESS.search(line)
                if access:
                    return self.note(state, thread, count, access)
            if end != "cut":
                break
        key = (thread, state.histories[thread])
        self.next_steps[key] = Step(sum(" no step: " not in line for line in made), end)
        return None

    def note(self, state: State, thread: int, steps: int, access: re.Match[str]) -> None:
        address, width = int(access[2]), int(access[3])
        value, written = (None if group is None else int(group) for group in access.group(4, 5))
        is_write = value is None
        key = (thread, state.histories[thread])
        is_atomic = access[1] == "atomic"
        self.next_steps[key] = Step(steps, None, is_atomic, not is_write, address, width, written if is_write else None)
        if value is not None:
            self.after_read[thread, (*state.histories[thread], value)] = written
            for number in range(width):
                if state.stored(thread, address + number) is None:
                    self.initial[address + number] = value >> 8 * number & 255

    def next_step(self, state: State, turns: Sequence[str], thread: int) -> Step:
        key = (thread, state.histories[thread])
        if key not in self.next_steps:
            self.ask(state, turns, thread)
        return self.next_steps[key]

    def value(self, state: State, thread: int, step: Step) -> int | None:
        """What an access reads; None if it has bytes that no trace has told."""
        total = 0
        for number in range(step.width):
            address = step.address + number
            stored = state.stored(thread, address)
            byte = self.initial.get(address) if stored is None else stored
            if byte is None:
                return None
            total |= byte << 8 * number
        return total

    # ---- the moves

    def made(self, state: State, turns: Sequence[str], thread: int, step: Step) -> State:
        """The state after the next access of a thread."""
        value, written = None, step.written
        if step.reads:
            value = self.value(state, thread, step)
            if value is None or (thread, (*state.histories[thread], value)) not in self.after_read:
                self.ask(state, turns, thread)
                value = self.value(state, thread, step)
            written = self.after_read[thread, (*state.histories[thread], value)]
        state = replace(state, histories=changed(state.histories, thread, (*state.histories[thread], value)))
        state = state.drained(thread) if step.is_atomic else state
        if written is None:
            return state
        store = Store(step.address, step.width, written)
        if step.is_atomic:
            return replace(state, memory=with_store(state.memory, store))
        state = state.published(thread, 0) if len(state.buffers[thread]) == BUFFER else state
        return replace(state, buffers=changed(state.buffers, thread, (*state.buffers[thread], store)))

    def leaves(self, state: State) -> Iterator[tuple[list[str], State]]:
        """The stores that may leave their buffers: those that overlap none of the older ones."""
        for thread, buffer in enumerate(state.buffers):
            for index, store in enumerate(buffer):
                if not any(set(older.bytes) & set(store.bytes) for older in buffer[:index]):
                    yield [f"d{thread}/{index}" if index else f"d{thread}"], state.published(thread, index)

    def moves(self, state: State, turns: Sequence[str], steps: Sequence[Step]) -> Iterator[tuple[list[str], State]]:
        for thread, step in enumerate(steps):
            if step.end is None:
                if len(state.histories[thread]) >= self.most:
                    raise Undecided(f"{self.most:,} events of thread {thread}")
                yield [str(thread)] * step.steps, self.made(state, turns, thread, step)
        yield from self.leaves(state)

    # ---- the search

    def among(self, ends: Sequence[str], may_have: MayHave) -> list[str] | None:
        """The turns of a shortest list of moves to an outcome, if there is one."""
        count = len(ends)
        first = State(((),) * count, ((),) * count, ())
        waiting: deque[tuple[State, list[str]]] = deque([(first, [])])
        seen = {first}
        while waiting:
            state, turns = waiting.popleft()
            steps = [self.next_step(state, turns, thread) for thread in range(count)]
            if any(step.end not in (None, end) for step, end in zip(steps, ends)):
                continue
            if all(step.end == end for step, end in zip(steps, ends)):
                return [*turns, *(str(thread) for thread, step in enumerate(steps) for _ in range(step.steps))]
            for more, after in self.moves(state, turns, steps):
                if after in seen or not all(may_have(*each) for each in enumerate(after.histories)):
                    continue
                if len(seen) >= MOST_STATES:
                    raise Undecided(f"{MOST_STATES:,} states")
                seen.add(after)
                waiting.append((after, [*turns, *more]))
        return None

    def gives(self, turns: Sequence[str], outcome: str) -> bool:
        """Whether `drive` gives the outcome."""
        return self.lines("drive", turns)[:1] == [f"outcome {outcome}"]

    def script(self, outcome: str, histories: Sequence[History]) -> Found:
        """A script with an outcome: one in which the threads have these histories, or else any."""
        ends = outcome.split()
        self.asked, is_open = 0, ""
        for may_have in (lambda thread, made: made == histories[thread][: len(made)], lambda _thread, _made: True):
            try:
                turns = self.among(ends, may_have)
            except Undecided as limit:
                is_open = str(limit)
                continue
            if turns is not None:
                holds = self.gives(turns, outcome)
                return Found(repeated(turns)) if holds else Found(None, "its script gives another outcome")
        return Found(None, f"none was found within {is_open}" if is_open else "store buffers do not give it")
