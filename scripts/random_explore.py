#!/usr/bin/env python3
"""Compares `wmlab explore` and `wmlab witnesses` on random modules with a plain enumeration of all causal executions.

    scripts/random_explore.py [--wmlab PATH] [--count N] [--seed N] [--kept FOLDER]        200 modules, seed 1

A module has two or three threads of a few accesses, plain and atomic, of 1 to 8 bytes, with updates, compare-exchanges,
branches on what was read, loops of at most two turns, and loops that wait by loads. The plain program
(`wmlabtools/causal.py`) makes the accesses one after the other in each way, each byte read from any that was left
there, and asks the memory model (`wmlabtools/model.py`) for an order. Each outcome that it finds has to be listed; of
half of the modules, within a few events of a thread. The last line has `all` exactly if no bound was met and all
accesses are atomic and of one width. Each document of `witnesses` has to have the outcome of its line,
to be allowed by the model and by `wmlab check`, to be causal, and to be a run of the threads.

A module that shows a difference, or takes longer than a process may, is kept in a folder. The last line is
`N passed, N failed`.
"""
from __future__ import annotations

import dataclasses
import json
import os
import random
import re
import subprocess
import tempfile
from collections.abc import Iterator, Sequence
from typing import Any, NamedTuple

from wmlabtools import harness, model
from wmlabtools.causal import Ends, State, Threads, TooMany
from wmlabtools.small_threads import Function, Place, module_of, random_functions

# The most states that the plain program looks at; a module with more is not tried.
MOST_STATES = 5_000
MANY_EVENTS = 64
BOUND = r"graphs|nodes|steps thread \d+|events thread \d+"
LAST = re.compile(rf"(?:(explored)|bounded) outcomes=(\d+) graphs=\d+(?(1)( all)?| ({BOUND}))")


class Listed(NamedTuple):
    """What `explore` prints: the bound that it met, if any, whether it says `all`, and the outcomes."""

    bound: str | None
    says_all: bool
    outcomes: list[Ends]


class Case:
    """A random module: its threads, how many events of one are asked for, and the outcomes that the plain program
    finds."""

    def __init__(self, chance: random.Random) -> None:
        self.functions = random_functions(chance)
        self.permitted: dict[Ends, list[State]] = {}
        while not self.permitted:
            try:
                permitted = Threads(self.functions, MOST_STATES).outcomes()
            except TooMany:
                permitted = {}
            # Few are left of which the threads do not meet.
            if len(permitted) > 1 or chance.random() < 0.1:
                self.permitted = permitted
            else:
                self.functions = random_functions(chance)
        self.events = chance.choice((MANY_EVENTS, chance.randint(1, 4)))
        self.module = module_of(self.functions)

    def words(self, command: str, path: str) -> list[str]:
        starts = [f"t{number}" for number, _ in enumerate(self.functions)]
        return [command, path, str(self.events), *starts]

    def wanted(self, bound: str | None) -> set[Ends]:
        """What has to be listed: if a bound was met, what has an execution within it."""
        if bound == "graphs":
            return set()
        return {
            ends
            for ends, states in self.permitted.items()
            if bound is None or any(longest(state) <= self.events for state in states)
        }


def longest(state: State) -> int:
    """The most accesses of a thread."""
    return max(map(len, state))


class Difference(Exception):
    """What differs, in a sentence."""


def expect(holds: object, sentence: str) -> None:
    if not holds:
        raise Difference(sentence)


def listed(out: str, status: int) -> Listed:
    """What the lines of `explore` have, which are sorted and differ."""
    *lines, last = out.split("\n")[:-1] or [""]
    found = LAST.fullmatch(last)
    if not found:
        raise Difference(f"the last line is {last!r}")
    explored, count, says_all, bound = found.groups()
    expect(status == (0 if explored else 1), f"{last!r} with status {status}")
    expect(all(line.startswith("outcome ") for line in lines), f"not a line of an outcome: {lines}")
    expect(lines == sorted(set(lines), key=str.encode), f"the lines are not sorted: {lines}")
    expect(int(count) == len(lines), f"{last!r} after {len(lines)} lines")
    return Listed(bound, bool(says_all), [tuple(line.split(" ")[1:]) for line in lines])


def places(part: object) -> Iterator[Place]:
    """What the accesses of some code are of."""
    if isinstance(part, Place):
        yield part
    elif isinstance(part, (list, tuple)):
        for each in part:
            yield from places(each)
    elif dataclasses.is_dataclass(part):
        for field in dataclasses.fields(part):
            yield from places(getattr(part, field.name))


def is_uniform(functions: Sequence[Function]) -> bool:
    """Whether all accesses are atomic and of one width."""
    accessed = list(places(functions))
    return all(place.atomic for place in accessed) and len({place.width for place in accessed}) <= 1


def end_text(end: Sequence[Any]) -> str:
    """The end of a thread in a document as an outcome has it."""
    kind, *what = end
    if kind == "done":
        return str(what[0][0]) if what[0] else "-"
    return ":".join([kind, *what])


def expect_run(function: Function, logged: Sequence[Any], events: Sequence[model.Event]) -> None:
    """The events of a thread are those that it makes, and its end is what it comes to."""
    reads: list[int] = []
    for event in events:
        asked = function.next_after(reads)
        expect(not isinstance(asked, str), f"{event.name} comes after the end of its thread")
        assert not isinstance(asked, str)
        written = asked.written(event.read)
        kind = "w" if not asked.reads else "r" if written is None else "x"
        found = (event.kind, event.atomic, event.address, event.width, event.written)
        made = (kind, asked.atomic, asked.address, asked.width, written or 0)
        expect(found == made, f"{event.name} is {found}, and the thread makes {made}")
        reads.append(event.read)
    end = function.next_after(reads)
    expect(end == end_text(logged[2]), f"the thread {logged} comes to {end}")


def is_causal(execution: model.Execution) -> bool:
    """Whether the events have an order in which each comes after its writers and those before it in its thread."""
    left = list(execution.events)
    while left:
        waiting = set(left)
        ready = [
            event
            for event in left
            if not any(other.thread == event.thread and other.number < event.number for other in left)
            and not (event.kind in "rx" and waiting.intersection(event.writers))
        ]
        if not ready:
            return False
        left = [event for event in left if event not in ready]
    return True


def expect_document(case: Case, ends: Ends, line: str) -> None:
    """A document is an allowed execution with these ends."""
    try:
        _, _, threads, _ = json.loads(line)
        execution = model.execution_of(line)
    except (ValueError, IndexError, TypeError) as error:
        raise Difference(f"not a log: {error}: {line}") from error
    expect(tuple(end_text(thread[2]) for thread in threads) == ends, f"the document has other ends: {line}")
    expect(is_causal(execution), f"program order with reads-from has a cycle: {line}")
    broken = execution.first_faults()
    expect(broken is None, f"the model refuses a document: {broken and broken[0]} of {line}")
    for number, (function, logged) in enumerate(zip(case.functions, threads, strict=True)):
        expect(logged[0] == f"t{number}", f"thread {number} starts as {logged[0]}")
        expect_run(function, logged, [event for event in execution.events if event.thread == number])


def compare(wmlab: str, case: Case, path: str) -> None:
    """Raises what differs between the program and the plain one."""
    out, err, status = harness.run(wmlab, case.words("explore", path))
    expect(not err, f"explore: {err}")
    found = listed(out, status)
    expect(found.bound != "nodes", f"a search gave up: {out}")
    missing = case.wanted(found.bound) - set(found.outcomes)
    expect(not missing, f"not listed: {sorted(missing)} in {out}")
    uniform = found.bound is None and is_uniform(case.functions)
    expect(found.says_all == uniform, f"{'all' if uniform else 'not all'} are covered, and it says {out}")
    documents, err, again = harness.run(wmlab, case.words("witnesses", path))
    lines = documents.split("\n")[:-1]
    expect((err, again) == ("", status), f"witnesses: status {again} after {status}: {err}")
    expect(len(lines) == len(found.outcomes), f"{len(lines)} documents for {out}")
    for ends, line in zip(found.outcomes, lines):
        expect_document(case, ends, line)
        answer = harness.run(wmlab, ["check", path, "-"], input=line.encode())
        expect(answer.printed.startswith("allowed ") and not answer.status, f"check: {answer.printed} of {line}")


def kept(folder: str, name: str, case: Case) -> str:
    """Keeps the module, and gives its path."""
    os.makedirs(folder, exist_ok=True)
    path = os.path.join(folder, name)
    with open(path, "wb") as file:
        file.write(case.module)
    return path


def main() -> None:
    parser = harness.random_arguments(__doc__, 200, "modules")
    usual = os.path.join(tempfile.gettempdir(), "wmlab-random-explore")
    parser.add_argument("--kept", metavar="FOLDER", default=usual, help=f"for a module with a difference ({usual})")
    options = parser.parse_args()

    def fault_of(wmlab: str, number: int, chance: random.Random) -> str | None:
        case = Case(chance)
        with tempfile.TemporaryDirectory() as room:
            path = os.path.join(room, "module.wasm")
            with open(path, "wb") as file:
                file.write(case.module)
            try:
                compare(wmlab, case, path)
            except (Difference, subprocess.TimeoutExpired) as difference:
                place = kept(options.kept, f"{options.seed}-{number}.wasm", case)
                return f"{difference}\n  {' '.join(case.words('wmlab explore', place))}\n  {case.functions}"
        return None

    harness.try_cases(options, "an exploration", fault_of)


if __name__ == "__main__":
    harness.run_script(main)
