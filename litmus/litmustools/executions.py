"""Candidate executions of a specimen that is not a cycle: a path for each thread (litmus/harness/paths.mjs), a writer
for each byte that is read, and an order that agrees with program order."""
import base64
import json
import os
import shutil
import subprocess
from collections.abc import Collection, Iterator
from dataclasses import dataclass
from itertools import islice, product
from typing import Any

from wmlabtools import TOP, log

from .judges import Failed
from .orders import Access, Key, Pair, orders_of
from .specimens import Outcome, Specimen

COMMAND = os.path.join(TOP, "litmus/harness/paths.mjs")
Events = list[list[Any]]


@dataclass(frozen=True)
class Limits:
    """The most events of a thread, and the most paths of one; and of one if each byte that is read has a writer of its
    own."""

    events: int = 12
    paths: int = 2_000
    paths_by_byte: int = 20_000


@dataclass(frozen=True)
class Path:
    """A way in which a thread can go: its events without writers, and its results."""

    events: Events
    results: tuple[int, ...]


def path_of(row: dict[str, Any]) -> Path:
    events = [[*event[:4], *map(int, event[4:])] for event in row["events"]]
    return Path(events, tuple(map(int, row["results"])))


def asked(specimen: Specimen, limits: Limits, by_byte: bool, is_whole: bool) -> dict[str, Any]:
    """What paths.mjs answers."""
    node = shutil.which("node")
    if not node:
        raise Failed("node is not installed (Debian: nodejs)")
    assert specimen.logged
    question = {
        "module": base64.b64encode(specimen.logged.traced).decode(),
        "threads": [{"start": each.start, "args": list(each.args)} for each in specimen.logged.threads],
        "byBytes": by_byte,
        "isWhole": is_whole,
        "mostEvents": limits.events,
        "mostPaths": limits.paths_by_byte if by_byte else limits.paths,
    }
    ran = subprocess.run([node, COMMAND], input=json.dumps(question), capture_output=True, text=True, check=False)
    if ran.returncode:
        raise Failed(f"{specimen.name}: {ran.stderr.strip().splitlines()[-1] if ran.stderr.strip() else 'no paths'}")
    answer: dict[str, Any] = json.loads(ran.stdout)
    return answer


def written_of(event: list[Any]) -> bytes | None:
    value: int = event[-1]
    return None if event[0] == "r" else value.to_bytes(event[3], "little")


def accesses_of(paths: tuple[Path, ...]) -> dict[Key, Access]:
    return {
        (t, i): Access(event[2], event[3], event[1] == "sc", event[0] != "r")
        for t, path in enumerate(paths)
        for i, event in enumerate(path.events)
    }


def has_results(path: Path, wanted: list[int | None]) -> bool:
    return all(one in (None, value) for one, value in zip(wanted, path.results, strict=True))


class Executions:
    """The candidates of a specimen, as texts of logs. `is_cut` if a limit was reached, so that there may be others. If
    `is_whole`, values are left out that V4 refuses."""

    def __init__(
        self, specimen: Specimen, limits: Limits, by_byte: bool = False, is_whole: bool = False
    ) -> None:
        assert specimen.logged
        self.specimen, self.logged, self.by_byte = specimen, specimen.logged, by_byte
        answer = asked(specimen, limits, by_byte, is_whole)
        self.is_cut: bool = answer["isCut"]
        self.initial: dict[int, int] = dict(answer["initial"])
        self.paths = [[path_of(row) for row in rows if row["end"] == "done"] for rows in answer["threads"]]

    def combinations(self) -> list[tuple[Path, ...]]:
        """A path for each thread, those with the fewest events first."""
        return sorted(product(*self.paths), key=lambda paths: sum(len(path.events) for path in paths))

    def outcome_of(self, paths: tuple[Path, ...]) -> Outcome | None:
        """The outcome; nothing if the reader of the final values came before another thread's end."""
        rows = [path.results for path in paths]
        if self.logged.has_finals:
            flags = len(paths) - 1
            if any(flag != 1 for flag in rows[-1][:flags]):
                return None
            rows[-1] = rows[-1][flags:]
        return self.specimen.outcome_of([str(value) for row in rows for value in row])

    def flag_pairs(self, paths: tuple[Path, ...]) -> tuple[Pair, ...]:
        """The last write of each thread, and the read of it by the reader of the final values."""
        if not self.logged.has_finals:
            return ()
        last = len(paths) - 1
        return tuple(((thread, len(path.events) - 1), (last, thread)) for thread, path in enumerate(paths[:-1]))

    def options(self, paths: tuple[Path, ...], key: Key) -> list[list[list[int]]]:
        """The writers, byte by byte, that a read may have for its value."""
        _, _, address, width, value, *_ = paths[key[0]].events[key[1]]
        read: bytes = value.to_bytes(width, "little")
        writes: list[tuple[list[int], int, bytes]] = []
        for thread, path in enumerate(paths):
            for number, event in enumerate(path.events):
                data = written_of(event)
                if data is not None and (thread, number) != key:
                    writes.append(([thread, number], event[2], data))
        edges = {address, address + width} | (set(range(address, address + width)) if self.by_byte else set())
        edges |= {edge for _, at, data in writes for edge in (at, at + len(data)) if address < edge < address + width}
        sorted_edges, found = sorted(edges), []
        for start, stop in zip(sorted_edges, sorted_edges[1:]):
            part = read[start - address : stop - address]
            here = [by for by, at, data in writes if at <= start and data[start - at : stop - at] == part]
            if part == bytes(self.initial.get(at, 0) for at in range(start, stop)):
                here.insert(0, [])
            found.append([[by] * (stop - start) for by in here])
        return [[by for piece in pieces for by in piece] for pieces in product(*found)]

    def logs_of(self, paths: tuple[Path, ...]) -> Iterator[Iterator[str]]:
        """The logs of paths, those that differ in their order alone together. Of the orders those are there that have
        to be tried (`orders`)."""
        keys = [(t, i) for t, path in enumerate(paths) for i, event in enumerate(path.events) if event[0] != "w"]
        choices = [self.options(paths, key) for key in keys]
        lengths, flags, accesses = tuple(len(path.events) for path in paths), self.flag_pairs(paths), accesses_of(paths)
        for chosen in product(*choices):
            writers = dict(zip(keys, chosen))
            by = {key: [(each[0], each[1]) if each else None for each in bytes_by] for key, bytes_by in writers.items()}
            yield self.ordered(self.threads_text(paths, writers), orders_of(lengths, accesses, by, flags))

    def ordered(self, threads: str, orders: Iterator[str]) -> Iterator[str]:
        for order in orders:
            yield f'["wasm-litmus-log",2,[{threads}],{order}]'

    def wanted_results(self, outcome: Outcome) -> list[list[int | None]]:
        """What the results of each thread are in an outcome, None if any; the reader of the final values, the last
        thread, first reads 1 from the flag of each other one."""
        rest = iter(outcome)
        values = iter([next(rest) if column.is_observed else None for column in self.specimen.columns])
        last, found = len(self.paths) - 1, []
        for thread, paths in enumerate(self.paths):
            flags: list[int | None] = [1] * last if self.logged.has_finals and thread == last else []
            count = len(paths[0].results) - len(flags) if paths else 0
            found.append([*flags, *islice(values, count)])
        return found

    def logs_of_values(self, outcome: Outcome) -> Iterator[str]:
        """A log for each choice of the threads' paths that gives an outcome; its writers and its order are not meant
        (`witnesses`). With the option `by_byte` these are all values that its reads may have, unless `is_cut`."""
        kept = [
            [path for path in paths if has_results(path, wanted)]
            for paths, wanted in zip(self.paths, self.wanted_results(outcome))
        ]
        for paths in product(*kept):
            keys = [(t, i) for t, path in enumerate(paths) for i, _ in enumerate(path.events)]
            nobody: dict[Key, list[list[int]]] = {
                (t, i): [[]] * paths[t].events[i][3] for t, i in keys if paths[t].events[i][0] != "w"
            }
            yield f'["wasm-litmus-log",2,[{self.threads_text(paths, nobody)}],{log.compact(keys)}]'

    def threads_text(self, paths: tuple[Path, ...], writers: dict[Key, list[list[int]]]) -> str:
        rows = []
        for t, (path, thread) in enumerate(zip(paths, self.logged.threads, strict=True)):
            events = [[*e, writers[t, i]] if (t, i) in writers else e for i, e in enumerate(path.events)]
            args = [int(arg) for arg in thread.args]
            rows.append(f'["{thread.start}",{log.compact(args)},["cut"],0,{log.compact(events)}]')
        return ",".join(rows)

    def groups(self, known: Collection[Outcome] = ()) -> Iterator[tuple[Outcome, Iterator[str]]]:
        """The candidates in groups that differ in their order alone: the outcome, which is none of the known ones, and
        the logs."""
        for paths in self.combinations():
            outcome = self.outcome_of(paths)
            if outcome is not None and outcome not in known:
                for lines in self.logs_of(paths):
                    yield outcome, lines
