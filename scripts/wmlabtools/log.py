"""Log documents of both versions."""
import json
import os
from collections.abc import Sequence
from typing import Any

DOCUMENT_BYTES = 8_388_608
MAX_EVENTS = 16_384

# The thread and the number of an event; nothing for the initial memory.
Key = list[int]
# JSON lists whose items have several types, as docs/LOG_FORMAT.md has them.
LoggedEvent = list[Any]
LoggedThread = Sequence[Any]


def compact(value: object) -> str:
    """JSON text as `wmlab` prints it: without spaces."""
    return json.dumps(value, separators=(",", ":"))


def document(threads: Sequence[LoggedThread], order: Sequence[Key], version: int = 2) -> bytes:
    """The bytes of a log. A thread is its name, arguments, end, steps and events; the last item of a read or an
    update is the list of its writers, as in version 2."""
    if version == 2:
        return compact(["wasm-litmus-log", 2, threads, order]).encode()
    plain, writers = [], []
    for name, arguments, end, steps, events in threads:
        plain.append([name, arguments, end, steps, [event if event[0] == "w" else event[:-1] for event in events]])
        writers.append([[] if event[0] == "w" else event[-1] for event in events])
    return compact(["wasm-litmus-log", 1, plain, [writers, order]]).encode()


def one_thread(
    events: Sequence[LoggedEvent],
    steps: int = 0,
    end: Sequence[object] = ("cut",),
    version: int = 2,
    name: str = "a",
    arguments: Sequence[object] = (),
) -> bytes:
    """A log of one thread whose events are ordered as they are listed."""
    order = [[0, index] for index in range(len(events))]
    return document([[name, list(arguments), list(end), steps, events]], order, version)


def text_of(threads: str, rest: str, version: int = 2) -> str:
    """The text of a log whose parts are texts already."""
    return f'["wasm-litmus-log",{version},[{threads}],{rest}]'


def thread_text(events: str, steps: int = 0) -> str:
    """The text of a cut thread `a` whose events are text already."""
    return f'["a",[],["cut"],{steps},[{events}]]'


class LogBuilder:
    """A log that is put together in the order of its events. Its threads are `t`, cut after no step."""

    def __init__(self, threads: int) -> None:
        self.events: list[list[LoggedEvent]] = [[] for _ in range(threads)]
        self.order: list[Key] = []
        self.written: dict[tuple[int, ...], tuple[int, int]] = {}

    def add(self, thread: int, event: LoggedEvent) -> Key:
        key = [thread, len(self.events[thread])]
        self.events[thread].append(event)
        self.order.append(key)
        return key

    def write(self, thread: int, order: str, address: int, width: int, value: int) -> Key:
        key = self.add(thread, ["w", order, address, width, value])
        self.written[tuple(key)] = (address, value)
        return key

    def read(self, thread: int, order: str, address: int, width: int, writers: Sequence[Key]) -> None:
        """A read of what these writers wrote, one writer a byte, `[]` for the initial memory."""
        value = 0
        for byte, writer in enumerate(writers):
            if writer:
                start, written = self.written[tuple(writer)]
                value |= (written >> 8 * (address + byte - start) & 255) << 8 * byte
        self.add(thread, ["r", order, address, width, value, writers])

    def text(self, version: int = 1) -> bytes:
        return document([["t", [], ["cut"], 0, events] for events in self.events], self.order, version)

    def save(self, folder: str, name: str) -> None:
        with open(os.path.join(folder, f"{name}.json"), "wb") as file:
            file.write(self.text())
