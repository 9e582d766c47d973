"""The lines of `explain` on events and threads, written separately from the crates."""
import itertools
import json
import re
from collections.abc import Callable, Iterable, Sequence
from typing import Any, TypeVar

from .log import LoggedThread
from .model import Event, Execution, Initial, Writer, execution_of

LEGEND = ["  (T.N is event N of thread T, both from 0; init writes the initial memory)", "  place  event"]
RUN = [
    "Each thread's events and end are those of its run on the values that it read. The memory rules allow the events "
    "with these writers in this order.",
    "The threads:",
]
EVENTS = "The events in their order, with who wrote what was read:"
SITE = re.compile(r'(.*); at 0x([0-9a-f]+), instruction (\d+) of "(\w+)"')

Value = TypeVar("Value")


class Difference(Exception):
    """What the text should not have."""


def expect(holds: object, shows: str) -> None:
    if not holds:
        raise Difference(shows)


def existing(value: Value | None, shows: str) -> Value:
    """What the text should have."""
    if value is None:
        raise Difference(shows)
    return value


def expect_lines(found: Iterable[str], wanted: Iterable[str]) -> None:
    for line, expected in itertools.zip_longest(found, wanted):
        expect(line == expected, f"{line!r} in place of {expected!r}")


# ---- events


def value_text(value: int, width: int, is_hex: bool) -> str:
    return f"{value} (0x{value:0{2 * width}x})" if is_hex else str(value)


def writers_text(event: Event) -> str:
    runs = [(writer, list(run)) for writer, run in itertools.groupby(range(event.width), event.writers.__getitem__)]
    if len(runs) == 1:
        return f"from {runs[0][0].name}"
    spans = (f"byte {run[0]}" if len(run) == 1 else f"bytes {run[0]} to {run[-1]}" for _, run in runs)
    return ", ".join(f"{span} from {writer.name}" for span, (writer, _) in zip(spans, runs))


def row(execution: Execution, event: Writer, is_hex: bool) -> str:
    """The row of an event in the table."""
    start = f"{execution.place[event]:7}  {event.name}  "
    if isinstance(event, Initial):
        return start + "writes the initial memory"
    kind = {"r": "read", "w": "write", "x": "update"}[event.kind]
    count = "1 byte" if event.width == 1 else f"{event.width} bytes"
    reads = f"reads {value_text(event.read, event.width, is_hex)}"
    writes = f"writes {value_text(event.written, event.width, is_hex)}"
    does = {"r": reads, "w": writes, "x": f"{reads} and {writes}"}[event.kind]
    source = f"; read {writers_text(event)}" if event.kind != "w" else ""
    order = "atomic" if event.atomic else "plain"
    return f"{start}{order} {kind} of {count} at address {event.address}, which {does}{source}"


def rows(execution: Execution, events: Iterable[Writer]) -> list[str]:
    """The rows of these events, in the order. Values are in hex too around a read with several writers."""
    events = sorted(events, key=execution.place.__getitem__)
    accesses = [event for event in events if isinstance(event, Event)]
    mixed = [event for event in accesses if len(set(event.writers)) > 1]

    def is_hex(event: Event) -> bool:
        return any(
            event.address < read.address + read.width and read.address < event.address + event.width for read in mixed
        )

    return [row(execution, event, isinstance(event, Event) and is_hex(event)) for event in events]


# ---- a run of a module


def counted(number: int, word: str) -> str:
    return f"{number} {word}" + ("" if number == 1 else "s")


def end_text(end: Sequence[Any]) -> str:
    kind, *rest = end
    if kind == "cut":
        return "and has not ended"
    if kind == "trap":
        return f"and then it traps ({rest[0]})"
    return f"and then it returns {rest[0][0] if rest[0] else 'nothing'}"


def thread_row(number: int, thread: LoggedThread) -> str:
    """The row of a thread of a log."""
    name, arguments, end, steps, events = thread
    counts = f"{counted(steps, 'step')}, {counted(len(events), 'event')}"
    return f'  thread {number} runs "{name}" on {counted(len(arguments), "argument")}: {counts}, {end_text(end)}'


def expect_run(lines: Sequence[str], log: str | bytes, site_fault: Callable[[Event, int, int, str], object]) -> None:
    """Compares the text on the run of a log that is allowed. `site_fault` is told an event, and the offset, the number
    and the function of its instruction."""
    threads = json.loads(log)[2]
    execution = execution_of(log)
    wanted = [*RUN, *itertools.starmap(thread_row, enumerate(threads)), EVENTS]
    wanted += LEGEND if execution.events else ["  none"]
    expect_lines(lines[1 : 1 + len(wanted)], wanted)
    events = sorted(execution.events, key=execution.place.__getitem__)
    found = [SITE.fullmatch(line) for line in lines[1 + len(wanted) :]]
    sites = [site for site in found if site]
    expect(len(sites) == len(found), "a row has no instruction")
    expect_lines([site[1] for site in sites], rows(execution, events))
    for event, site in zip(events, sites):
        fault = site_fault(event, int(site[2], 16), int(site[3]), site[4])
        expect(not fault, f"{fault}: {site[0]}")
