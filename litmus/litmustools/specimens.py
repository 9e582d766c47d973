"""What an engine runs: a module, its threads, and what of its results is the outcome."""
from dataclasses import dataclass, field

from wmlabtools import wasm

from .conditions import Condition, conjunction
from .modules import access_of, constant
from .tests import EXPORTS, Event, LitmusTest

Outcome = tuple[int, ...]
I32, I64 = b"\x7f", b"\x7e"
MOST_NARROW = 15


@dataclass(frozen=True)
class Thread:
    """An exported function with its arguments, as decimal integers."""

    start: str
    args: tuple[str, ...] = ()

    @property
    def word(self) -> str:
        return ":".join((self.start, *self.args))


@dataclass(frozen=True)
class Column:
    """A value that an instance gives: a result of a thread, or a final value. The outcome has the observed ones."""

    name: str
    bits: int
    is_observed: bool = True


@dataclass(frozen=True)
class Final:
    """A location whose final value is a part of the outcome."""

    name: str
    address: int
    width: int


@dataclass(frozen=True)
class Logged:
    """How logs of a specimen are made that is not a cycle. `traced` gives the same results as the module that the
    engine runs; `judged` makes the same events without several results, as the judge's profile demands. With final
    values both have a last thread, which reads them after it has read the flag of each other thread."""

    traced: bytes
    judged: bytes
    threads: tuple[Thread, ...]
    has_finals: bool = False


@dataclass(frozen=True)
class Specimen:
    """A test for an engine. Columns are the results of each thread, and then the final values."""

    name: str
    origin: str
    module: bytes
    threads: tuple[Thread, ...]
    columns: tuple[Column, ...]
    finals: tuple[Final, ...] = ()
    condition: Condition | None = None
    is_narrow: bool = False
    cycle: LitmusTest | None = None
    logged: Logged | None = None
    text: str = field(default="", compare=False)

    @property
    def observed(self) -> tuple[Column, ...]:
        return tuple(column for column in self.columns if column.is_observed)

    def outcome_of(self, values: list[str]) -> Outcome:
        """The outcome that the values of all columns have."""
        return tuple(int(value) for column, value in zip(self.columns, values, strict=True) if column.is_observed)

    def named(self, outcome: Outcome) -> dict[str, tuple[int, int]]:
        """The value of each observed column, and its bits."""
        return {c.name: (value, c.bits) for c, value in zip(self.observed, outcome, strict=True)}

    def is_starred(self, outcome: Outcome) -> bool:
        """Whether the outcome satisfies the formula of the condition."""
        return self.condition is not None and self.condition.formula.holds(self.named(outcome))

    def state(self, outcome: Outcome) -> str:
        """The outcome as litmus7 prints a state."""
        shown = " ".join(f"{name}={value};" for name, (value, _) in self.named(outcome).items())
        return shown or "(nothing is observed)"


def is_flag(event: Event) -> bool:
    return event.location.startswith("done")


def split_finals(events: tuple[Event, ...]) -> tuple[list[Event], list[Event]]:
    """The events that an engine makes, and the reads of final values after the flags, which the harness makes."""
    own: list[Event] = []
    finals: list[Event] = []
    has_flags = False
    for event in events:
        if is_flag(event):
            has_flags = has_flags or event.reads
        elif has_flags:
            finals.append(event)
        else:
            own.append(event)
    return own, finals


def code_of(events: list[Event]) -> bytes:
    """The accesses, whose results stay on the stack."""
    code = b""
    for event in events:
        code += constant(event.address).code
        if event.writes:
            code += constant(event.written or 0, event.access.width).code
        code += access_of(event).code
    return code


def type_of(event: Event) -> bytes:
    return I64 if event.access.width == 8 else I32


def bare_module(threads: list[list[Event]]) -> bytes:
    """A module whose functions make the events, and have a result for each read."""
    types, kinds = [], []
    for events in threads:
        results = [type_of(event) for event in events if event.reads]
        kind = b"\x60\0" + wasm.vector(results)
        if kind not in types:
            types.append(kind)
        kinds.append(types.index(kind))
    exports = [wasm.export(name.encode(), index) for index, name in enumerate(EXPORTS[: len(threads)])]
    bodies = [wasm.body(code_of(events)) for events in threads]
    made: bytes = wasm.module_of(bodies, types, kinds, exports=exports)
    return made


def registers_of(thread: int, events: list[Event]) -> list[tuple[Column, int | None]]:
    """The columns of a thread's reads, with the values that the cycle wants. Reads that are not observed have names
    beside those of registers."""
    found: list[tuple[Column, int | None]] = []
    number = 0
    for event in events:
        if not event.reads:
            continue
        bits = 64 if event.access.width == 8 else 32
        name = f"{thread}:r{number}" if event.is_observed else f"{thread}:x{len(found)}"
        number += event.is_observed
        found.append((Column(name, bits, event.is_observed), event.expected))
    return found


def specimen_of(test: LitmusTest) -> Specimen:
    """The specimen of a cycle's test. Flags are left out, and the harness reads the final values after each batch."""
    parts = [split_finals(events) for events in test.threads]
    rows = [row for thread, (own, _) in enumerate(parts) for row in registers_of(thread, own)]
    finals = [Final(each.location, each.address, each.access.width) for _, last in parts for each in last]
    wanted = [each.expected for _, last in parts for each in last]
    rows += [(Column(final.name, 8 * final.width), value) for final, value in zip(finals, wanted, strict=True)]
    values = {column.name: value for column, value in rows if column.is_observed and value is not None}
    return Specimen(
        name=test.name,
        origin=test.cycle.text,
        module=bare_module([own for own, _ in parts]),
        threads=tuple(Thread(name) for name in test.starts),
        columns=tuple(column for column, _ in rows),
        finals=tuple(finals),
        condition=Condition("exists", conjunction(values)) if values else None,
        is_narrow=test.is_uniform,
        cycle=test,
    )
