"""Random threads of a few accesses: their code in a module, and what runs them here, access by access.

All locals are i64. A thread ends with a number that its locals give, without a result, or with a trap.
"""
from collections.abc import Callable, Generator, Sequence
from dataclasses import dataclass
from random import Random
from typing import Protocol

from . import wasm
from .programs import BINARY, CONVERSIONS, END, EMPTY, I32, I64, PREFIX, UPDATES, constant

LOCALS = 3
# The result of a thread has its locals as digits of this base, which is odd: so each counts.
BASE = 1_000_003
BITS = 64
# Opcodes on i64 by the width of the access in bytes. Those of atomic accesses follow the first of their kind.
LOADS = {1: 0x31, 2: 0x33, 4: 0x35, 8: 0x29}
STORES = {1: 0x3C, 2: 0x3D, 4: 0x3E, 8: 0x37}
ATOMIC_LOAD, ATOMIC_STORE, COMPARE_EXCHANGE = 0x10, 0x17, {4: 0x48, 8: 0x49}
AFTER_FIRST = {1: 4, 2: 5, 4: 6, 8: 1}
I32_ADD, I32_MULTIPLY, I32_AND = (bytes([BINARY[I32][index]]) for index in (0, 2, 7))
ADD, MULTIPLY, EQUAL = bytes([BINARY[I64][0]]), bytes([BINARY[I64][2]]), b"\x51"
(TO_I32,), (_, TO_I64) = CONVERSIONS[I32], CONVERSIONS[I64]
IF, LOOP, BRANCH_IF, UNREACHABLE = b"\x04" + EMPTY, b"\x03" + EMPTY, b"\x0d\0", b"\0"


class Trapped(Exception):
    """A thread traps; the argument is how, as an outcome names it."""


@dataclass(frozen=True)
class Request:
    """An access that a thread asks for. `written` is given what it reads, 0 if it only writes, and has what it writes
    then: nothing if it only reads."""

    reads: bool
    atomic: bool
    address: int
    width: int
    written: Callable[[int], int | None]


# What a thread does: it asks for accesses, and is told what each reads.
Running = Generator[Request, int, None]


@dataclass(frozen=True)
class Value:
    """A constant, with a local added if one is named."""

    constant: int
    local: int | None = None

    def of(self, values: Sequence[int]) -> int:
        return (self.constant + (0 if self.local is None else values[self.local])) % (1 << BITS)

    def code(self) -> bytes:
        plain = constant(I64, self.constant)
        return plain if self.local is None else plain + get(self.local) + ADD


@dataclass(frozen=True)
class Place:
    """What is accessed: `width` bytes at an address, to which `step` is added if the lowest bit of a local is set."""

    width: int
    atomic: bool
    address: int
    step: int = 0
    local: int = 0

    def asked(self, values: Sequence[int], reads: bool, written: Callable[[int], int | None]) -> Request:
        address = self.address + self.step * (values[self.local] & 1)
        if self.atomic and address % self.width:
            raise Trapped("unaligned")
        return Request(reads, self.atomic, address, self.width, written)

    def code(self) -> bytes:
        """The address."""
        if not self.step:
            return constant(I32, self.address)
        bit = get(self.local) + TO_I32 + constant(I32, 1) + I32_AND
        return bit + constant(I32, self.step) + I32_MULTIPLY + constant(I32, self.address) + I32_ADD

    def instruction(self, plain: int, first_atomic: int) -> bytes:
        """The access itself, of a plain opcode or of the kind of an atomic one."""
        if self.atomic:
            return self.atomic_instruction(first_atomic + AFTER_FIRST[self.width])
        return bytes([plain, 0, 0])

    def atomic_instruction(self, opcode: int) -> bytes:
        return PREFIX + bytes([opcode, self.width.bit_length() - 1, 0])

    def cut(self, value: int) -> int:
        """The bytes of a value that the access takes."""
        return value % (1 << 8 * self.width)


def get(local: int) -> bytes:
    return b"\x20" + wasm.number(local)


def put(local: int) -> bytes:
    return b"\x21" + wasm.number(local)


class Statement(Protocol):
    """A part of a thread's code."""

    def code(self) -> bytes:
        """Its instructions, which leave nothing on the stack."""

    def run(self, values: list[int]) -> Running:
        """What it does with these values of the locals, and to them."""


@dataclass(frozen=True)
class Load:
    target: int
    place: Place

    def code(self) -> bytes:
        return self.place.code() + self.place.instruction(LOADS[self.place.width], ATOMIC_LOAD) + put(self.target)

    def run(self, values: list[int]) -> Running:
        values[self.target] = yield self.place.asked(values, True, lambda _: None)


@dataclass(frozen=True)
class Store:
    place: Place
    value: Value

    def code(self) -> bytes:
        access = self.place.instruction(STORES[self.place.width], ATOMIC_STORE)
        return self.place.code() + self.value.code() + access

    def run(self, values: list[int]) -> Running:
        written = self.place.cut(self.value.of(values))
        yield self.place.asked(values, False, lambda _: written)


# What an update writes, by what it reads and its operand; in the order of the opcodes.
OPERATORS: tuple[Callable[[int, int], int], ...] = (
    lambda read, operand: read + operand,
    lambda read, operand: read - operand,
    lambda read, operand: read & operand,
    lambda read, operand: read | operand,
    lambda read, operand: read ^ operand,
    lambda read, operand: operand,
)


@dataclass(frozen=True)
class Update:
    """An atomic update; `operator` is the index of what it does."""

    target: int
    place: Place
    operator: int
    operand: Value

    def code(self) -> bytes:
        access = self.place.atomic_instruction(UPDATES[self.operator] + AFTER_FIRST[self.place.width])
        return self.place.code() + self.operand.code() + access + put(self.target)

    def run(self, values: list[int]) -> Running:
        operand, operate = self.operand.of(values), OPERATORS[self.operator]
        values[self.target] = yield self.place.asked(values, True, lambda read: self.place.cut(operate(read, operand)))


@dataclass(frozen=True)
class CompareExchange:
    """Of 4 or 8 bytes. It writes only if it reads what it expects."""

    target: int
    place: Place
    expected: int
    value: Value

    def code(self) -> bytes:
        is_wide = self.place.width == 8
        expected = constant(I64 if is_wide else I32, self.expected)
        value = self.value.code() + (b"" if is_wide else TO_I32)
        access = self.place.atomic_instruction(COMPARE_EXCHANGE[self.place.width]) + (b"" if is_wide else TO_I64)
        return self.place.code() + expected + value + access + put(self.target)

    def run(self, values: list[int]) -> Running:
        value = self.place.cut(self.value.of(values))

        def written(read: int) -> int | None:
            return value if read == self.expected else None

        values[self.target] = yield self.place.asked(values, True, written)


@dataclass(frozen=True)
class Branch:
    """One part if a local has a value, else the other one."""

    local: int
    value: int
    first: tuple[Statement, ...]
    second: tuple[Statement, ...]

    def code(self) -> bytes:
        return is_equal(self.local, self.value) + IF + code_of(self.first) + b"\x05" + code_of(self.second) + END

    def run(self, values: list[int]) -> Running:
        yield from run_all(self.first if values[self.local] == self.value else self.second, values)


@dataclass(frozen=True)
class Again:
    """A loop: a part, and the part once more if a local has a value then. The counter is a local of its own."""

    body: tuple[Statement, ...]
    local: int
    value: int
    counter: int

    def code(self) -> bytes:
        counted = get(self.counter) + constant(I64, 1) + ADD + put(self.counter)
        goes_on = is_equal(self.local, self.value) + is_equal(self.counter, 1) + I32_AND + BRANCH_IF
        return LOOP + code_of(self.body) + counted + goes_on + END

    def run(self, values: list[int]) -> Running:
        yield from run_all(self.body, values)
        if values[self.local] == self.value:
            yield from run_all(self.body, values)


@dataclass(frozen=True)
class Spin:
    """A loop that waits: a part that only reads, again as long as a local has a value."""

    body: tuple[Statement, ...]
    local: int
    value: int

    def code(self) -> bytes:
        return LOOP + code_of(self.body) + is_equal(self.local, self.value) + BRANCH_IF + END

    def run(self, values: list[int]) -> Running:
        yield from run_all(self.body, values)
        while values[self.local] == self.value:
            yield from run_all(self.body, values)


@dataclass(frozen=True)
class Trap:
    """An `unreachable`."""

    def code(self) -> bytes:
        return UNREACHABLE

    def run(self, _values: list[int]) -> Running:
        raise Trapped("unreachable")
        yield


def is_equal(local: int, value: int) -> bytes:
    return get(local) + constant(I64, value) + EQUAL


def code_of(statements: Sequence[Statement]) -> bytes:
    return b"".join(statement.code() for statement in statements)


def run_all(statements: Sequence[Statement], values: list[int]) -> Running:
    for statement in statements:
        yield from statement.run(values)


@dataclass(frozen=True)
class Function:
    """What a thread runs. Each loop has a counter of its own among the further locals."""

    statements: tuple[Statement, ...]
    has_result: bool
    counters: int

    def type(self) -> bytes:
        return b"\x60\0" + wasm.vector([bytes([I64])] if self.has_result else [])

    def body(self) -> bytes:
        result = constant(I64, 0)
        for local in range(LOCALS):
            result += constant(I64, BASE) + MULTIPLY + get(local) + ADD
        locals_entry = wasm.vector([wasm.number(LOCALS + self.counters) + bytes([I64])])
        return wasm.sized(locals_entry + code_of(self.statements) + (result if self.has_result else b"") + END)

    def result_of(self, values: Sequence[int]) -> str:
        """The end of a thread that returns, as an outcome has it."""
        result = 0
        for value in values[:LOCALS]:
            result = (result * BASE + value) % (1 << BITS)
        return str(result) if self.has_result else "-"

    def next_after(self, reads: Sequence[int]) -> Request | str:
        """What the thread asks for after accesses that read this (0 for one that only writes), or how it ended."""
        values = [0] * LOCALS
        running = run_all(self.statements, values)
        try:
            asked = next(running)
            for read in reads:
                asked = running.send(read)
            return asked
        except StopIteration:
            return self.result_of(values)
        except Trapped as trap:
            return f"trap:{trap}"


def module_of(functions: Sequence[Function]) -> bytes:
    """A module that exports the functions as `t0`, `t1` and so on."""
    return wasm.module_of(
        [function.body() for function in functions],
        types=[function.type() for function in functions],
        kinds=list(range(len(functions))),
        exports=[wasm.export(b"t%d" % index, index) for index in range(len(functions))],
    )


class Writer:
    """Draws the functions of a module, whose accesses meet at a few bytes."""

    def __init__(self, chance: Random) -> None:
        self.chance = chance
        self.atomic = chance.choice((0, 0.3, 0.5, 0.8, 1))
        self.widths = chance.choice(((1,), (1, 2), (2,), (4,), (1, 4), (2, 4), (8,), (4, 8)))
        self.counters = 0

    def function(self, accesses: int) -> Function:
        """One of at most this many accesses, those of two arms and of a loop's further turns not counted."""
        self.counters = 0
        statements = self.statements(accesses)
        return Function(statements, self.chance.random() < 0.9, self.counters)

    def statements(self, accesses: int, depth: int = 0) -> tuple[Statement, ...]:
        found: list[Statement] = []
        while accesses > 0:
            size = self.chance.randint(1, accesses)
            accesses -= size
            found += self.some(size, depth)
        return tuple(found)

    def some(self, size: int, depth: int) -> list[Statement]:
        """Statements of this many accesses."""
        way = 0.0 if depth > 1 else self.chance.random()
        if way > 0.95:
            target = self.local()
            place = self.place(self.chance.random() < self.atomic, self.chance.choice(self.widths))
            return [Spin((*(self.load() for _ in range(size - 1)), Load(target, place)), target, self.small())]
        if way > 0.87:
            self.counters += 1
            counter = LOCALS + self.counters - 1
            # Loops of loops would set a counter twice.
            return [Again(self.statements(size, 2), self.local(), self.small(), counter)]
        if way > 0.7:
            first = self.statements(size, depth + 1)
            second = self.statements(self.chance.randint(0, size), depth + 1)
            if self.chance.random() < 0.1:
                second = (Trap(),)
            return [Branch(self.local(), self.small(), first, second)]
        return [self.access() for _ in range(size)]

    def local(self) -> int:
        return self.chance.randrange(LOCALS)

    def small(self) -> int:
        return self.chance.choice((0, 0, 1, 1, 2, 3))

    def value(self) -> Value:
        return Value(self.chance.choice((0, 1, 1, 2, 2, 3)), self.local() if self.chance.random() < 0.2 else None)

    def place(self, atomic: bool, width: int) -> Place:
        address = self.chance.choice((0, 0, 0, width, self.chance.randint(0, 4)))
        address -= address % width if atomic or self.chance.random() < 0.8 else 0
        if self.chance.random() < 0.85:
            return Place(width, atomic, address)
        step = width if self.chance.random() < 0.9 else 1
        return Place(width, atomic, address, step, self.local())

    def load(self) -> Load:
        return Load(self.local(), self.place(self.chance.random() < self.atomic, self.chance.choice(self.widths)))

    def access(self) -> Statement:
        kind = self.chance.choice("llllllssssssuuc")
        atomic = kind in "uc" or self.chance.random() < self.atomic
        width = self.chance.choice(self.widths)
        if kind == "l":
            return Load(self.local(), self.place(atomic, width))
        if kind == "s":
            return Store(self.place(atomic, width), self.value())
        if kind == "c" and width >= 4:
            return CompareExchange(self.local(), self.place(True, width), self.small(), self.value())
        return Update(self.local(), self.place(True, width), self.chance.randrange(len(OPERATORS)), self.value())


def random_functions(chance: Random) -> list[Function]:
    """Two functions of two to four accesses each, or three of one to three."""
    writer = Writer(chance)
    if chance.random() < 0.3:
        return [writer.function(chance.randint(1, 3)) for _ in range(3)]
    return [writer.function(chance.randint(2, 4)) for _ in range(2)]
