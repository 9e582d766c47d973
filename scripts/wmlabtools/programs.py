"""Random programs of the supported instructions. Their code is typed, so they are valid, and their loops end."""
import functools
from collections.abc import Callable, Sequence
from random import Random
from typing import ClassVar, Literal, NamedTuple

from . import wasm

I32, I64 = 0x7F, 0x7E
BITS = {I32: 32, I64: 64}
PAGE_BYTES = 65_536
EMPTY = b"\x40"
END, ELSE, DROP, RETURN, SELECT = b"\x0b", b"\x05", b"\x1a", b"\x0f", b"\x1b"

# Opcodes by the type of their operands, or of what they load or store.
BINARY = {I32: range(0x6A, 0x79), I64: range(0x7C, 0x8B)}
UNARY = {I32: range(0x67, 0x6A), I64: range(0x79, 0x7C)}
COMPARISONS = {I32: range(0x46, 0x50), I64: range(0x51, 0x5B)}
IS_ZERO = {I32: 0x45, I64: 0x50}
OR = {I32: b"\x72", I64: b"\x84"}
# The places of the divisions and remainders among the operators on two operands.
DIVISIONS = range(3, 7)
CONSTANT = {I32: b"\x41", I64: b"\x42"}
# What gives a value of this type, and from which type.
CONVERSIONS = {I32: (b"\xa7",), I64: (b"\xac", b"\xad")}
OTHER = {I32: I64, I64: I32}

# Opcodes of accesses, each with its bytes; those of atomic accesses come after a prefix.
PREFIX = b"\xfe"
LOADS = {
    I32: ((0x28, 4), (0x2C, 1), (0x2D, 1), (0x2E, 2), (0x2F, 2)),
    I64: ((0x29, 8), (0x30, 1), (0x31, 1), (0x32, 2), (0x33, 2), (0x34, 4), (0x35, 4)),
}
STORES = {I32: ((0x36, 4), (0x3A, 1), (0x3B, 2)), I64: ((0x37, 8), (0x3C, 1), (0x3D, 2), (0x3E, 4))}
# Of the first of each kind; the six updates follow one another, and each has seven opcodes.
ATOMIC_WIDTHS = {I32: ((0, 4), (2, 1), (3, 2)), I64: ((1, 8), (4, 1), (5, 2), (6, 4))}
ATOMIC_LOAD, ATOMIC_STORE, UPDATES = 0x10, 0x17, range(0x1E, 0x48, 7)
COMPARE_EXCHANGE = {I32: (0x48, 4), I64: (0x49, 8)}


# The type of a value, by its byte in a module; code, an instruction an item; and the type of a label's value, if any.
Kind = int
Code = list[bytes]
Label = Kind | Literal["loop"] | None


class Access(NamedTuple):
    """What an access makes: the kinds of its events, whether they are atomic, and their width in bytes."""

    kinds: str
    is_atomic: bool
    width: int


class Global(NamedTuple):
    kind: Kind
    is_mutable: bool


class Segment(NamedTuple):
    """A data segment: where it begins, and its bytes."""

    start: int
    data: bytes


class Instruction(NamedTuple):
    """The index of a function, the number of one of its instructions, and the bytes of that."""

    function: int
    number: int
    code: bytes


def access_table() -> dict[bytes, Access]:
    """What each access makes, by its opcode: the kinds of its events, whether they are atomic, and their width."""
    found: dict[bytes, Access] = {}
    for kind in (I32, I64):
        found.update({bytes([opcode]): Access("r", False, width) for opcode, width in LOADS[kind]})
        found.update({bytes([opcode]): Access("w", False, width) for opcode, width in STORES[kind]})
        for kinds, first in (("r", ATOMIC_LOAD), ("w", ATOMIC_STORE), *(("x", update) for update in UPDATES)):
            for by, width in ATOMIC_WIDTHS[kind]:
                found[PREFIX + bytes([first + by])] = Access(kinds, True, width)
        opcode, width = COMPARE_EXCHANGE[kind]
        found[PREFIX + bytes([opcode])] = Access("rx", True, width)
    return found


ACCESSES = access_table()

# Values near which operators behave differently.
EDGES = [0, 1, 2, 7, 8, 31, 32, 33, 63, 64, 127, 128, 255, 256]
EDGES += [edge + by for bits in (15, 16, 31, 32, 63, 64) for edge in (1 << bits,) for by in (-1, 0, 1)]


def signed(value: int) -> bytes:
    """A signed integer in LEB128."""
    out = b""
    while not -64 <= value < 64:
        out, value = out + bytes([value & 127 | 128]), value >> 7
    return out + bytes([value & 127])


def constant(kind: Kind, value: int) -> bytes:
    """The instruction that pushes this value, an unsigned integer."""
    bits = BITS[kind]
    return CONSTANT[kind] + signed(value - (1 << bits) if value >> bits - 1 else value)


def argument(chance: Random, kind: Kind) -> int:
    """An unsigned integer of this type, often one near an edge."""
    value = chance.choice(EDGES) if chance.random() < 0.7 else chance.getrandbits(BITS[kind])
    return (-value if chance.random() < 0.2 else value) % (1 << BITS[kind])


class Function:
    """A function: the types of its parameters, of its result (None if it has none) and of its locals, the parameters
    among them; and its code, a list of instructions."""

    def __init__(self, parameters: Sequence[Kind], result: Kind | None) -> None:
        self.parameters, self.result = parameters, result
        self.locals = list(parameters)
        self.code: Code = []

    def type(self) -> bytes:
        results = [] if self.result is None else [bytes([self.result])]
        return b"\x60" + wasm.vector([bytes([kind]) for kind in self.parameters]) + wasm.vector(results)

    def body(self) -> bytes:
        entries = [b"\1" + bytes([kind]) for kind in self.locals[len(self.parameters) :]]
        return wasm.sized(wasm.vector(entries) + b"".join(self.code))


class Program:
    """Functions over one shared memory of a page, each exported by its name `f0`, `f1` and so on, as the memory is by
    `m`. A function calls only those before it. The types of a module are the first ones and that of each function."""

    first_types: tuple[bytes, ...] = ()
    # The pages at first, and those that the memory may grow to.
    pages: int = 1
    most_pages: int | None = None
    # The index of the function that starts the module, if it has one.
    start: int | None = None

    def __init__(self, chance: Random) -> None:
        kinds = (I32, I64)
        self.globals = [Global(chance.choice(kinds), chance.random() < 0.7) for _ in range(chance.randint(0, 4))]
        self.initial = [constant(kind, argument(chance, kind)) for kind, _ in self.globals]
        self.segments = [segment(chance) for _ in range(chance.randint(0, 3))]
        self.functions: list[Function] = []
        for _ in range(chance.randint(1, 4)):
            parameters = [chance.choice(kinds) for _ in range(chance.randint(0, 3))]
            self.add(chance, parameters, chance.choice((I32, I64, I32, I64, None)))

    def add(self, chance: Random, parameters: Sequence[Kind], result: Kind | None) -> None:
        function = Function(parameters, result)
        self.write(chance, function)
        self.functions.append(function)

    def write(self, chance: Random, function: Function) -> None:
        """Gives a function random code."""
        Coder(chance, self, function).write()

    def type_of(self, index: int) -> int:
        """The index of the type of a function."""
        return len(self.first_types) + index

    def memory(self) -> bytearray:
        """The initial memory, with the pages that it may grow to."""
        memory = bytearray(PAGE_BYTES * (self.most_pages or self.pages))
        for start, data in self.segments:
            memory[start : start + len(data)] = data
        return memory

    def instructions(self) -> dict[int, Instruction]:
        """The instructions by where they begin in the module: each with its function, its number there and its
        bytes."""
        module = self.module()
        found: dict[int, Instruction] = {}
        _, at = wasm.number_at(module, wasm.start_of(module, 10) + 1)
        _, at = wasm.number_at(module, at)
        for index, function in enumerate(self.functions):
            size, at = wasm.number_at(module, at)
            at += size
            place = at - len(b"".join(function.code))
            for number, instruction in enumerate(function.code):
                found[place] = Instruction(index, number, instruction)
                place += len(instruction)
        return found

    def exports(self) -> list[bytes]:
        """What the module exports beside its memory."""
        return [wasm.export(b"f%d" % index, index) for index in range(len(self.functions))]

    def global_entries(self) -> list[bytes]:
        return [bytes([kind, mutable]) + value + END for (kind, mutable), value in zip(self.globals, self.initial)]

    def data(self) -> list[bytes]:
        return [b"\0" + constant(I32, start) + END + wasm.sized(data) for start, data in self.segments]

    def tables(self) -> list[bytes]:
        return []

    def elements(self) -> list[bytes]:
        return []

    def module(self) -> bytes:
        """The bytes of the module."""
        return wasm.module_of(
            [function.body() for function in self.functions],
            types=[*self.first_types, *(function.type() for function in self.functions)],
            kinds=[self.type_of(index) for index in range(len(self.functions))],
            memory=wasm.shared_memory(self.pages, self.most_pages),
            global_entries=self.global_entries(),
            exports=[*self.exports(), wasm.sized(b"m") + b"\2\0"],
            data=self.data(),
            tables=self.tables(),
            start=self.start,
            elements=self.elements(),
        )


def segment(chance: Random) -> Segment:
    size = chance.randint(0, 16)
    return Segment(chance.choice((0, chance.randint(0, 255), PAGE_BYTES - size)), chance.randbytes(size))


class Coder:
    """Writes the code of a function. `labels` has for each label, the innermost last, the type of its value, None for
    none, or LOOP; no code goes back to a loop but its own last instruction."""

    LOOP: ClassVar[Literal["loop"]] = "loop"

    def __init__(self, chance: Random, program: Program, function: Function) -> None:
        self.chance, self.program, self.function = chance, program, function
        function.locals += [chance.choice((I32, I64)) for _ in range(chance.randint(0, 4))]
        self.counters: set[int] = set()
        self.labels: list[Label] = [function.result]
        # How many more instructions are written that need operands.
        self.room = chance.choice((20, 60, 120))

    def write(self) -> None:
        code = [instruction for _ in range(self.chance.randint(0, 5)) for instruction in self.statement(4)]
        if self.function.result is not None:
            code += self.value(self.function.result, self.chance.randint(1, 5))
        self.function.code = code + [END]

    # ---- values

    def value(self, kind: Kind, depth: int) -> Code:
        """Code that leaves one value of this type."""
        self.room -= 1
        if depth <= 0 or self.room < 0:
            return self.leaf(kind)
        ways: dict[Callable[[Kind, int], Code], int] = {
            self.operation: 27,
            self.comparison: 9,
            self.conversion: 5,
            self.load: 16,
            self.update: 10,
            self.choice: 5,
            self.tee: 5,
            self.block: 9,
            self.branches: 7,
            self.call: 5,
            self.leaf: 2,
        }
        (way,) = self.chance.choices(list(ways), list(ways.values()))
        return way(kind, depth - 1)

    def leaf(self, kind: Kind, _depth: int = 0) -> Code:
        """A constant, a local, a global or the size of the memory."""
        found = [constant(kind, argument(self.chance, kind))]
        found += [b"\x20" + wasm.number(index) for index in self.locals_of(kind)]
        found += [b"\x23" + wasm.number(index) for index, (own, _) in enumerate(self.program.globals) if own == kind]
        if kind == I32:
            found.append(b"\x3f\0")
        return [self.chance.choice(found)]

    def locals_of(self, kind: Kind) -> list[int]:
        """The locals of this type that code may set."""
        kinds = enumerate(self.function.locals)
        return [index for index, own in kinds if own == kind and index not in self.counters]

    def operation(self, kind: Kind, depth: int) -> Code:
        if self.chance.random() < 0.2:
            return self.value(kind, depth) + [bytes([self.chance.choice(UNARY[kind])])]
        operator = self.chance.randrange(len(BINARY[kind]))
        operands = self.value(kind, depth) + self.value(kind, depth)
        # Most divisors are odd, so that most programs go on.
        if operator in DIVISIONS and self.chance.random() < 0.8:
            operands += [constant(kind, 1), OR[kind]]
        return operands + [bytes([BINARY[kind][operator]])]

    def comparison(self, kind: Kind, depth: int) -> Code:
        if kind == I64:
            return self.conversion(kind, depth)
        own = self.chance.choice((I32, I64))
        if self.chance.random() < 0.3:
            return self.value(own, depth) + [bytes([IS_ZERO[own]])]
        return self.value(own, depth) + self.value(own, depth) + [bytes([self.chance.choice(COMPARISONS[own])])]

    def conversion(self, kind: Kind, depth: int) -> Code:
        return self.value(OTHER[kind], depth) + [self.chance.choice(CONVERSIONS[kind])]

    def choice(self, kind: Kind, depth: int) -> Code:
        return self.value(kind, depth) + self.value(kind, depth) + self.value(I32, depth) + [SELECT]

    def tee(self, kind: Kind, depth: int) -> Code:
        found = self.locals_of(kind)
        set_it = [b"\x22" + wasm.number(self.chance.choice(found))] if found else []
        return self.value(kind, depth) + set_it

    def call(self, kind: Kind | None, depth: int) -> Code:
        """A call of a function with this result, or with none; a leaf if there is none to call."""
        found = [index for index, callee in enumerate(self.program.functions) if callee.result == kind]
        # A call in a loop could take long: the callee has loops too.
        if not found or self.LOOP in self.labels:
            return [] if kind is None else self.leaf(kind)
        index = self.chance.choice(found)
        parameters = self.program.functions[index].parameters
        return [part for own in parameters for part in self.value(own, depth - 1)] + [b"\x10" + wasm.number(index)]

    # ---- accesses

    def address(self, width: int, depth: int, atomic: bool) -> Code:
        """Code for an address: most are below 256 and, of atomic accesses, multiples of the width."""
        way = self.chance.random()
        if way < 0.6:
            return [constant(I32, width * self.chance.randint(0, 40))]
        if way > 0.985:
            return self.value(I32, depth)
        mask = 256 - width if atomic else 255
        return self.value(I32, depth) + [constant(I32, mask), b"\x71"]

    def place(self, width: int, atomic: bool) -> bytes:
        """The alignment and the offset of an access."""
        most = width.bit_length() - 1
        alignment = most if atomic else self.chance.randint(0, most)
        offset = self.chance.choice((0, 0, width, 2 * width, width * self.chance.randint(0, 20)))
        if not atomic:
            offset += self.chance.choice((0, 0, 1, self.chance.randint(0, 7)))
        if self.chance.random() < 0.03:
            offset = self.chance.choice((PAGE_BYTES - width, PAGE_BYTES - width + 1, self.chance.getrandbits(32)))
        return wasm.number(alignment) + wasm.number(offset)

    def load(self, kind: Kind, depth: int) -> Code:
        if self.chance.random() < 0.7:
            opcode, width = self.chance.choice(LOADS[kind])
            return self.address(width, depth, False) + [bytes([opcode]) + self.place(width, False)]
        by, width = self.chance.choice(ATOMIC_WIDTHS[kind])
        return self.address(width, depth, True) + [PREFIX + bytes([ATOMIC_LOAD + by]) + self.place(width, True)]

    def update(self, kind: Kind, depth: int) -> Code:
        operands = self.value(kind, depth)
        if self.chance.random() < 0.3:
            opcode, width = COMPARE_EXCHANGE[kind]
            operands += self.value(kind, depth)
        else:
            by, width = self.chance.choice(ATOMIC_WIDTHS[kind])
            opcode = self.chance.choice(UPDATES) + by
        return self.address(width, depth, True) + operands + [PREFIX + bytes([opcode]) + self.place(width, True)]

    def store(self, depth: int) -> Code:
        kind = self.chance.choice((I32, I64))
        value = self.value(kind, depth)
        if self.chance.random() < 0.7:
            opcode, width = self.chance.choice(STORES[kind])
            return self.address(width, depth, False) + value + [bytes([opcode]) + self.place(width, False)]
        by, width = self.chance.choice(ATOMIC_WIDTHS[kind])
        store = PREFIX + bytes([ATOMIC_STORE + by]) + self.place(width, True)
        return self.address(width, depth, True) + value + [store]

    # ---- blocks

    def inside(self, label: Label, parts: Sequence[Callable[[], Code]]) -> Code:
        """What these functions write inside of a label."""
        self.labels.append(label)
        code = [instruction for part in parts for instruction in part()]
        self.labels.pop()
        return code

    def block(self, kind: Kind, depth: int) -> Code:
        """A block with a value. It may be left before its end, with another value or for good."""
        parts: list[Callable[[], Code]] = [lambda: self.statements(depth)]
        if self.chance.random() < 0.3:
            parts.append(lambda: self.value(kind, depth) + self.value(I32, depth) + [b"\x0d\0", DROP])
        parts.append(lambda: self.value(kind, depth))
        if self.chance.random() < 0.2:
            parts.append(lambda: [b"\x0c\0", *self.unreached()])
        return [b"\x02" + bytes([kind]), *self.inside(kind, parts), END]

    def branches(self, kind: Kind, depth: int) -> Code:
        """An `if` with a value."""
        arm = [lambda: self.statements(depth - 1), lambda: self.value(kind, depth - 1)]
        first, second = self.inside(kind, arm), self.inside(kind, arm)
        return self.value(I32, depth) + [b"\x04" + bytes([kind]), *first, ELSE, *second, END]

    def unreached(self) -> Code:
        """Instructions after a branch, which find operands of any type there."""
        ways: tuple[Code, ...] = ([], [DROP], [b"\x6a", DROP], [b"\x45", DROP], [SELECT, DROP], [b"\0"])
        return self.chance.choice(ways)

    # ---- statements

    def statements(self, depth: int) -> Code:
        count = self.chance.choice((0, 1, 1, 2, 3)) if depth > 0 else 0
        return [instruction for _ in range(count) for instruction in self.statement(depth)]

    def statement(self, depth: int) -> Code:
        """Code that leaves no value."""
        self.room -= 1
        if self.room < 0:
            return [b"\x01"]
        ways: dict[Callable[[int], Code], int] = {
            self.store: 28,
            self.set_local: 14,
            self.set_global: 8,
            self.ignored: 8,
            self.condition: 12,
            self.loop: 10,
            self.leave: 8,
            self.table: 5,
            self.early_end: 3,
        }
        (way,) = self.chance.choices(list(ways), list(ways.values()))
        return way(depth - 1)

    def set_local(self, depth: int) -> Code:
        kind = self.chance.choice((I32, I64))
        found = self.locals_of(kind)
        return self.value(kind, depth) + [b"\x21" + wasm.number(self.chance.choice(found))] if found else [b"\x01"]

    def set_global(self, depth: int) -> Code:
        found = [(index, kind) for index, (kind, mutable) in enumerate(self.program.globals) if mutable]
        if not found:
            return [b"\x01"]
        index, kind = self.chance.choice(found)
        return self.value(kind, depth) + [b"\x24" + wasm.number(index)]

    def ignored(self, depth: int) -> Code:
        """A value that is dropped, or a call without a result."""
        if self.chance.random() < 0.2:
            return self.call(None, depth)
        return self.value(self.chance.choice((I32, I64)), depth) + [DROP]

    def condition(self, depth: int) -> Code:
        arm = [lambda: self.statements(depth)]
        code = self.value(I32, depth) + [b"\x04" + EMPTY, *self.inside(None, arm)]
        return code + ([ELSE, *self.inside(None, arm), END] if self.chance.random() < 0.5 else [END])

    def loop(self, depth: int) -> Code:
        """A loop of up to 12 rounds, inside of a block. At most two loops are nested."""
        if self.labels.count(self.LOOP) >= 2:
            return [b"\x01"]
        self.function.locals.append(I32)
        index = len(self.function.locals) - 1
        self.counters.add(index)
        counter = wasm.number(index)
        self.labels.append(None)
        inner = self.inside(self.LOOP, [lambda: self.statements(depth)])
        self.labels.pop()
        most = constant(I32, self.chance.randint(1, 12))
        last = [b"\x20" + counter, constant(I32, 1), b"\x6a", b"\x22" + counter, most, b"\x49", b"\x0d\0"]
        start = [constant(I32, 0), b"\x21" + counter, b"\x02" + EMPTY, b"\x03" + EMPTY]
        return [*start, *inner, *last, END, END]

    def leave(self, depth: int) -> Code:
        """A branch to a label without a value, under a condition."""
        found = [number for number, label in enumerate(reversed(self.labels)) if label is None]
        return self.value(I32, depth) + [b"\x0d" + wasm.number(self.chance.choice(found))] if found else [b"\x01"]

    def table(self, depth: int) -> Code:
        """A branch by a table, in blocks of which each is one of its targets."""
        count = self.chance.randint(1, 3)
        targets = [wasm.number(self.chance.randrange(count)) for _ in range(self.chance.randint(1, 5))]
        self.labels += [None] * count
        code = [b"\x02" + EMPTY] * count + self.value(I32, depth)
        code += [b"\x0e" + wasm.vector(targets[1:]) + targets[0], *self.unreached()]
        for _ in range(count):
            self.labels.pop()
            code += [END, *self.statements(depth - 1)]
        return code

    def early_end(self, depth: int) -> Code:
        """A return or an `unreachable`, under a condition."""
        result = self.function.result
        ending = [b"\0"] if self.chance.random() < 0.3 else [RETURN]
        value = [] if result is None else self.inside(None, [functools.partial(self.value, result, depth)])
        return self.value(I32, depth) + [b"\x04" + EMPTY, *value, *ending, *self.unreached(), END]


def any_instruction(chance: Random) -> bytes:
    """An instruction of any type, with immediates that may name nothing."""
    kind = chance.choice((I32, I64))
    opcode, width = chance.choice(LOADS[kind] + STORES[kind])
    by, atomic_width = chance.choice(ATOMIC_WIDTHS[kind])
    atomic = by + chance.choice((ATOMIC_LOAD, ATOMIC_STORE, *UPDATES))
    # Not below the width: V8 accepts that.
    alignment = atomic_width.bit_length() - chance.choice((0, 1, 1, 1))
    ways: tuple[Callable[[], bytes], ...] = (
        lambda: chance.choice((END, ELSE, DROP, RETURN, SELECT, b"\0", b"\1", b"\x3f\0")),
        lambda: constant(kind, argument(chance, kind)),
        lambda: chance.choice((b"\x20", b"\x21", b"\x22")) + wasm.number(chance.randint(0, 6)),
        lambda: chance.choice((b"\x23", b"\x24")) + wasm.number(chance.randint(0, 4)),
        lambda: chance.choice((b"\x0c", b"\x0d", b"\x10")) + wasm.number(chance.randint(0, 4)),
        lambda: b"\x0e" + wasm.vector([wasm.number(chance.randint(0, 3))] * chance.randint(0, 3)) + b"\0",
        lambda: bytes([chance.choice((2, 3, 4)), chance.choice((0x40, I32, I64))]),
        lambda: bytes([chance.choice([*BINARY[kind], *UNARY[kind], *COMPARISONS[kind], IS_ZERO[kind]])]),
        lambda: chance.choice(CONVERSIONS[kind]),
        lambda: bytes([opcode, chance.randint(0, width.bit_length()), chance.randint(0, 100)]),
        lambda: PREFIX + bytes([atomic, alignment, chance.randint(0, 100)]),
    )
    return chance.choice(ways)()


def change(chance: Random, program: Program) -> None:
    """Changes one to three instructions of a program."""
    for _ in range(chance.choice((1, 1, 1, 2, 3))):
        code = chance.choice(program.functions).code
        at = chance.randrange(len(code) + 1)
        way = chance.randrange(5)
        if way == 0:
            code.insert(at, any_instruction(chance))
        elif way == 1:
            del code[at : at + 1]
        elif way == 2:
            code[at : at + 1] = [any_instruction(chance)]
        elif way == 3 and code:
            code.insert(at, chance.choice(code))
        else:
            code[at:at] = [any_instruction(chance), DROP]
