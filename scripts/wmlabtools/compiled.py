"""Random programs that also have what compilers emit and `engines/lower` replaces."""
from __future__ import annotations

from collections.abc import Callable
from random import Random

from . import wasm
from .floats import FloatCode, WaitingCode
from .programs import END, I32, I64, PAGE_BYTES, Code, Function, Kind, Program, constant, signed

EXTENSIONS = {I32: (b"\xc0", b"\xc1"), I64: (b"\xc2", b"\xc3", b"\xc4")}
FENCE, COPY, FILL = b"\xfe\x03\0", b"\xfc\x0a\0\0", b"\xfc\x0b\0"
# The types of blocks that give a value, by the index that a block's type may have.
BLOCK_TYPES = (I32, I64)
FUNCTION_REFERENCE = b"\x70"
# An address or an offset from here on is past every memory.
FAR = 1 << 31
# Where the block of thread-local variables is in the module as it is, in a page of its own, and the bytes of a block.
BLOCK_AT, BLOCK_BYTES = PAGE_BYTES + PAGE_BYTES // 2, 64


class CompiledCoder(FloatCode, WaitingCode):
    """Writes the code of a function of such a program."""

    program: CompiledProgram

    def __init__(self, chance: Random, program: CompiledProgram, function: Function) -> None:
        super().__init__(chance, program, function)
        self.add_float_locals()

    def value(self, kind: Kind, depth: int) -> Code:
        if depth <= 0 or self.room < 0 or self.chance.random() < 0.75:
            return super().value(kind, depth)
        self.room -= 1
        ways: list[Callable[[Kind, int], Code]]
        ways = [self.extension, self.typed_choice, self.typed_block, self.indirect_call, self.of_floats]
        if kind == I32:
            ways += [lambda _, rest: self.wait(rest)]
            ways += [lambda _, rest: self.grow(rest)] if self.program.most_pages else []
        ways += [self.load_own] if self.program.own is not None else []
        return self.chance.choice(ways)(kind, depth - 1)

    def statement(self, depth: int) -> Code:
        if self.room < 0 or self.chance.random() < 0.8:
            return super().statement(depth)
        self.room -= 1
        ways: list[Callable[[int], Code]]
        ways = [lambda _: [FENCE], self.bulk, self.bulk, self.float_store, self.dropped_wait]
        ways += [self.store_own] if self.program.own is not None else []
        return self.chance.choice(ways)(depth - 1)

    # ---- memory that grows: no access is between its size and the most that it may have, where only one of both traps

    def grow(self, depth: int) -> Code:
        pages = [constant(I32, self.chance.choice((0, 1, 1, 2, 3)))]
        return (self.value(I32, depth) if self.chance.random() < 0.1 else pages) + [b"\x40\0"]

    def address(self, width: int, depth: int, atomic: bool) -> Code:
        if self.program.most_pages and self.chance.random() < 0.015:
            return self.value(I32, depth) + [constant(I32, FAR), b"\x72"]
        mask = 256 - width if atomic else 255
        if self.program.most_pages:
            return self.value(I32, depth) + [constant(I32, mask), b"\x71"]
        return super().address(width, depth, atomic)

    def place(self, width: int, atomic: bool) -> bytes:
        if not self.program.most_pages:
            return super().place(width, atomic)
        most = width.bit_length() - 1
        far = FAR + self.chance.getrandbits(31) if self.chance.random() < 0.02 else 0
        alignment = most if atomic else self.chance.randint(0, most)
        return wasm.number(alignment) + wasm.number(far or width * self.chance.randint(0, 20))

    # ---- thread-local variables

    def own_place(self) -> tuple[Code, bytes]:
        """Code for an address in the block of the thread, and how far behind it an access is."""
        base = b"\x23" + wasm.number(len(self.program.globals))
        start = constant(I32, 8 * self.chance.randint(0, BLOCK_BYTES // 8 - 2))
        return [base, start, b"\x6a"], wasm.number(self.chance.randint(0, 8))

    def load_own(self, kind: Kind, _: int) -> Code:
        address, offset = self.own_place()
        return [*address, (b"\x28\0" if kind == I32 else b"\x29\0") + offset]

    def store_own(self, depth: int) -> Code:
        address, offset = self.own_place()
        kind = self.chance.choice((I32, I64))
        return [*address, *self.value(kind, depth), (b"\x36\0" if kind == I32 else b"\x37\0") + offset]

    def extension(self, kind: Kind, depth: int) -> Code:
        return self.value(kind, depth) + [self.chance.choice(EXTENSIONS[kind])]

    def typed_choice(self, kind: Kind, depth: int) -> Code:
        code = self.value(kind, depth) + self.value(kind, depth) + self.value(I32, depth)
        return code + [b"\x1c\1" + bytes([kind])]

    def typed_block(self, kind: Kind, depth: int) -> Code:
        inner = self.inside(kind, [lambda: self.statements(depth), lambda: self.value(kind, depth)])
        return [b"\x02" + signed(BLOCK_TYPES.index(kind)), *inner, END]

    def indirect_call(self, kind: Kind, depth: int) -> Code:
        """A call through the table, as the type of a function with this result. The element may be of another type or
        missing. Only a function after all those of the table makes such a call, so that there is no recursion."""
        functions = self.program.functions
        found = [index for index, callee in enumerate(functions) if callee.result == kind]
        if not found or len(functions) < self.program.callees or self.LOOP in self.labels:
            return self.extension(kind, depth)
        index = self.chance.choice(found)
        code = [part for own in functions[index].parameters for part in self.value(own, depth - 1)]
        places = [place for place, element in enumerate(self.program.table) if element == index]
        place = self.chance.choice(places) if places and self.chance.random() < 0.8 else self.chance.randint(0, 7)
        return code + [constant(I32, place), b"\x11" + wasm.number(self.program.type_of(index)) + b"\0"]

    def bulk(self, depth: int) -> Code:
        """A copy or a fill of some bytes, mostly few."""
        size = [constant(I32, self.chance.choice((0, 1, 2, 3, 8, 20)))]
        if self.chance.random() < 0.1:
            size = self.value(I32, depth) + [constant(I32, 31), b"\x71"]
        start = self.address(1, depth, False)
        if self.chance.random() < 0.5:
            return start + self.address(1, depth, False) + size + [COPY]
        return start + self.value(I32, depth) + size + [FILL]


class CompiledProgram(Program):
    """A program with a table, whose elements are among the first functions, and perhaps a start function, the last. Its
    memory may grow (`most_pages`), and it may have thread-local variables: `own` has their initial values, or None."""

    first_types = tuple(b"\x60\0\1" + bytes([kind]) for kind in BLOCK_TYPES)

    def __init__(self, chance: Random) -> None:
        self.own = chance.randbytes(BLOCK_BYTES) if chance.random() < 0.3 else None
        # What the lowered module has: no blocks if no code uses the variables, no growth if none grows the memory.
        self.has_blocks = self.has_growth = False
        self.pages = 1 if self.own is None else 2
        self.most_pages = chance.choice((3, 5)) if chance.random() < 0.3 else None
        self.callees = chance.randint(1, 2)
        elements = (None, *range(self.callees))
        self.table: list[int | None] = [chance.choice(elements) for _ in range(chance.randint(1, 6))]
        super().__init__(chance)
        # A start function would use thread-local variables before there is a block.
        has_start = chance.random() < 0.15 and self.own is None
        self.start = len(self.functions) if has_start else None
        if self.start is not None:
            self.add(chance, [], None)

    def write(self, chance: Random, function: Function) -> None:
        CompiledCoder(chance, self, function).write()

    def memory(self) -> bytearray:
        memory = super().memory()
        if self.own is not None:
            memory[BLOCK_AT : BLOCK_AT + BLOCK_BYTES] = self.own
        return memory

    def lowered_place(self, address: int, index: int) -> int | None:
        """Where the bytes of a lowered module are in the module as it was, if function `index` has a block of its own;
        None if they are not there."""
        grown = self.most_pages if self.has_growth else None
        behind = address - PAGE_BYTES * (grown or self.pages)
        if behind < 0:
            return address
        block = behind - BLOCK_BYTES * index
        return BLOCK_AT + block if self.has_blocks and 0 <= block < BLOCK_BYTES else None

    def exports(self) -> list[bytes]:
        own = [] if self.own is None else [wasm.sized(b"__tls_base") + b"\3" + wasm.number(len(self.globals))]
        return super().exports() + own

    def global_entries(self) -> list[bytes]:
        own = [] if self.own is None else [bytes([I32, 1]) + constant(I32, 0) + END]
        return super().global_entries() + own

    def data(self) -> list[bytes]:
        return super().data() + ([] if self.own is None else [b"\1" + wasm.sized(self.own)])

    def elements(self) -> list[bytes]:
        return [
            b"\0" + constant(I32, place) + END + wasm.vector([wasm.number(element)])
            for place, element in enumerate(self.table)
            if element is not None and element < len(self.functions)
        ]

    def tables(self) -> list[bytes]:
        return [FUNCTION_REFERENCE + b"\0" + wasm.number(len(self.table))]
