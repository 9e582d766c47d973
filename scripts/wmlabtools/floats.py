"""Random code that computes with floats, and code that waits. Every NaN that an instruction makes becomes the canonical
one at once, since the standard leaves its bits open."""
from random import Random

from . import wasm
from .programs import DROP, I32, I64, PREFIX, SELECT, Code, Coder, Kind, constant

F32, F64 = 0x7D, 0x7C
FLOATS = (F32, F64)
INTEGER_OF = {F32: I32, F64: I64}
WIDTH = {F32: 4, F64: 8}
CONSTANT = {F32: b"\x43", F64: b"\x44"}
LOAD = {F32: b"\x2a", F64: b"\x2b"}
STORE = {F32: b"\x38", F64: b"\x39"}
# abs and neg, and the others on one operand; then those on two, of which the last one is copysign.
ON_SIGN = {F32: range(0x8B, 0x8D), F64: range(0x99, 0x9B)}
UNARY = {F32: range(0x8D, 0x92), F64: range(0x9B, 0xA0)}
BINARY = {F32: range(0x92, 0x98), F64: range(0xA0, 0xA6)}
COPYSIGN = {F32: b"\x98", F64: b"\xa6"}
EQUAL = {F32: b"\x5b", F64: b"\x61"}
COMPARISONS = {F32: range(0x5B, 0x61), F64: range(0x61, 0x67)}
CONVERSIONS = {
    F32: {I32: range(0xB2, 0xB4), I64: range(0xB4, 0xB6)},
    F64: {I32: range(0xB7, 0xB9), I64: range(0xB9, 0xBB)},
}
FROM_OTHER = {F32: b"\xb6", F64: b"\xbb"}
OTHER = {F32: F64, F64: F32}
FROM_BITS = {F32: b"\xbe", F64: b"\xbf"}
TO_BITS = {F32: b"\xbc", F64: b"\xbd"}
TRUNCATIONS = {
    I32: {F32: range(0xA8, 0xAA), F64: range(0xAA, 0xAC)},
    I64: {F32: range(0xAE, 0xB0), F64: range(0xB0, 0xB2)},
}
SATURATING = {I32: {F32: range(0, 2), F64: range(2, 4)}, I64: {F32: range(4, 6), F64: range(6, 8)}}
WAYS = ("unary", "binary", "binary", "sign", "copysign", "convert", "other", "bits", "load", "keep", "leaf")
FORMAT = {F32: (8, 23), F64: (11, 52)}


def bits(chance: Random, kind: Kind) -> int:
    """The bits of a float: special ones, numbers near 1 or an integer's range, or any."""
    exponents, fraction = FORMAT[kind]
    most, width = (1 << exponents) - 1, 1 + exponents + fraction
    near_one = most // 2 + chance.randint(-3, 66)
    exponent = chance.choice((0, 1, most, most - 1, most // 2, near_one, chance.randint(0, most)))
    low = chance.choice((0, 1, 1 << fraction - 1, (1 << fraction) - 1, chance.getrandbits(fraction)))
    return (chance.getrandbits(1) << width - 1 | (exponent % (most + 1)) << fraction | low) % (1 << width)


class FloatCode(Coder):
    """The part of a coder that writes code of floats."""

    def add_float_locals(self) -> None:
        """Two locals of each type: one for the code that finds a NaN, and one for values."""
        self.scratch: dict[Kind, int] = {}
        self.kept: dict[Kind, int] = {}
        for kind in FLOATS:
            self.scratch[kind] = len(self.function.locals)
            self.kept[kind] = len(self.function.locals) + 1
            self.function.locals += [kind, kind]

    def canonical(self, kind: Kind) -> Code:
        """Code that makes a NaN the canonical one."""
        exponents, fraction = FORMAT[kind]
        nan = ((1 << exponents + 1) - 1) << fraction - 1
        get = b"\x20" + wasm.number(self.scratch[kind])
        put = b"\x22" + wasm.number(self.scratch[kind])
        return [put, self.float_constant(kind, nan), get, get, EQUAL[kind], SELECT]

    @staticmethod
    def float_constant(kind: Kind, value: int) -> bytes:
        return CONSTANT[kind] + value.to_bytes(WIDTH[kind], "little")

    def float_leaf(self, kind: Kind) -> Code:
        if self.chance.random() < 0.3:
            return [b"\x20" + wasm.number(self.kept[kind])]
        return [self.float_constant(kind, bits(self.chance, kind))]

    def float_value(self, kind: Kind, depth: int) -> Code:
        """Code that leaves a float of this type."""
        self.room -= 1
        if depth <= 0 or self.room < 0:
            return self.float_leaf(kind)
        way = self.chance.choice(WAYS)
        if way in ("unary", "sign", "keep"):
            code = self.float_value(kind, depth - 1)
            if way == "keep":
                return [*code, b"\x22" + wasm.number(self.kept[kind])]
            table = UNARY if way == "unary" else ON_SIGN
            return [*code, bytes([self.chance.choice(table[kind])]), *(self.canonical(kind) if way == "unary" else [])]
        if way in ("binary", "copysign"):
            operands = self.float_value(kind, depth - 1) + self.float_value(kind, depth - 1)
            if way == "copysign":
                return [*operands, COPYSIGN[kind]]
            return [*operands, bytes([self.chance.choice(BINARY[kind])]), *self.canonical(kind)]
        if way == "convert":
            source = self.chance.choice((I32, I64))
            return self.value(source, depth - 1) + [bytes([self.chance.choice(CONVERSIONS[kind][source])])]
        if way == "other":
            return self.float_value(OTHER[kind], depth - 1) + [FROM_OTHER[kind], *self.canonical(kind)]
        if way == "bits":
            return self.value(INTEGER_OF[kind], depth - 1) + [FROM_BITS[kind]]
        if way == "load":
            return self.address(WIDTH[kind], depth, False) + [LOAD[kind] + self.place(WIDTH[kind], False)]
        return self.float_leaf(kind)

    def of_floats(self, kind: Kind, depth: int) -> Code:
        """Code that leaves an integer of this type, which floats give."""
        source = self.chance.choice(FLOATS)
        way = self.chance.random()
        if way < 0.35 and kind == I32:
            operands = self.float_value(source, depth - 1) + self.float_value(source, depth - 1)
            return operands + [bytes([self.chance.choice(COMPARISONS[source])])]
        if way < 0.6:
            own = F32 if kind == I32 else F64
            return self.float_value(own, depth - 1) + [TO_BITS[own]]
        code = self.float_value(source, depth - 1)
        if way < 0.65:
            return [*code, bytes([self.chance.choice(TRUNCATIONS[kind][source])])]
        return [*code, b"\xfc" + bytes([self.chance.choice(SATURATING[kind][source])])]

    def float_store(self, depth: int) -> Code:
        kind = self.chance.choice(FLOATS)
        value = self.float_value(kind, depth)
        return self.address(WIDTH[kind], depth, False) + value + [STORE[kind] + self.place(WIDTH[kind], False)]


class WaitingCode(Coder):
    """The part of a coder that writes waits, each with a time, and notifications."""

    def wait(self, depth: int) -> Code:
        """Code that leaves what a wait or a notification answers."""
        if self.chance.random() < 0.4:
            operands = self.address(4, depth, True) + self.value(I32, depth - 1)
            return operands + [PREFIX + b"\x00" + self.place(4, True)]
        kind, opcode, width = self.chance.choice(((I32, b"\x01", 4), (I64, b"\x02", 8)))
        operands = self.address(width, depth, True) + self.value(kind, depth - 1)
        return operands + [constant(I64, self.chance.choice((0, 1, 1_000))), PREFIX + opcode + self.place(width, True)]

    def dropped_wait(self, depth: int) -> Code:
        return [*self.wait(depth), DROP]
