"""The module of a test, as text and as bytes. Each line of a function is one instruction, which is one step."""
from dataclasses import dataclass

from wmlabtools import wasm

from .tests import EXPORTS, Event, LitmusTest

I32, I64 = b"\x7f", b"\x7e"
ALIGNMENT = {1: 0, 2: 1, 4: 2, 8: 3}

# Mnemonic and opcode of each access by its width. Narrow accesses and those of 4 bytes are of i32.
LOAD = {1: ("i32.load8_u", b"\x2d"), 2: ("i32.load16_u", b"\x2f"), 4: ("i32.load", b"\x28"), 8: ("i64.load", b"\x29")}
STORE = {1: ("i32.store8", b"\x3a"), 2: ("i32.store16", b"\x3b"), 4: ("i32.store", b"\x36"), 8: ("i64.store", b"\x37")}
ATOMIC_LOAD = {
    1: ("i32.atomic.load8_u", b"\xfe\x12"),
    2: ("i32.atomic.load16_u", b"\xfe\x13"),
    4: ("i32.atomic.load", b"\xfe\x10"),
    8: ("i64.atomic.load", b"\xfe\x11"),
}
ATOMIC_STORE = {
    1: ("i32.atomic.store8", b"\xfe\x19"),
    2: ("i32.atomic.store16", b"\xfe\x1a"),
    4: ("i32.atomic.store", b"\xfe\x17"),
    8: ("i64.atomic.store", b"\xfe\x18"),
}
EXCHANGE = {
    1: ("i32.atomic.rmw8.xchg_u", b"\xfe\x43"),
    2: ("i32.atomic.rmw16.xchg_u", b"\xfe\x44"),
    4: ("i32.atomic.rmw.xchg", b"\xfe\x41"),
    8: ("i64.atomic.rmw.xchg", b"\xfe\x42"),
}


@dataclass(frozen=True)
class Instruction:
    """Its text, its bytes, and the event that it makes, or None."""

    text: str
    code: bytes
    event: Event | None = None


def signed(value: int) -> bytes:
    """A signed integer in LEB128."""
    out = b""
    while not -64 <= value < 64:
        out, value = out + bytes([value % 128 + 128]), value >> 7
    return out + bytes([value % 128])


def constant(value: int, width: int = 4) -> Instruction:
    """A constant of the type of an access of this width. The bytes have it as a signed integer."""
    bits = 64 if width == 8 else 32
    wrapped = value - (1 << bits) if value >> (bits - 1) else value
    name, opcode = ("i64", b"\x42") if width == 8 else ("i32", b"\x41")
    return Instruction(f"{name}.const {value}", opcode + signed(wrapped))


def opcode_of(event: Event) -> tuple[str, bytes]:
    access = event.access
    if event.reads and event.writes:
        return EXCHANGE[access.width]
    if event.reads:
        return (ATOMIC_LOAD if access.is_atomic else LOAD)[access.width]
    return (ATOMIC_STORE if access.is_atomic else STORE)[access.width]


def access_of(event: Event) -> Instruction:
    """The instruction of an event. A plain access that is not aligned declares an alignment of 1."""
    mnemonic, opcode = opcode_of(event)
    width, address = event.access.width, event.address
    is_aligned = address % width == 0
    memory = wasm.number(ALIGNMENT[width] if is_aligned else 0) + wasm.number(0)
    return Instruction(mnemonic if is_aligned else f"{mnemonic} align=1", opcode + memory, event)


DROP = Instruction("drop", b"\x1a")
MULTIPLY = Instruction("i32.mul", b"\x6c")
ADD = Instruction("i32.add", b"\x6a")
AND = Instruction("i32.and", b"\x71")
WRAP = Instruction("i32.wrap_i64", b"\xa7")
EQUAL = {4: Instruction("i32.eq", b"\x46"), 8: Instruction("i64.eq", b"\x51")}


def reading(event: Event, is_first: bool, is_uniform: bool) -> list[Instruction]:
    """What is made of the value that is read: a digit of the result, or whether it is the expected one."""
    width = event.access.width
    if is_uniform:
        return ([WRAP] if width == 8 else []) + ([] if is_first else [ADD])
    compared = [constant(event.value, width), EQUAL[8 if width == 8 else 4]]
    return compared + ([] if is_first else [AND])


def instructions_of(test: LitmusTest, thread: int) -> list[Instruction]:
    """The instructions of a thread. Its result stays on the operand stack while it goes on."""
    code: list[Instruction] = []
    is_first = True
    for event in test.threads[thread]:
        if event.is_observed and not is_first and test.is_uniform:
            code += [constant(10), MULTIPLY]
        code.append(constant(event.address))
        if event.written is not None:
            code.append(constant(event.written, event.access.width))
        code.append(access_of(event))
        if event.is_observed:
            code += reading(event, is_first, test.is_uniform)
            is_first = False
        elif event.reads:
            code.append(DROP)
    return code


def has_result(test: LitmusTest, thread: int) -> bool:
    return bool(test.observed(thread))


def text_of(test: LitmusTest) -> str:
    """The module in the text format."""
    lines = [f";; {test.name}", f";; {test.cycle.text}", "(module", "  (memory 1 1 shared)"]
    for thread, name in enumerate(test.starts):
        result = " (result i32)" if has_result(test, thread) else ""
        body = [f"    {each.text}" for each in instructions_of(test, thread)]
        lines += [f'  (func (export "{name}"){result}', *body]
        lines[-1] += ")"
    return "\n".join(lines) + ")\n"


def bytes_of(test: LitmusTest) -> bytes:
    """The module in the binary format, as wat2wasm makes it of the text."""
    kinds: list[int] = []
    types: list[bytes] = []
    for thread, _ in enumerate(test.threads):
        kind = b"\x60\0" + (b"\1" + I32 if has_result(test, thread) else b"\0")
        if kind not in types:
            types.append(kind)
        kinds.append(types.index(kind))
    codes = [b"".join(each.code for each in instructions_of(test, thread)) for thread, _ in enumerate(test.threads)]
    exports = [wasm.export(name.encode(), index) for index, name in enumerate(EXPORTS[: len(codes)])]
    return wasm.module_of([wasm.body(code) for code in codes], types, kinds, exports=exports)
