#!/usr/bin/env python3
"""Writes tests/rows/unsupported.rows: modules with the instructions that are not supported, a selection of those on
vectors, and what `explain` lists of them; and engines/lowering/programs/unreached.wat: a program that has most of them
in functions that are never called.

The instructions are below as WebAssembly text. wabt's wat2wasm assembles them, and its wasm-objdump names each with its
offset: nothing of that comes from this repository. Each function ends with memory.grow, which is found only if all
instructions before it were read to their ends.

    scripts/unsupported_tests.py [--check]        it needs wat2wasm and wasm-objdump (Debian's wabt)
"""
import itertools
import os
import re

from wmlabtools import generated, wabt

ENABLED = ["--enable-exceptions", "--enable-tail-call"]
AROUND = (
    "(module (type (func)) (memory 1 1 shared) {fields} (func (type 0) {code} i32.const 0 memory.grow drop))"
)
# The instructions around them.
SUPPORTED = ("i32.const", "drop", "end", "select")
INTEGERS = ("i8x16", "i16x8", "i32x4", "i64x2")
LANES = {"i8x16": 16, "i16x8": 8, "i32x4": 4, "i64x2": 2, "f32x4": 4, "f64x2": 2}


def named(prefix, words):
    return [f"{prefix}.{word}" for word in words.split()]


def floats():
    """The instructions on floats."""
    found = ["f32.const 1.5", "f64.const 1.5"]
    for ty in ("f32", "f64"):
        found += named(ty, "load store eq ne lt gt le ge abs neg ceil floor trunc nearest sqrt add sub mul div min max")
        found += named(ty, "copysign convert_i32_s convert_i32_u convert_i64_s convert_i64_u")
    for ty, source, sign in itertools.product(("i32", "i64"), ("f32", "f64"), "su"):
        found.append(f"{ty}.trunc_{source}_{sign}")
    return found + [
        "f32.demote_f64",
        "f64.promote_f32",
        "i32.reinterpret_f32",
        "i64.reinterpret_f64",
        "f32.reinterpret_i32",
        "f64.reinterpret_i64",
    ]


def of_lanes():
    """The vector instructions that name a lane. 11 is also the opcode of `end`."""
    found = []
    for shape, lanes in LANES.items():
        signs = ("_s", "_u") if shape in ("i8x16", "i16x8") else ("",)
        lane = min(lanes - 1, 11)
        found += [f"{shape}.extract_lane{sign} {lane}" for sign in signs] + [f"{shape}.replace_lane {lane}"]
    for bits, lane in ((8, 11), (16, 7), (32, 1), (64, 1)):
        found += [f"v128.{way}{bits}_lane offset=300 {lane}" for way in ("load", "store")]
    return found


def vectors():
    """Vector instructions: all that have immediates, and a selection of the others."""
    found = ["v128.const i32x4 1 2 3 4", f"i8x16.shuffle{' 5' * 16}", "v128.load offset=300", "v128.store offset=300"]
    for shape, sign in itertools.product(("8x8", "16x4", "32x2"), "su"):
        found.append(f"v128.load{shape}_{sign}")
    found += [f"v128.load{bits}_splat" for bits in (8, 16, 32, 64)] + ["v128.load32_zero", "v128.load64_zero"]
    found += of_lanes() + [f"{shape}.splat" for shape in LANES] + ["i8x16.swizzle"]
    found += named("v128", "not and andnot or xor bitselect any_true")
    for shape in INTEGERS:
        found += named(shape, "eq ne abs neg all_true bitmask shl shr_s shr_u add sub")
        signs = ("_s",) if shape == "i64x2" else ("_s", "_u")
        found += [f"{shape}.{word}{sign}" for word in ("lt", "gt", "le", "ge") for sign in signs]
    found += ["i8x16.popcnt", "i8x16.narrow_i16x8_s", "i16x8.narrow_i32x4_u", "i32x4.dot_i16x8_s"]
    found += ["i16x8.extend_low_i8x16_s", "i16x8.extmul_high_i8x16_u", "i16x8.q15mulr_sat_s", "i64x2.mul"]
    for shape in ("f32x4", "f64x2"):
        found += named(shape, "eq ne lt gt le ge ceil floor trunc nearest abs neg sqrt")
        found += named(shape, "add sub mul div min max pmin pmax")
    return found + ["i32x4.trunc_sat_f32x4_s", "f64x2.convert_low_i32x4_u", "f32x4.demote_f64x2_zero"]


# The groups: a title, the feature that is met first, further fields of the module, and the instructions. 64 is also the
# opcode of memory.grow, which is counted if an index is taken for an instruction.
GROUPS = [
    (
        "each instruction of bulk memory, with the saturating conversions",
        "PrefixFC",
        '(data "1")',
        [f"{ty}.trunc_sat_{source}_{sign}" for ty in ("i32", "i64") for source in ("f32", "f64") for sign in "su"]
        + ["memory.init 64", "data.drop 64", "memory.copy", "memory.fill"]
        + ["table.init 64 64", "elem.drop 64", "table.copy 64 64", "table.grow 64", "table.size 64", "table.fill 64"],
    ),
    (
        "each atomic instruction that is not supported",
        "Notify",
        "",
        ["memory.atomic.notify", "memory.atomic.wait32 offset=300", "memory.atomic.wait64", "atomic.fence"]
        + ["i32.atomic.rmw8.cmpxchg_u", "i32.atomic.rmw16.cmpxchg_u offset=300", "i64.atomic.rmw8.cmpxchg_u"]
        + ["i64.atomic.rmw16.cmpxchg_u", "i64.atomic.rmw32.cmpxchg_u"],
    ),
    (
        "each instruction for tail calls and exceptions",
        "Reserved",
        "",
        ["try", "catch 64", "throw 64", "catch_all", "rethrow 64", "end", "try", "delegate 63"]
        + ["return_call 64", "return_call_indirect 64 (type 0)"],
    ),
    (
        "each instruction on references",
        "References",
        "",
        ["select (result i32)", "table.get 64", "table.set 64", "ref.null func", "ref.is_null", "ref.func 64"],
    ),
    (
        "each sign extension",
        "SignExtension",
        "",
        ["i32.extend8_s", "i32.extend16_s", "i64.extend8_s", "i64.extend16_s", "i64.extend32_s"],
    ),
    ("each instruction on floats", "Floats", "", floats()),
    ("vector instructions of each form", "Simd", "", vectors()),
    ("an indirect call", "Table", "", ["call_indirect 64 (type 0)"]),
]
# The names of parts that have more than one instruction, by a pattern of their instructions.
PARTS = {
    r"v128\..*|[if]\d+x\d+\..*": "v128",
    r".*\.trunc_sat_.*": "a saturating conversion of a float",
    r"f\d\d\..*|.*[._]f\d\d(_.*)?": "f32 or f64",
}
SELECT_WITH_TYPE = "1c"
UNREACHED = """;; @generated by scripts/unsupported_tests.py; do not edit.
;; Functions that are never called, with instructions that have no lowering.
(module
  (type (func))
  (memory (export "memory") 1 1 shared)
  (table 1 funcref)
  (elem funcref (ref.func $run))
  (data "1")
  (func $run (export "run") (param $seed i32) (param $count i32) (result i32)
    (i32.atomic.rmw.add (i32.const 8) (local.get $seed))
    (i32.store8 offset=16 (i32.and (local.get $count) (i32.const 7)))
    (i32.load (i32.const 8)))
{functions})
"""


def disassembled(code, fields):
    """A module of this code, and the offset, the first byte and the name of each of its instructions."""
    module = wabt.assembled(AROUND.format(code=" ".join(code), fields=fields), *ENABLED, "--no-check")
    listing, _ = wabt.said("wasm-objdump", module, "-d")
    return module, re.findall(r"(?m)^ ([0-9a-f]+): ([0-9a-f]{2})[^|]*\| +(\S+)", listing)


def part_of(byte, name):
    """The part that an instruction belongs to, or nothing if it is supported."""
    if name in SUPPORTED and byte != SELECT_WITH_TYPE:
        return None
    if byte == SELECT_WITH_TYPE:
        return "select with a type"
    return next((part for pattern, part in PARTS.items() if re.fullmatch(pattern, name)), name)


def row(title, feature, fields, code):
    """The row of a group: each part with its first instruction, and the number of its instructions."""
    module, listed = disassembled(code, fields)
    found: dict[str, list[int]] = {}
    for offset, byte, name in listed:
        part = part_of(byte, name)
        if part:
            found.setdefault(part, []).append(int(offset, 16))
    text = f"\n{title}\n  m.wasm = {module.hex()}\n  $ wmlab explain m.wasm files/cut.json\n"
    text += f"  refused decode Unsupported {feature} at {min(offsets[0] for offsets in found.values())}\n  ...\n"
    text += "  What the module uses that isn't supported:\n"
    for part, offsets in found.items():
        times = f", {len(offsets)} times, first" if len(offsets) > 1 else ""
        text += f"    {part}{times} in function 0 at byte {offsets[0]}. ...\n"
    if fields:
        text += "    a passive data segment (data segment 0) at byte ...\n"
    return text + "  [2]\n"


def unreached():
    """A program with functions that are never called, of these instructions. After `unreachable` the operands of any
    instruction are there. A loop follows each: without its first byte, its end would be that of the function.
    Exceptions and tail calls are left out, since engines may not take them."""
    functions = []
    for _, feature, _, code in GROUPS:
        if feature != "Reserved":
            lines = [f"    unreachable {each} loop nop end" for each in code]
            lines = [re.sub(r"\b64\b", "0", line) for line in lines]
            functions.append("\n".join([f"  (func ${feature}", *lines, "    unreachable)"]))
    return UNREACHED.format(functions="\n".join(functions))


def main() -> None:
    options = generated.words_of(__doc__)
    generated.need("wat2wasm", "wasm-objdump")
    head = f"# @generated by scripts/{os.path.basename(__file__)}; do not edit.\n"
    shows = "# Instructions that are not supported, all of a kind in one function, by their names and places.\n"
    text = "".join(row(*group) for group in GROUPS)
    files = {"tests/rows/unsupported.rows": head + shows + text, "engines/lowering/programs/unreached.wat": unreached()}
    generated.write_or_check(files, options.check)


if __name__ == "__main__":
    main()
