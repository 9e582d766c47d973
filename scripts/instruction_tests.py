#!/usr/bin/env python3
"""Writes the rows of the machine's instructions, tests/rows/instructions.rows, with their modules in tests/files: a
function for each instruction, and a log of one call of each.

The functions are below as WebAssembly text. wabt's wat2wasm assembles them, and node's WebAssembly runs each call
in an instance of its own: results, traps, and the bytes read and written come from there, and nothing from this
repository. The steps are counted here: one for each instruction, and one for leaving the function.

    scripts/instruction_tests.py [--check]        it needs wat2wasm (Debian's wabt) and node 20
"""
import json
import re
import subprocess

from wmlabtools import generated, v8, wabt

# ---- the functions: what they take and give, their text, and the arguments of the call


def f(signature, text, *arguments, local="", steps=None, trap=None):
    """A function and a call of it. `steps` is given if its code isn't a straight line. `trap` is given if two rules
    of a trap apply, an atomic access that is unaligned and past the memory: node names the other one, and logs name
    this."""
    return signature, text, arguments, local, steps, trap


def helper(signature, text):
    """A function that no thread starts with."""
    return signature, text, None, "", None, None


NUMERIC = [
    (
        "the operators on two operands of 32 bits",
        [
            f("i32 i32 -> i32", "local.get 0 local.get 1 i32.add", 2147483649, 4294967294),
            f("i32 i32 -> i32", "local.get 0 local.get 1 i32.sub", 4294967294, 305419896),
            f("i32 i32 -> i32", "local.get 0 local.get 1 i32.mul", 305419896, 7),
            f("i32 i32 -> i32", "local.get 0 local.get 1 i32.div_s", 7, 2147483648),
            f("i32 i32 -> i32", "local.get 0 local.get 1 i32.div_u", 2147483649, 33),
            f("i32 i32 -> i32", "local.get 0 local.get 1 i32.rem_s", 4294967294, 2147483649),
            f("i32 i32 -> i32", "local.get 0 local.get 1 i32.rem_u", 305419896, 4294967294),
            f("i32 i32 -> i32", "local.get 0 local.get 1 i32.and", 7, 305419896),
            f("i32 i32 -> i32", "local.get 0 local.get 1 i32.or", 2147483649, 7),
            f("i32 i32 -> i32", "local.get 0 local.get 1 i32.xor", 4294967294, 2147483648),
            f("i32 i32 -> i32", "local.get 0 local.get 1 i32.shl", 305419896, 33),
            f("i32 i32 -> i32", "local.get 0 local.get 1 i32.shr_s", 7, 2147483649),
            f("i32 i32 -> i32", "local.get 0 local.get 1 i32.shr_u", 2147483649, 4294967294),
            f("i32 i32 -> i32", "local.get 0 local.get 1 i32.rotl", 4294967294, 305419896),
            f("i32 i32 -> i32", "local.get 0 local.get 1 i32.rotr", 305419896, 7),
        ],
    ),
    (
        "the comparisons and the counts of 32 bits",
        [
            f("i32 i32 -> i32", "local.get 0 local.get 1 i32.eq", 2147483649, 305419896),
            f("i32 i32 -> i32", "local.get 0 local.get 1 i32.ne", 4294967294, 4294967294),
            f("i32 i32 -> i32", "local.get 0 local.get 1 i32.lt_s", 305419896, 2147483649),
            f("i32 i32 -> i32", "local.get 0 local.get 1 i32.lt_u", 7, 33),
            f("i32 i32 -> i32", "local.get 0 local.get 1 i32.gt_s", 2147483648, 2147483648),
            f("i32 i32 -> i32", "local.get 0 local.get 1 i32.gt_u", 33, 7),
            f("i32 i32 -> i32", "local.get 0 local.get 1 i32.le_s", 2147483649, 305419896),
            f("i32 i32 -> i32", "local.get 0 local.get 1 i32.le_u", 4294967294, 4294967294),
            f("i32 i32 -> i32", "local.get 0 local.get 1 i32.ge_s", 305419896, 2147483649),
            f("i32 i32 -> i32", "local.get 0 local.get 1 i32.ge_u", 7, 33),
            f("i32 -> i32", "local.get 0 i32.eqz", 0),
            f("i32 -> i32", "local.get 0 i32.clz", 9544371),
            f("i32 -> i32", "local.get 0 i32.ctz", 591751040),
            f("i32 -> i32", "local.get 0 i32.popcnt", 4294967294),
        ],
    ),
    (
        "the operators on two operands of 64 bits",
        [
            f("i64 i64 -> i64", "local.get 0 local.get 1 i64.add", 9223372036854775809, 18446744073709551614),
            f("i64 i64 -> i64", "local.get 0 local.get 1 i64.sub", 18446744073709551614, 1311768467463790320),
            f("i64 i64 -> i64", "local.get 0 local.get 1 i64.mul", 1311768467463790320, 7),
            f("i64 i64 -> i64", "local.get 0 local.get 1 i64.div_s", 7, 65),
            f("i64 i64 -> i64", "local.get 0 local.get 1 i64.div_u", 9223372036854775809, 9223372036854775808),
            f("i64 i64 -> i64", "local.get 0 local.get 1 i64.rem_s", 18446744073709551614, 9223372036854775809),
            f("i64 i64 -> i64", "local.get 0 local.get 1 i64.rem_u", 1311768467463790320, 18446744073709551614),
            f("i64 i64 -> i64", "local.get 0 local.get 1 i64.and", 7, 1311768467463790320),
            f("i64 i64 -> i64", "local.get 0 local.get 1 i64.or", 9223372036854775809, 7),
            f("i64 i64 -> i64", "local.get 0 local.get 1 i64.xor", 18446744073709551614, 65),
            f("i64 i64 -> i64", "local.get 0 local.get 1 i64.shl", 1311768467463790320, 9223372036854775808),
            f("i64 i64 -> i64", "local.get 0 local.get 1 i64.shr_s", 7, 9223372036854775809),
            f("i64 i64 -> i64", "local.get 0 local.get 1 i64.shr_u", 9223372036854775809, 18446744073709551614),
            f("i64 i64 -> i64", "local.get 0 local.get 1 i64.rotl", 18446744073709551614, 1311768467463790320),
            f("i64 i64 -> i64", "local.get 0 local.get 1 i64.rotr", 1311768467463790320, 7),
        ],
    ),
    (
        "the comparisons and the counts of 64 bits",
        [
            f("i64 i64 -> i32", "local.get 0 local.get 1 i64.eq", 9223372036854775809, 1311768467463790320),
            f("i64 i64 -> i32", "local.get 0 local.get 1 i64.ne", 18446744073709551614, 18446744073709551614),
            f("i64 i64 -> i32", "local.get 0 local.get 1 i64.lt_s", 1311768467463790320, 9223372036854775809),
            f("i64 i64 -> i32", "local.get 0 local.get 1 i64.lt_u", 7, 9223372036854775808),
            f("i64 i64 -> i32", "local.get 0 local.get 1 i64.gt_s", 65, 65),
            f("i64 i64 -> i32", "local.get 0 local.get 1 i64.gt_u", 9223372036854775808, 7),
            f("i64 i64 -> i32", "local.get 0 local.get 1 i64.le_s", 9223372036854775809, 1311768467463790320),
            f("i64 i64 -> i32", "local.get 0 local.get 1 i64.le_u", 18446744073709551614, 18446744073709551614),
            f("i64 i64 -> i32", "local.get 0 local.get 1 i64.ge_s", 1311768467463790320, 9223372036854775809),
            f("i64 i64 -> i32", "local.get 0 local.get 1 i64.ge_u", 7, 9223372036854775808),
            f("i64 -> i32", "local.get 0 i64.eqz", 0),
            f("i64 -> i64", "local.get 0 i64.clz", 40992764608243447),
            f("i64 -> i64", "local.get 0 i64.ctz", 2541551405711093504),
            f("i64 -> i64", "local.get 0 i64.popcnt", 18446744073709551614),
        ],
    ),
    (
        "the conversions, and the traps of divisions",
        [
            f("i64 -> i32", "local.get 0 i32.wrap_i64", 1311768467463790320),
            f("i32 -> i64", "local.get 0 i64.extend_i32_s", 2147483648),
            f("i32 -> i64", "local.get 0 i64.extend_i32_u", 2147483648),
            f("i32 i32 -> i32", "local.get 0 local.get 1 i32.div_s", 5, 0),
            f("i32 i32 -> i32", "local.get 0 local.get 1 i32.div_u", 5, 0),
            f("i32 i32 -> i32", "local.get 0 local.get 1 i32.rem_s", 5, 0),
            f("i32 i32 -> i32", "local.get 0 local.get 1 i32.rem_u", 5, 0),
            f("i32 i32 -> i32", "local.get 0 local.get 1 i32.div_s", 2147483648, 4294967295),
            f("i32 i32 -> i32", "local.get 0 local.get 1 i32.rem_s", 2147483648, 4294967295),
            f("i64 i64 -> i64", "local.get 0 local.get 1 i64.div_s", 5, 0),
            f("i64 i64 -> i64", "local.get 0 local.get 1 i64.div_u", 5, 0),
            f("i64 i64 -> i64", "local.get 0 local.get 1 i64.rem_s", 5, 0),
            f("i64 i64 -> i64", "local.get 0 local.get 1 i64.rem_u", 5, 0),
            f("i64 i64 -> i64", "local.get 0 local.get 1 i64.div_s", 9223372036854775808, 18446744073709551615),
            f("i64 i64 -> i64", "local.get 0 local.get 1 i64.rem_s", 9223372036854775808, 18446744073709551615),
        ],
    ),
]

MEMORY = [
    (
        "the loads",
        [
            f("i32 -> i32", "local.get 0 i32.load offset=3 align=1", 0),
            f("i32 -> i64", "local.get 0 i64.load offset=3 align=1", 16),
            f("i32 -> i32", "local.get 0 i32.load8_s offset=3", 32),
            f("i32 -> i32", "local.get 0 i32.load8_u offset=3", 48),
            f("i32 -> i32", "local.get 0 i32.load16_s offset=3 align=1", 64),
            f("i32 -> i32", "local.get 0 i32.load16_u offset=3 align=1", 80),
            f("i32 -> i64", "local.get 0 i64.load8_s offset=3", 96),
            f("i32 -> i64", "local.get 0 i64.load8_u offset=3", 112),
            f("i32 -> i64", "local.get 0 i64.load16_s offset=3 align=1", 128),
            f("i32 -> i64", "local.get 0 i64.load16_u offset=3 align=1", 144),
            f("i32 -> i64", "local.get 0 i64.load32_s offset=3 align=1", 160),
            f("i32 -> i64", "local.get 0 i64.load32_u offset=3 align=1", 176),
        ],
    ),
    (
        "the stores, and memory.size",
        [
            f("i32 i32 ->", "local.get 0 local.get 1 i32.store offset=5 align=1", 0, 2452903544),
            f("i32 i64 ->", "local.get 0 local.get 1 i64.store offset=5 align=1", 16, 10535140504318566128),
            f("i32 i32 ->", "local.get 0 local.get 1 i32.store8 offset=5", 32, 2452903544),
            f("i32 i32 ->", "local.get 0 local.get 1 i32.store16 offset=5 align=1", 48, 2452903544),
            f("i32 i64 ->", "local.get 0 local.get 1 i64.store8 offset=5", 64, 10535140504318566128),
            f("i32 i64 ->", "local.get 0 local.get 1 i64.store16 offset=5 align=1", 80, 10535140504318566128),
            f("i32 i64 ->", "local.get 0 local.get 1 i64.store32 offset=5 align=1", 96, 10535140504318566128),
            f("-> i32", "memory.size"),
        ],
    ),
    (
        "the atomic loads and stores",
        [
            f("i32 -> i32", "local.get 0 i32.atomic.load offset=8", 0),
            f("i32 -> i64", "local.get 0 i64.atomic.load offset=8", 16),
            f("i32 -> i32", "local.get 0 i32.atomic.load8_u offset=8", 32),
            f("i32 -> i32", "local.get 0 i32.atomic.load16_u offset=8", 48),
            f("i32 -> i64", "local.get 0 i64.atomic.load8_u offset=8", 64),
            f("i32 -> i64", "local.get 0 i64.atomic.load16_u offset=8", 80),
            f("i32 -> i64", "local.get 0 i64.atomic.load32_u offset=8", 96),
            f("i32 i32 ->", "local.get 0 local.get 1 i32.atomic.store offset=8", 112, 4294967294),
            f("i32 i64 ->", "local.get 0 local.get 1 i64.atomic.store offset=8", 128, 18446744073709551614),
            f("i32 i32 ->", "local.get 0 local.get 1 i32.atomic.store8 offset=8", 144, 4294967294),
            f("i32 i32 ->", "local.get 0 local.get 1 i32.atomic.store16 offset=8", 160, 4294967294),
            f("i32 i64 ->", "local.get 0 local.get 1 i64.atomic.store8 offset=8", 176, 18446744073709551614),
            f("i32 i64 ->", "local.get 0 local.get 1 i64.atomic.store16 offset=8", 192, 18446744073709551614),
            f("i32 i64 ->", "local.get 0 local.get 1 i64.atomic.store32 offset=8", 208, 18446744073709551614),
        ],
    ),
    (
        "the atomic updates add and sub",
        [
            f("i32 i32 -> i32", "local.get 0 local.get 1 i32.atomic.rmw.add", 0, 4294967294),
            f("i32 i64 -> i64", "local.get 0 local.get 1 i64.atomic.rmw.add", 16, 18446744073709551614),
            f("i32 i32 -> i32", "local.get 0 local.get 1 i32.atomic.rmw8.add_u", 32, 4294967294),
            f("i32 i32 -> i32", "local.get 0 local.get 1 i32.atomic.rmw16.add_u", 48, 4294967294),
            f("i32 i64 -> i64", "local.get 0 local.get 1 i64.atomic.rmw8.add_u", 64, 18446744073709551614),
            f("i32 i64 -> i64", "local.get 0 local.get 1 i64.atomic.rmw16.add_u", 80, 18446744073709551614),
            f("i32 i64 -> i64", "local.get 0 local.get 1 i64.atomic.rmw32.add_u", 96, 18446744073709551614),
            f("i32 i32 -> i32", "local.get 0 local.get 1 i32.atomic.rmw.sub", 112, 4294967294),
            f("i32 i64 -> i64", "local.get 0 local.get 1 i64.atomic.rmw.sub", 128, 18446744073709551614),
            f("i32 i32 -> i32", "local.get 0 local.get 1 i32.atomic.rmw8.sub_u", 144, 4294967294),
            f("i32 i32 -> i32", "local.get 0 local.get 1 i32.atomic.rmw16.sub_u", 160, 4294967294),
            f("i32 i64 -> i64", "local.get 0 local.get 1 i64.atomic.rmw8.sub_u", 176, 18446744073709551614),
            f("i32 i64 -> i64", "local.get 0 local.get 1 i64.atomic.rmw16.sub_u", 192, 18446744073709551614),
            f("i32 i64 -> i64", "local.get 0 local.get 1 i64.atomic.rmw32.sub_u", 208, 18446744073709551614),
        ],
    ),
    (
        "the atomic updates and and or",
        [
            f("i32 i32 -> i32", "local.get 0 local.get 1 i32.atomic.rmw.and", 0, 4294967294),
            f("i32 i64 -> i64", "local.get 0 local.get 1 i64.atomic.rmw.and", 16, 18446744073709551614),
            f("i32 i32 -> i32", "local.get 0 local.get 1 i32.atomic.rmw8.and_u", 32, 4294967294),
            f("i32 i32 -> i32", "local.get 0 local.get 1 i32.atomic.rmw16.and_u", 48, 4294967294),
            f("i32 i64 -> i64", "local.get 0 local.get 1 i64.atomic.rmw8.and_u", 64, 18446744073709551614),
            f("i32 i64 -> i64", "local.get 0 local.get 1 i64.atomic.rmw16.and_u", 80, 18446744073709551614),
            f("i32 i64 -> i64", "local.get 0 local.get 1 i64.atomic.rmw32.and_u", 96, 18446744073709551614),
            f("i32 i32 -> i32", "local.get 0 local.get 1 i32.atomic.rmw.or", 112, 4294967294),
            f("i32 i64 -> i64", "local.get 0 local.get 1 i64.atomic.rmw.or", 128, 18446744073709551614),
            f("i32 i32 -> i32", "local.get 0 local.get 1 i32.atomic.rmw8.or_u", 144, 4294967294),
            f("i32 i32 -> i32", "local.get 0 local.get 1 i32.atomic.rmw16.or_u", 160, 4294967294),
            f("i32 i64 -> i64", "local.get 0 local.get 1 i64.atomic.rmw8.or_u", 176, 18446744073709551614),
            f("i32 i64 -> i64", "local.get 0 local.get 1 i64.atomic.rmw16.or_u", 192, 18446744073709551614),
            f("i32 i64 -> i64", "local.get 0 local.get 1 i64.atomic.rmw32.or_u", 208, 18446744073709551614),
        ],
    ),
    (
        "the atomic updates xor and xchg",
        [
            f("i32 i32 -> i32", "local.get 0 local.get 1 i32.atomic.rmw.xor", 0, 4294967294),
            f("i32 i64 -> i64", "local.get 0 local.get 1 i64.atomic.rmw.xor", 16, 18446744073709551614),
            f("i32 i32 -> i32", "local.get 0 local.get 1 i32.atomic.rmw8.xor_u", 32, 4294967294),
            f("i32 i32 -> i32", "local.get 0 local.get 1 i32.atomic.rmw16.xor_u", 48, 4294967294),
            f("i32 i64 -> i64", "local.get 0 local.get 1 i64.atomic.rmw8.xor_u", 64, 18446744073709551614),
            f("i32 i64 -> i64", "local.get 0 local.get 1 i64.atomic.rmw16.xor_u", 80, 18446744073709551614),
            f("i32 i64 -> i64", "local.get 0 local.get 1 i64.atomic.rmw32.xor_u", 96, 18446744073709551614),
            f("i32 i32 -> i32", "local.get 0 local.get 1 i32.atomic.rmw.xchg", 112, 4294967294),
            f("i32 i64 -> i64", "local.get 0 local.get 1 i64.atomic.rmw.xchg", 128, 18446744073709551614),
            f("i32 i32 -> i32", "local.get 0 local.get 1 i32.atomic.rmw8.xchg_u", 144, 4294967294),
            f("i32 i32 -> i32", "local.get 0 local.get 1 i32.atomic.rmw16.xchg_u", 160, 4294967294),
            f("i32 i64 -> i64", "local.get 0 local.get 1 i64.atomic.rmw8.xchg_u", 176, 18446744073709551614),
            f("i32 i64 -> i64", "local.get 0 local.get 1 i64.atomic.rmw16.xchg_u", 192, 18446744073709551614),
            f("i32 i64 -> i64", "local.get 0 local.get 1 i64.atomic.rmw32.xchg_u", 208, 18446744073709551614),
        ],
    ),
    (
        "compare-exchanges, and the traps of accesses",
        [
            f(
                "i32 i32 i32 -> i32",
                "local.get 0 local.get 1 local.get 2 i32.atomic.rmw.cmpxchg",
                0,
                4039878273,
                305419896,
            ),
            f(
                "i32 i32 i32 -> i32",
                "local.get 0 local.get 1 local.get 2 i32.atomic.rmw.cmpxchg",
                16,
                1075574480,
                305419896,
            ),
            f(
                "i32 i64 i64 -> i64",
                "local.get 0 local.get 1 local.get 2 i64.atomic.rmw.cmpxchg",
                32,
                2666089977773508129,
                1311768467463790320,
            ),
            f(
                "i32 i64 i64 -> i64",
                "local.get 0 local.get 1 local.get 2 i64.atomic.rmw.cmpxchg",
                48,
                8380963636293375600,
                1311768467463790320,
            ),
            f("i32 ->", "local.get 0 i32.atomic.load drop", 2),
            f("i32 ->", "local.get 0 i32.atomic.load offset=2 drop", 65533, trap="unaligned"),
            f("i32 ->", "local.get 0 i32.load align=1 drop", 65533),
            f("i32 ->", "local.get 0 i64.atomic.load drop", 65532, trap="unaligned"),
            f("i32 ->", "local.get 0 i64.const 1 i64.store align=1", 65529),
            f("i32 ->", "local.get 0 i32.load offset=4294967295 align=1 drop", 4294967295),
            f("->", "unreachable"),
        ],
    ),
]

CONTROL = [
    (
        "control instructions and variables",
        [
            f(
                "i32 -> i32",
                "loop local.get 1 local.get 0 i32.add local.set 1 local.get 0 i32.const 1 i32.sub local.tee 0 "
                "br_if 0 end local.get 1",
                5,
                local="i32",
                steps=53,
            ),
            f(
                "i32 -> i32",
                "block (result i32) block block local.get 0 br_table 0 1 0 1 end i32.const 10 br 1 end "
                "i32.const 20 end",
                0,
                steps=8,
            ),
            f(
                "i32 -> i32",
                "block (result i32) block block local.get 0 br_table 0 1 0 1 end i32.const 10 br 1 end "
                "i32.const 20 end",
                1,
                steps=8,
            ),
            f(
                "i32 -> i32",
                "block (result i32) block block local.get 0 br_table 0 1 0 1 end i32.const 10 br 1 end "
                "i32.const 20 end",
                9,
                steps=8,
            ),
            f("i32 -> i64", "local.get 0 if (result i64) i64.const 1 else i64.const 2 end", 0, steps=5),
            f("i32 -> i64", "local.get 0 if (result i64) i64.const 1 else i64.const 2 end", 3, steps=5),
            f("i32 -> i32", "i32.const 1 local.get 0 if nop end", 0, steps=5),
            f("i32 -> i32", "i32.const 1 local.get 0 if nop end", 1, steps=6),
            f("i32 -> i32", "i32.const 7 i32.const 8 local.get 0 select", 0, steps=5),
            f("i32 -> i32", "i32.const 7 i32.const 8 local.get 0 select", 2, steps=5),
            f("i32 i32 -> i32", "local.get 1 local.get 0 call 16", 3, 40, steps=8),
            f("-> i64", "global.get 0 i64.const 1 i64.add global.set 0 global.get 0", steps=6),
            f("i32 -> i32", "local.get 0 if i32.const 5 i32.const 6 return end i32.const 9", 1, steps=5),
            f("i32 -> i32", "block (result i32) i32.const 1 i32.const 2 local.get 0 br_if 0 drop end", 0, steps=8),
            f("i32 -> i32", "block (result i32) i32.const 1 i32.const 2 local.get 0 br_if 0 drop end", 1, steps=6),
            f("i32 -> i32", "i32.const 3 i32.const 4 local.get 0 br 0", 5, steps=4),
            helper("i32 i32 -> i32", "local.get 0 local.get 1 i32.sub"),
        ],
    ),
]

# ---- modules


# The first bytes of the memory: 37 k + 129 at k, mod 256.
DATA = bytes((37 * k + 129) % 256 for k in range(400))


def parts(signature):
    takes, _, gives = signature.partition("->")
    return takes.split(), gives.split()


def clause(word, types):
    return f" ({word} {' '.join(types)})" if types else ""


def module_text(functions, data, has_global, exports_memory):
    lines = []
    for number, (signature, text, arguments, local, *_) in enumerate(functions):
        takes, gives = parts(signature)
        fields = [f"(type (func{clause('param', takes)}{clause('result', gives)}))"]
        fields.append(f"(func (type {number}){clause('local', local.split())} {text})")
        if arguments is not None:
            fields.append(f'(export "f{number}" (func {number}))')
        lines.append(" ".join(fields))
    lines.append("(memory 1 1 shared)")
    if has_global:
        lines.append("(global (mut i64) (i64.const 41))")
    if exports_memory:
        lines.append('(export "memory" (memory 0))')
    if data:
        lines.append("(data (i32.const 0)")
        for start in range(0, len(data), 25):
            lines.append('  "' + "".join(f"\\{byte:02x}" for byte in data[start : start + 25]) + '"')
        lines[-1] += ")"
    return "(module\n" + "\n".join(f"  {line}" for line in lines) + ")"


# ---- runs

RUN = """
const calls = JSON.parse(require("fs").readFileSync(0, "utf8"));
const bytes = (memory) => Buffer.from(new Uint8Array(memory.buffer).slice(0, 1024)).toString("hex");
const answers = calls.map((call) => {
  const instance = new WebAssembly.Instance(new WebAssembly.Module(Buffer.from(call.wasm, "hex")));
  const before = bytes(instance.exports.memory);
  const given = call.arguments.map((n, k) => (call.types[k] === "i64" ? BigInt(n) : Number(n)));
  let result = null, trap = null;
  try {
    const value = instance.exports[call.name](...given);
    if (value !== undefined)
      result = typeof value === "bigint" ? String(BigInt.asUintN(64, value)) : String(value >>> 0);
  } catch (error) {
    trap = error.message;
  }
  return { result, trap, before, after: bytes(instance.exports.memory) };
});
console.log(JSON.stringify(answers));
"""

def answers(calls):
    ran = subprocess.run(["node", "-e", RUN], input=json.dumps(calls), capture_output=True, text=True, check=True)
    return json.loads(ran.stdout)


def access_of(text):
    """The kind, the order, the width and the offset of a function's access, if it makes one."""
    found = re.search(r"(i32|i64)\.(atomic\.)?(load|store|rmw)(\d*)(\S*)( offset=(\d+))?", text)
    if not found:
        return None
    whole, atomic, kind, narrow, _, _, offset = found.groups()
    return kind, "sc" if atomic else "un", int(narrow or whole[1:]) // 8, int(offset or 0)


def event_of(text, arguments, answer):
    """The event of a call that made an access and did not trap, with the number of its writers."""
    access = access_of(text)
    if access is None or answer["trap"] is not None:
        return None, 0
    kind, order, width, offset = access
    address = arguments[0] + offset
    value = lambda memory: int.from_bytes(bytes.fromhex(answer[memory])[address : address + width], "little")
    if kind == "store":
        return ["w", order, address, width, value("after")], 0
    if kind == "load" or ("cmpxchg" in text and value("before") != arguments[1]):
        return ["r", order, address, width, value("before")], width
    return ["x", order, address, width, value("before"), value("after")], width


def instructions(text):
    words = [word for word in text.split() if not re.fullmatch(r"\(result|i\d\d\)|\S+=\d+|\d+", word)]
    return len(words)


def document_of(functions, data, has_global):
    started = [(n, each) for n, each in enumerate(functions) if each[2] is not None]
    wasm = wabt.assembled(module_text(functions, data, has_global, True)).hex()
    calls = [
        {"wasm": wasm, "name": f"f{n}", "types": parts(signature)[0], "arguments": [str(a) for a in arguments]}
        for n, (signature, _, arguments, *_) in started
    ]
    threads, writers, order = [], [], []
    for number, ((n, (_, text, arguments, _, steps, trap)), answer) in enumerate(zip(started, answers(calls))):
        event, count = event_of(text, arguments, answer)
        if answer["trap"] is not None:
            end = ["trap", trap or v8.TRAPS[answer["trap"]]]
            # The last instruction that is made is the access, the division or `unreachable`.
            made = instructions(text.removesuffix(" drop"))
        else:
            end = ["done", [] if answer["result"] is None else [int(answer["result"])]]
            made = instructions(text) + 1
        threads.append([f"f{n}", list(arguments), end, steps or made, [event] if event else []])
        writers.append([[[]] * count] if event else [])
        if event:
            order.append([number, 0])
    line = f"allowed threads={len(threads)} events={len(order)}"
    return json.dumps(["wasm-litmus-log", 1, threads, [writers, order]], separators=(",", ":")), line


# ---- files


def files_of_rows():
    """tests/rows/instructions.rows, and its modules."""
    head = "# @generated by scripts/instruction_tests.py; do not edit.\n"
    shows = "# Each instruction in a function of its own, with the result, the trap or the bytes that node gives.\n"
    text, files = head + shows, {}
    tables = (
        [(each, b"", False) for each in NUMERIC] + [(each, DATA, False) for each in MEMORY] + [(CONTROL[0], b"", True)]
    )
    for (title, functions), data, has_global in tables:
        name = "instructions-" + re.sub(r"\W+", "-", title)
        document, line = document_of(functions, data, has_global)
        files[f"tests/files/{name}.wasm"] = wabt.assembled(module_text(functions, data, has_global, False))
        text += f"\n{title}\n  log.json = {document}\n  $ wmlab check files/{name}.wasm log.json\n  {line}\n"
    return {"tests/rows/instructions.rows": text, **files}


def main():
    options = generated.words_of(__doc__)
    generated.need("wat2wasm", "node")
    generated.write_or_check(files_of_rows(), options.check)


if __name__ == "__main__":
    main()
