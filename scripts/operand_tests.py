#!/usr/bin/env python3
"""Writes tests/rows/operands.rows: for each instruction what `explain` says of it without operands, and of the operands
that it leaves.

The instructions are those of scripts/instruction_tests.py, with those of control. wabt's wat2wasm assembles each, and
its wasm-validate says which operands are expected and found: nothing of that comes from this repository. So the row
shows the instruction's name with its immediates, the operands that it takes, and its result.

    scripts/operand_tests.py [--check]        it needs wat2wasm and wasm-validate (Debian's wabt)
"""
import os
import re

import instruction_tests
from wmlabtools import generated, wabt

# What each instruction is in: a local, a global, and a function to call.
AROUND = (
    "(module (type (func)) (memory 1 1 shared) (global (mut i64) (i64.const 0))"
    " (func (type 0) (local i64) {code})"
    " (func (param i32 i64) (result i64) i64.const 0) (func (param i64)))"
)
# Instructions of control and of variables: what is around one, the instruction, and the rest of its block; and the type
# of its label if it has a condition too. wasm-validate looks at that type only if there is a condition.
CONTROL = [
    ("", "block", "end"),
    ("", "block (result i32)", "i32.const 0 end"),
    ("", "loop", "end"),
    ("", "loop (result i64)", "i64.const 0 end"),
    ("", "if", "end"),
    ("", "if", "else nop end"),
    ("", "if (result i64)", "i64.const 0 else i64.const 0 end"),
    ("", "br 0", ""),
    ("block (result i64)", "br 0", ""),
    ("block (result i32) loop (result i64)", "br 1", ""),
    ("", "br_if 0", ""),
    ("block (result i64)", "br_if 0", "", "i64"),
    ("block loop", "br_table 0 1 2", ""),
    ("block (result i64)", "br_table 0", "", "i64"),
    ("", "return", ""),
    ("", "unreachable", ""),
    ("", "nop", ""),
    ("", "call 1", ""),
    ("", "call 2", ""),
    ("", "drop", ""),
    ("", "select", ""),
    ("", "local.get 0", ""),
    ("", "local.set 0", ""),
    ("", "local.tee 0", ""),
    ("", "global.get 0", ""),
    ("", "global.set 0", ""),
    ("", "memory.size", ""),
    ("", "i32.const -5", ""),
    ("", "i64.const 9223372036854775807", ""),
]
# After these no code is reached, so operands of any type are below.
UNREACHED = ("br ", "br_table", "return", "unreachable")
# What finds the operands that are left: it is ill-typed after any of them.
PROBE = ("i64.const 0", "i32.add")
MISMATCH = re.compile(r"type mismatch in (\S+), expected \[(.*?)\] but got \[(.*?)\]")


def computing():
    """The instructions that are tested as functions of their own, each once."""
    found = []
    for _, functions in (*instruction_tests.NUMERIC, *instruction_tests.MEMORY):
        for _, text, *_ in functions:
            last = re.sub(r"^(?:local\.get \d+ |i\d\d\.const \S+ )*", "", text).removesuffix(" drop")
            if re.fullmatch(r"i\d\d\.[\w.]+(?: \w+=\d+)*", last) and ("", last, "") not in found:
                found.append(("", last, ""))
    return found


def assembled(code):
    """The module of this code, whose open blocks are ended, and what wasm-validate says of it."""
    opened = len(re.findall(r"\b(?:block|loop|if)\b", code)) - len(re.findall(r"\bend\b", code))
    code += " end" * opened
    module = wabt.assembled(AROUND.format(code=code), "--no-check")
    return module, wabt.said("wasm-validate", module, "--enable-threads")[1]


def mismatch(said):
    """The operands that an instruction expects and finds, of the first one that finds others."""
    found = MISMATCH.search(said)
    return found and tuple(types.replace(",", "").split() for types in found.groups()[1:])


def opcodes(code):
    """How many opcodes the code has."""
    words = re.sub(r"\(result \w+\)|\w+=\d+|(?<= )-?\d+", "", code).split()
    return len(words)


def lines(instruction, number, found, expected):
    """What `explain` prints of an instruction that finds other operands than it expects."""
    at = f"in function 0 instruction {number}"
    place = f"at instruction {number} of function 0 (both counted from 0, else and end included)"
    return (
        f"  refused valid BadType {at}\n"
        f"  The module isn't valid, {place}. {instruction} finds the operands [{' '.join(found)}], the top last."
        f" Expected: [{' '.join(expected)}].\n"
    )


def row(before, instruction, after, label=None):
    """The row of an instruction: without its operands, if it has any, and with a probe after it."""
    alone, said = assembled(f"{before} {instruction} {after}")
    takes = mismatch(said) if instruction.split(" ")[0] in said else None
    expected = [*([label] if label else []), *(takes[0] if takes else [])]
    is_unreached = instruction.startswith(UNREACHED)
    # What is below the operands is gone after a branch.
    below = ["i64.const 1"] if is_unreached else []
    given = [f"{'i64' if ty == 'any' else ty}.const 0" for ty in expected]
    code = " ".join([before, *below, *given, instruction, after])
    probed, said = assembled(" ".join([code, *PROBE]))
    expects, finds = mismatch(said)
    text = f"\n{f'{before} {instruction}'.strip()}\n"
    commands, out = [], ""
    if takes:
        text += f"  alone.wasm = {alone.hex()}\n"
        commands.append("wmlab explain alone.wasm files/cut.json")
        shown = ["T" if ty == "any" else ty for ty in expected]
        out += lines(instruction, opcodes(before), [], shown)
    text += f"  probed.wasm = {probed.hex()}\n"
    commands.append("wmlab explain probed.wasm files/cut.json")
    shown = ["..", *finds] if is_unreached else finds
    out += lines(PROBE[1], opcodes(code) + 1, shown, expects)
    return f"{text}  $ {'; '.join(commands)}\n{out}  [2]\n"


def main():
    options = generated.words_of(__doc__)
    generated.need("wat2wasm", "wasm-validate")
    head = f"# @generated by scripts/{os.path.basename(__file__)}; do not edit.\n"
    shows = "# Each instruction without operands, and with another one after it that finds what it leaves.\n"
    text = "".join(row(*each) for each in CONTROL + computing())
    generated.write_or_check({"tests/rows/operands.rows": head + shows + text}, options.check)


if __name__ == "__main__":
    main()
