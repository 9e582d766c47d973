#!/usr/bin/env python3
"""Runs random programs in node and in the built program, and compares what they do.

    scripts/random_programs.py [--wmlab PATH] [--count N] [--seed N] [--lowered]        500 programs, seed 1

It needs node.

Each function of a program is called by node, and runs as the only thread of a script by `wmlab drive`. Both have to
end with the same result or trap, and to leave the same memory: for wmlab, what the writes of its log make of the
initial one. The text of `explain` on the log has to be as a plain program writes it, and to name for each event an
instruction that makes such an access. Each turn of `trace` has to be at an instruction to which the one before it
leads, by a second reading of the code.

Then instructions of the program are changed at random, and of the modules that come of it `wmlab check` has to refuse
those that node refuses, and no other.

With --lowered programs also have what `engines/lower` replaces: floats, waits, memory that grows and thread-local
variables among others. node runs them as they are, and wmlab as they are lowered; none is changed.

The last line is `N passed, N failed`.
"""
import copy
import hashlib
import json
import os
import re
import subprocess
import tempfile

from wmlabtools import TOP, generated, harness, v8
from wmlabtools.compiled import BLOCK_AT, CompiledProgram
from wmlabtools.explained import Difference, expect, expect_run
from wmlabtools.flow import path_fault
from wmlabtools.log import MAX_EVENTS
from wmlabtools.programs import ACCESSES, BITS, PREFIX, Program, argument, change

TRAPS = {
    **v8.TRAPS,
    # What a lowered call through a table does.
    "table index is out of bounds": "unreachable",
    "null function or function signature mismatch": "unreachable",
    # What an integer function does that truncates a float.
    "float unrepresentable in integer range": "unreachable",
}
# V8 reports the bounds of an atomic access that breaks both rules.
SAME_TRAP = ("trap:out-of-bounds", "trap:unaligned")
CHANGES = 5
STEPS = 1_000_000
PLACE = re.compile(r"0 function=(\d+) instruction=(\d+) offset=0x([0-9a-f]+) ")
IS_CUT = "cut"
# How many programs one process of node is given.
BATCH = 25
# How many turns of a run are traced.
TRACED = 2_000


class Case:
    """A random program with a call of each of its functions, and changes of it."""

    def __init__(self, number, chance, is_lowered):
        self.number, self.is_lowered = number, is_lowered
        self.lowered = CompiledProgram(chance) if is_lowered else None
        self.program: Program = self.lowered or Program(chance)
        self.calls = [
            [(BITS[kind], str(argument(chance, kind))) for kind in function.parameters]
            for function in self.program.functions
        ]
        self.changed = []
        for _ in range(0 if is_lowered else CHANGES):
            program = copy.deepcopy(self.program)
            change(chance, program)
            self.changed.append(program.module())

    def layout(self):
        """What node has to know of the memory of a program that is lowered."""
        if self.lowered is None:
            return {}
        own = self.lowered.own
        block = None if own is None else {"at": BLOCK_AT, "bytes": own.hex()}
        return {"pages": self.lowered.most_pages or self.lowered.pages, "block": block}

    def lowered_place(self, address, index):
        """Where the bytes at an address of wmlab's module are in node's; None if they are not there."""
        return self.lowered.lowered_place(address, index) if self.lowered else address

    def requests(self):
        """What node is asked: the calls, and whether the changed modules are valid."""
        calls = [{"name": f"f{index}", "args": args} for index, args in enumerate(self.calls)]
        yield {"module": self.program.module().hex(), "calls": calls, **self.layout()}
        for module in self.changed:
            yield {"module": module.hex(), "calls": []}


def node_answers(cases):
    """What node answers to the requests of these cases, one after the other."""
    lines = "".join(json.dumps(request) + "\n" for case in cases for request in case.requests())
    script = os.path.join(os.path.dirname(os.path.abspath(__file__)), "wmlabtools", "calls.mjs")
    ran = subprocess.run(["node", script], input=lines, stdout=subprocess.PIPE, text=True, check=True, timeout=120)
    return map(json.loads, ran.stdout.splitlines())


def end_in_node(call):
    """How a call ended in node, as an outcome prints it."""
    if "trap" in call:
        return "trap:" + TRAPS.get(call["trap"], call["trap"])
    return "-" if call["result"] is None else call["result"]


def memory_digest(case, index, events):
    """The digest of the memory after these events of the only thread, which started with function `index`."""
    memory = case.program.memory()
    for event in events:
        if event[0] != "r":
            address, width = case.lowered_place(event[2], index), event[3]
            value = event[4] if event[0] == "w" else event[5]
            if address is not None:
                memory[address : address + width] = value.to_bytes(width, "little")
    return hashlib.sha256(memory).hexdigest()


def call_fault(wmlab, case, path, index, call):
    """What differs between a call in node and the run of its thread; None if nothing does, IS_CUT if the run takes more
    steps or events than a log may have."""
    start = ":".join([f"f{index}", *(value for _, value in case.calls[index])])
    out, err, status = harness.run(wmlab, ["drive", path, f"0*{STEPS}", start])
    lines = out.splitlines()
    if status or err or len(lines) != 3:
        return start, out, err, status
    end, wanted = lines[0].removeprefix("outcome "), end_in_node(call)
    (thread,) = json.loads(lines[2])[2]
    alike = end == wanted or (wanted, end) == SAME_TRAP
    if end == "cut" and (thread[3] == STEPS or len(thread[4]) == MAX_EVENTS):
        return IS_CUT
    # node has no memory if the start function traps.
    memory = call["memory"] and memory_digest(case, index, thread[4])
    if not alike or memory != call["memory"]:
        return start, "node", call, "wmlab", out
    # A module that was lowered has other instructions.
    if case.is_lowered:
        return None
    return explanation_fault(wmlab, case, path, lines[2]) or trace_fault(wmlab, case, path, start, thread[3])


def explanation_fault(wmlab, case, path, log):
    """What is wrong with the text that explains the log of a call; None if nothing is. Each event has to have an
    instruction that makes such an access."""
    text, err, status = harness.run(wmlab, ["explain", path, "-"], input=log.encode())
    instructions = case.program.instructions()

    def site_fault(event, offset, number, function):
        index, own_number, instruction = instructions.get(offset, (None, None, b""))
        kinds, is_atomic, width = ACCESSES.get(instruction[: 1 + (instruction[:1] == PREFIX)], ("", None, None))
        makes_it = event.kind in kinds and (event.atomic, event.width) == (is_atomic, width)
        is_named = (own_number, f"f{index}") == (number, function)
        return None if makes_it and is_named else "another instruction"

    try:
        expect((err, status) == ("", 0), "it is not allowed")
        expect_run(text.splitlines(), log, site_fault)
    except Difference as difference:
        return str(difference), log, text
    return None


def trace_fault(wmlab, case, path, start, steps):
    """What is wrong with the places of a traced run; None if nothing is. Each turn has to be at an instruction of the
    program, by its number and offset, to which the one before it leads."""
    turns = min(steps, TRACED)
    out, err, status = harness.run(wmlab, ["trace", path, f"0*{turns}", start])
    lines, instructions, places = out.splitlines()[:-1], case.program.instructions(), []
    if status or err or len(lines) != turns:
        return "trace", start, out, err, status
    for line in lines:
        found = PLACE.match(line)
        if found is None:
            return "a line without a place", start, line
        function, number, offset = int(found[1]), int(found[2]), int(found[3], 16)
        if instructions.get(offset, ())[:2] != (function, number):
            return "no such instruction", start, line
        places.append((function, number))
    fault = path_fault([function.code for function in case.program.functions], places)
    return fault and (fault, start, out)


def validity_fault(wmlab, module, is_valid, path):
    """The line of `check` if it takes an invalid module or refuses a valid one; None if it does neither. An empty
    document is refused after the module."""
    with open(path, "wb") as file:
        file.write(module)
    out, err, status = harness.run(wmlab, ["check", path, os.devnull])
    expected = ("refused document ",) if is_valid else ("refused decode ", "refused valid ")
    return None if out.startswith(expected) and status == 2 and not err else (module.hex(), out, err, status)


def lowered_module(module, folder):
    """What `engines/lower` makes of a module, None if it refuses it, and what it says."""
    source, path = os.path.join(folder, "source.wasm"), os.path.join(folder, "lowered.wasm")
    with open(source, "wb") as file:
        file.write(module)
    words = [os.path.join(TOP, "engines", "lower"), source, "-o", path, "--soft-floats", "--tls", "auto"]
    ran = subprocess.run(words, capture_output=True, text=True, check=False)
    if ran.returncode:
        return None, ran.stderr
    with open(path, "rb") as file:
        return file.read(), ran.stdout


def program_fault(wmlab, case, is_valid, path):
    """Why a program cannot be run by both; None if it can. Leaves at the path the module for wmlab."""
    module, said = case.program.module(), ""
    if case.is_lowered:
        module, said = lowered_module(module, os.path.dirname(path))
        case.program.has_blocks = "thread-local variables begin at" in said
        case.program.has_growth = "memory.grow replaced by" in said
    if not is_valid or module is None:
        return "a program", said
    return validity_fault(wmlab, module, True, path)


def batch(wmlab, cases):
    """How many comparisons of these programs hold, and what came of those that do not."""
    answers = node_answers(cases)
    held, wrong = 0, []
    with tempfile.TemporaryDirectory() as folder:
        path = os.path.join(folder, "program.wasm")
        for case in cases:
            whole = next(answers)
            faults = [program_fault(wmlab, case, whole["valid"], path)]
            if faults == [None]:
                faults += [call_fault(wmlab, case, path, index, call) for index, call in enumerate(whole["calls"])]
            faults += [validity_fault(wmlab, module, next(answers)["valid"], path) for module in case.changed]
            held += faults.count(None)
            wrong += [(case.number, fault) for fault in faults if fault not in (None, IS_CUT)]
    return held, wrong


def main():
    parser = harness.random_arguments(__doc__, 500, "programs")
    parser.add_argument("--lowered", action="store_true", help="programs with what engines/lower replaces")
    options = parser.parse_args()
    generated.need("node")
    program, tally = harness.program_of(options), harness.Tally()

    def batch_at(first):
        numbers = range(first, min(first + BATCH, options.count))
        return batch(program, [Case(number, harness.chance_of(options, number), options.lowered) for number in numbers])

    for held, wrong in harness.at_once(batch_at, range(0, options.count, BATCH)):
        tally.add(held, 0)
        for number, fault in wrong:
            tally.check(False, f"program {number}", fault)
    tally.end()


if __name__ == "__main__":
    harness.run_script(main)
