"""Where each instruction of a function leads, by one reading of its code."""
from collections.abc import Sequence
from typing import Literal

from wmlabtools import wasm

BLOCK, LOOP, IF, ELSE, END = 0x02, 0x03, 0x04, 0x05, 0x0B
BR, BR_IF, BR_TABLE, RETURN, CALL = 0x0C, 0x0D, 0x0E, 0x0F, 0x10
# What comes after an instruction that leaves its function.
LEAVES: Literal["leaves"] = "leaves"
Target = int | Literal["leaves"]


def numbers_of(instruction: bytes) -> list[int]:
    """The numbers after an opcode, if it is a branch or a call."""
    numbers: list[int] = []
    at = 1
    while at < len(instruction):
        number, at = wasm.number_at(instruction, at)
        numbers.append(number)
    return numbers


class Flow:
    """The code of a function, a list of instructions, as places that lead to others. Its last instruction is the `end`
    of its body."""

    def __init__(self, code: Sequence[bytes]) -> None:
        self.code = code
        self.around: list[list[int]] = []
        self.elses: dict[int, int] = {}
        self.ends: dict[int, int] = {}
        opened: list[int] = []
        for place, instruction in enumerate(code):
            opcode = instruction[0]
            if opcode == ELSE:
                self.elses[opened[-1]] = place
            if opcode == END and opened:
                self.ends[opened.pop()] = place
            self.around.append([*opened])
            if opcode in (BLOCK, LOOP, IF):
                opened.append(place)

    def target(self, place: int, label: int) -> Target:
        """Where a branch goes on: at a loop, or after another block."""
        blocks = self.around[place]
        if label == len(blocks):
            return LEAVES
        opener = blocks[-1 - label]
        return opener if self.code[opener][0] == LOOP else self.ends[opener] + 1

    def call_at(self, place: int) -> int | None:
        """The function that the instruction calls; None if it calls none."""
        return numbers_of(self.code[place])[0] if self.code[place][0] == CALL else None

    def next_places(self, place: int) -> set[Target]:
        """The places to which the instruction leads within its function, or LEAVES. A call leads to what follows it."""
        instruction = self.code[place]
        opcode = instruction[0]
        if opcode == IF:
            otherwise = self.elses[place] + 1 if place in self.elses else self.ends[place]
            return {place + 1, otherwise}
        if opcode == ELSE:
            return {self.ends[self.around[place][-1]] + 1}
        if opcode == RETURN or place == len(self.code) - 1:
            return {LEAVES}
        if opcode == BR:
            return {self.target(place, numbers_of(instruction)[0])}
        if opcode == BR_IF:
            return {place + 1, self.target(place, numbers_of(instruction)[0])}
        if opcode == BR_TABLE:
            return {self.target(place, label) for label in numbers_of(instruction)[1:]}
        return {place + 1}


def path_fault(functions: Sequence[Sequence[bytes]], places: Sequence[tuple[int, int]]) -> str | None:
    """Where a path through functions breaks off; None if each of its places follows from those before it. A place is
    the index of a function and the number of an instruction; the path begins at the start of a function."""
    flows = [Flow(code) for code in functions]
    if places and places[0][1] != 0:
        return f"it begins at {places[0]}"
    waiting = []
    for old, new in zip(places, places[1:]):
        function, number = old
        callee = flows[function].call_at(number)
        found = {(function, place) for place in flows[function].next_places(number) if place != LEAVES}
        if callee is not None:
            waiting.append((function, number + 1))
            found = {(callee, 0)}
        elif new not in found and LEAVES in flows[function].next_places(number) and waiting:
            found = {waiting.pop()}
        if new not in found:
            return f"{old} leads to {sorted(found)}, not to {new}"
    return None
