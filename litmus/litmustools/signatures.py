"""The exported functions of a module, with their types."""
from dataclasses import dataclass

from wmlabtools import wasm

from .accesses import BadCycle

BITS = {0x7F: 32, 0x7E: 64}
TYPES, FUNCTIONS, EXPORTS = 1, 3, 7


@dataclass(frozen=True)
class Signature:
    """The bits of each parameter and of each result."""

    parameters: tuple[int, ...]
    results: tuple[int, ...]


def section_of(module: bytes, which: int) -> tuple[int, int]:
    """How many items a section has, and where the first begins."""
    for start, found in wasm.sections_of(module)[0]:
        if found == which:
            _, at = wasm.number_at(module, start + 1)
            count: tuple[int, int] = wasm.number_at(module, at)
            return count
    return 0, 0


def kinds_at(module: bytes, at: int) -> tuple[tuple[int, ...], int]:
    count, at = wasm.number_at(module, at)
    kinds = module[at : at + count]
    unknown = [kind for kind in kinds if kind not in BITS]
    if unknown:
        raise BadCycle("a function takes or gives a value that is not an integer")
    return tuple(BITS[kind] for kind in kinds), at + count


def types_of(module: bytes) -> list[Signature]:
    count, at = section_of(module, TYPES)
    found = []
    for _ in range(count):
        parameters, at = kinds_at(module, at + 1)
        results, at = kinds_at(module, at)
        found.append(Signature(parameters, results))
    return found


def signatures_of(module: bytes) -> dict[str, Signature]:
    """The signature of each exported function. The module imports no function."""
    types, functions = types_of(module), []
    count, at = section_of(module, FUNCTIONS)
    for _ in range(count):
        which, at = wasm.number_at(module, at)
        functions.append(types[which])
    found, (count, at) = {}, section_of(module, EXPORTS)
    for _ in range(count):
        size, at = wasm.number_at(module, at)
        name, kind = module[at : at + size].decode(errors="replace"), module[at + size]
        index, at = wasm.number_at(module, at + size + 1)
        if kind == 0:
            found[name] = functions[index]
    return found
