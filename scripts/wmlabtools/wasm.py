"""Binary modules, byte by byte."""
from collections.abc import Sequence


HEADER = b"\0asm\1\0\0\0"
MODULE_BYTES = 1_048_576
# A function type without parameters and results, a shared memory of one page, and the export of function 0 as `a`.
NO_PARAMETERS = b"\x60\0\0"
ONE_PAGE = b"\3\1\1"
EXPORT_A = b"\1a\0\0"


def number(value: int) -> bytes:
    """An unsigned integer in LEB128."""
    out = b""
    while value > 127:
        out, value = out + bytes([value % 128 + 128]), value // 128
    return out + bytes([value])


def sized(data: bytes) -> bytes:
    """The bytes after their length."""
    return number(len(data)) + data


def vector(items: Sequence[bytes]) -> bytes:
    """The items after their count."""
    return number(len(items)) + b"".join(items)


def section(which: int, data: bytes) -> bytes:
    """A section of this id and content."""
    return bytes([which]) + sized(data)


def parameters(count: int) -> bytes:
    """A function type of this many i32 parameters and no result."""
    return b"\x60" + number(count) + b"\x7f" * count + b"\0"


def shared_memory(pages: int, most: int | None = None) -> bytes:
    """The limits of a shared memory, in pages of 65,536 bytes."""
    return b"\3" + number(pages) + number(max(pages, 16) if most is None else most)


def body(code: bytes, local_count: int = 0) -> bytes:
    """A function body of this many i32 locals and this code, without its last `end`."""
    local_entries = b"\1" + number(local_count) + b"\x7f" if local_count else b"\0"
    return sized(local_entries + code + b"\x0b")


def export(name: bytes, index: int) -> bytes:
    """The export of a function."""
    return sized(name) + b"\0" + number(index)


def module_of(
    bodies: Sequence[bytes],
    types: Sequence[bytes] = (NO_PARAMETERS,),
    kinds: Sequence[int] | None = None,
    memory: bytes = ONE_PAGE,
    global_entries: Sequence[bytes] = (),
    exports: Sequence[bytes] = (EXPORT_A,),
    data: Sequence[bytes] = (),
    tables: Sequence[bytes] = (),
    start: int | None = None,
    elements: Sequence[bytes] = (),
) -> bytes:
    """A module of these bodies, each of the type whose index `kinds` has for it (0 if there are no `kinds`)."""
    lists: dict[int, Sequence[bytes]] = {
        1: types,
        3: [number(kind) for kind in kinds or [0] * len(bodies)],
        4: tables,
        5: [memory],
        6: global_entries,
        7: exports,
        9: elements,
        10: bodies,
        11: data,
    }
    contents = {which: vector(list(items)) for which, items in lists.items() if items}
    if start is not None:
        contents[8] = number(start)
    return HEADER + b"".join(section(which, content) for which, content in sorted(contents.items()))


def number_at(module: bytes, at: int) -> tuple[int, int]:
    """The unsigned integer in LEB128 that begins here, and where it ends."""
    value = shift = 0
    while True:
        byte, at = module[at], at + 1
        value, shift = value + ((byte & 127) << shift), shift + 7
        if byte < 128:
            return value, at


def sections_of(module: bytes) -> tuple[list[tuple[int, int]], int]:
    """Where each section begins, with its id, and the length of the whole."""
    at, found = len(HEADER), []
    while at < len(module):
        found.append((at, module[at]))
        size, at = number_at(module, at + 1)
        at += size
    return found, at


def start_of(module: bytes, which: int) -> int:
    """Where the section of this id begins."""
    return next(start for start, found in sections_of(module)[0] if found == which)
