"""Tests that people write: a module in the text format with a condition in a comment, and herd's tables with the
instructions of each thread."""
import os
import re
import shutil
import subprocess
import tempfile
from collections.abc import Iterable
from dataclasses import dataclass, field, replace

from .accesses import LOCATION_BYTES, BadCycle
from .conditions import Condition, Formula, condition_of
from .judges import Failed
from .signatures import Signature, signatures_of
from .specimens import MOST_NARROW, Column, Final, Logged, Specimen, Thread

MOST_THREADS = 4
EXAMPLE = ";; exists (a=0 /\\ b=0)"
COMMENT = re.compile(r"^\s*;;\s*((?:~\s*exists|exists|forall)\b.*)$", re.MULTILINE)
THREADS = re.compile(r"^\s*;;\s*threads\s+(.*)$", re.MULTILINE)
HEAD = re.compile(r"\s*WASM\s+(\S+)\s*\n(.*?)\{(.*?)\}(.*?)((?:~\s*exists|exists|forall)\b.*)", re.DOTALL)
INITIAL = re.compile(r"([A-Za-z]\w*)\s*=\s*(-?(?:0x[0-9a-fA-F]+|\d+))")
PLACE = re.compile(r"([A-Za-z]\w*)(?:\+(\d+))?")
OPCODE = re.compile(
    r"(i32|i64)\.(atomic\.)?(load|store|rmw)(8|16|32)?(?:\.(add|sub|and|or|xor|xchg|cmpxchg))?(?:_(u|s))?"
)
VALUE = re.compile(r"-?(?:0x[0-9a-fA-F]+|\d+)")


def assembled(text: str, path: str) -> bytes:
    """The module of a text, as wat2wasm makes it."""
    if not shutil.which("wat2wasm"):
        raise Failed("wat2wasm is not installed, which reads modules in the text format (Debian: wabt)")
    with tempfile.TemporaryDirectory() as room:
        source, module = os.path.join(room, "test.wat"), os.path.join(room, "test.wasm")
        with open(source, "w", encoding="utf-8") as file:
            file.write(text)
        command = ["wat2wasm", "--enable-threads", source, "-o", module]
        ran = subprocess.run(command, capture_output=True, text=True, check=False)
        if ran.returncode:
            first = (ran.stderr.strip().splitlines() or ["wat2wasm failed"])[0]
            raise BadCycle(f"{path}{first.removeprefix(source)}")
        with open(module, "rb") as file:
            return file.read()


# ---- modules


def thread_of(word: str) -> Thread:
    name, *args = word.split(":")
    for arg in args:
        if not VALUE.fullmatch(arg):
            raise BadCycle(f"start {word}: the argument {arg!r} is not an integer; write one as in work:7")
    return Thread(name, tuple(str(int(arg, 0)) for arg in args))


def result_names(threads: list[Thread], signatures: dict[str, Signature]) -> list[Column]:
    """A column for each result: the export's name, `a`, or `0:a` if it runs twice. `0:r0` names it too."""
    starts = [thread.start for thread in threads]
    columns = []
    for number, thread in enumerate(threads):
        signature = signatures.get(thread.start)
        if not signature:
            known = ", ".join(signatures) or "none"
            raise BadCycle(f"start {thread.start}: no function is exported under this name; exported are {known}")
        if len(signature.parameters) != len(thread.args):
            count = f"{len(signature.parameters)} arguments, and {len(thread.args)} are given"
            raise BadCycle(f"start {thread.word}: it takes {count}")
        if len(signature.results) > 1:
            raise BadCycle(f"export {thread.start}: {len(signature.results)} results; the judge takes one")
        name = thread.start if starts.count(thread.start) == 1 else f"{number}:{thread.start}"
        columns += [Column(name, bits) for bits in signature.results]
    return columns


def with_aliases(condition: Condition, columns: list[Column], threads: list[Thread]) -> Condition:
    """The condition with `0:r0` replaced by the name of the result of thread 0."""
    starts = [thread.start for thread in threads]
    aliases, left = {}, [column.name for column in columns]
    for number, start in enumerate(starts):
        name = start if start in left else f"{number}:{start}"
        aliases[f"{number}:r0"] = name
    formula, known = condition.formula, {column.name for column in columns}
    unknown = sorted(name for name in formula.names() if aliases.get(name, name) not in known)
    if unknown:
        shown = ", ".join(sorted(known)) or "none: no thread has a result"
        raise BadCycle(f"condition {condition.text}: {unknown[0]} is not a part of an outcome; the parts are {shown}")
    return Condition(condition.kind, renamed(formula, aliases))


def renamed(formula: Formula, aliases: dict[str, str]) -> Formula:
    parts = tuple(renamed(part, aliases) for part in formula.parts)
    return replace(formula, parts=parts, name=aliases.get(formula.name, formula.name))


def specimen_of_module(
    name: str, module: bytes, words: Iterable[str], condition: Condition | None, text: str = ""
) -> Specimen:
    """The specimen of a module: each word is an exported function with its arguments, as `work:7`."""
    threads = [thread_of(word) for word in words]
    signatures = signatures_of(module)
    columns = result_names(threads, signatures)
    if not 1 <= len(threads) <= MOST_THREADS:
        raise BadCycle(f"{name}: {len(threads)} threads; expected 1 to {MOST_THREADS}, each an exported function")
    return Specimen(
        name=name,
        origin=" ".join(thread.word for thread in threads),
        module=module,
        threads=tuple(threads),
        columns=tuple(columns),
        condition=with_aliases(condition, columns, threads) if condition else None,
        logged=Logged(module, module, tuple(threads)),
        text=text,
    )


def specimen_of_text(path: str, text: str, condition: Condition | None = None) -> Specimen:
    """The specimen of a module in the text format. A comment `;; exists (..)` is its condition, and one `;; threads a
    b:7` has its threads, if they are not all exported functions without arguments."""
    module = assembled(text, path)
    comments = COMMENT.findall(text)
    if len(comments) > 1:
        raise BadCycle(f"{path}: {len(comments)} conditions; expected one comment such as {EXAMPLE}")
    named = THREADS.search(text)
    words = named[1].split() if named else list(signatures_of(module))
    condition = condition or (condition_of(comments[0]) if comments else None)
    name = os.path.basename(path).removesuffix(".wat")
    return specimen_of_module(name, module, words, condition, text)


# ---- tables


@dataclass
class TableThread:
    """The instructions of a thread as text, and its registers in the order in which they are first written."""

    lines: list[str] = field(default_factory=list)
    registers: dict[str, int] = field(default_factory=dict)


@dataclass
class Table:
    """A table that is being read."""

    path: str
    locations: dict[str, int] = field(default_factory=dict)
    widths: dict[str, int] = field(default_factory=dict)
    threads: list[TableThread] = field(default_factory=list)
    most_value: int = 0

    def refuse(self, what: str) -> BadCycle:
        return BadCycle(f"{self.path}: {what}")

    def address(self, location: str) -> int:
        return self.locations.setdefault(location, LOCATION_BYTES * len(self.locations))

    def place(self, word: str, width: int, is_atomic: bool) -> tuple[str, str]:
        """The address of a word such as `x` or `x+2`, and what the instruction has to say of its alignment."""
        match = PLACE.fullmatch(word)
        if not match:
            raise self.refuse(f"{word}: expected a location, such as x or x+2")
        offset = int(match[2] or 0)
        if offset + width > LOCATION_BYTES:
            raise self.refuse(f"{word}: a location has {LOCATION_BYTES} bytes")
        if is_atomic and offset % width:
            raise self.refuse(f"{word}: an atomic access is at a multiple of its width")
        if not offset:
            self.widths[match[1]] = max(width, self.widths.get(match[1], 0))
        return f"(i32.const {self.address(match[1]) + offset})", "" if offset % width == 0 else " align=1"

    def value(self, word: str, bits: int, thread: TableThread) -> str:
        if VALUE.fullmatch(word):
            self.most_value = max(self.most_value, int(word, 0) % (1 << bits))
            return f"(i{bits}.const {int(word, 0)})"
        if thread.registers.get(word) != bits:
            what = "is not an i%d that an earlier instruction read" % bits
            raise self.refuse(f"{word}: expected an integer or a register; it {what}")
        self.most_value = 1 << 32  # a value that is not known from the text alone
        return f"(local.get ${word})"

    def instruction(self, words: list[str], thread: TableThread) -> str:
        match = OPCODE.fullmatch(words[0])
        if not match:
            raise self.refuse(f"{words[0]}: expected a load, a store or an update, such as i32.atomic.load")
        bits, kind = int(match[1][1:]), match[3]
        width = int(match[4] or bits) // 8
        operands = {"load": 2, "store": 2, "rmw": 4 if match[5] == "cmpxchg" else 3}[kind]
        if len(words) != 1 + operands:
            forms = {"load": "r0 x", "store": "x 1", "rmw": "r0 x 1"}
            raise self.refuse(f"{' '.join(words)}: expected {words[0]} {forms[kind]}")
        rest = words[1:]
        register = rest.pop(0) if kind != "store" else ""
        address, alignment = self.place(rest.pop(0), width, bool(match[2]))
        values = " ".join(self.value(word, bits, thread) for word in rest)
        code = f"({words[0]}{alignment} {address}{' ' + values if values else ''})"
        if not register:
            return code
        if thread.registers.setdefault(register, bits) != bits:
            raise self.refuse(f"{register}: it has values of {thread.registers[register]} and of {bits} bits")
        return f"(local.set ${register} {code})"

    def read(self, body: str) -> None:
        rows = [[cell.strip() for cell in row.split("|")] for row in body.split(";") if row.strip()]
        if not rows or not all(re.fullmatch(r"P\d+", cell) for cell in rows[0]):
            raise self.refuse("expected a line P0 | P1 ; with the threads' names, and then their instructions")
        self.threads = [TableThread() for _ in rows[0]]
        if len(self.threads) > MOST_THREADS:
            raise self.refuse(f"{len(self.threads)} threads; expected at most {MOST_THREADS}")
        for row in rows[1:]:
            if len(row) != len(self.threads):
                raise self.refuse(f"{' | '.join(row)}: {len(row)} cells; expected {len(self.threads)}")
            for cell, thread in zip(row, self.threads):
                if cell:
                    thread.lines.append(self.instruction(cell.split(), thread))


def function_text(name: str, thread: TableThread, flag: int | None, has_results: bool) -> list[str]:
    """A thread as a function; with a flag it ends with an atomic store of 1 there."""
    results = " ".join(f"i{bits}" for bits in thread.registers.values())
    head = f'  (func (export "{name}")' + (f" (result {results})" if results and has_results else "")
    local = [f"    (local ${register} i{bits})" for register, bits in thread.registers.items()]
    lines = [head, *local, *(f"    {line}" for line in thread.lines)]
    if flag is not None:
        lines.append(f"    (i32.atomic.store (i32.const {flag}) (i32.const 1))")
    if has_results:
        lines += [f"    (local.get ${register})" for register in thread.registers]
    return [*lines[:-1], lines[-1] + ")"]


LOAD_OF = {1: "i32.load8_u", 2: "i32.load16_u", 4: "i32.load", 8: "i64.load"}


def reader_text(flags: list[int], finals: list[Final], has_results: bool) -> list[str]:
    """The thread that reads each flag and then the final values."""
    loads = [f"(i32.atomic.load (i32.const {flag}))" for flag in flags]
    loads += [f"({LOAD_OF[final.width]} (i32.const {final.address}))" for final in finals]
    types = " ".join(["i32"] * len(flags) + ["i64" if final.width == 8 else "i32" for final in finals])
    lines = [f'  (func (export "final"){f" (result {types})" if has_results else ""}']
    lines += [f"    {load}" if has_results else f"    (drop {load})" for load in loads]
    return [*lines[:-1], lines[-1] + ")"]


def module_text(table: Table, data: list[str], finals: list[Final], is_whole: bool, has_results: bool) -> str:
    """The module of a table; as a whole it has the flags and the reader of final values."""
    first = LOCATION_BYTES * len(table.locations)
    flags = [first + LOCATION_BYTES * k for k, _ in enumerate(table.threads)] if is_whole else []
    lines = ["(module (memory 1 1 shared)", *data]
    for k, thread in enumerate(table.threads):
        lines += function_text(f"P{k}", thread, flags[k] if flags else None, has_results)
    if flags:
        lines += reader_text(flags, finals, has_results)
    return "\n".join(lines) + ")\n"


def data_of(table: Table, initial: str) -> list[str]:
    """Data segments for the initial values, of 4 bytes, or 8 if the location's accesses have them."""
    rows = []
    for location, value in INITIAL.findall(initial):
        width = max(4, table.widths.get(location, 4))
        number = int(value, 0) % (1 << 8 * width)
        table.most_value = max(table.most_value, number)
        escaped = "".join(f"\\{byte:02x}" for byte in number.to_bytes(width, "little"))
        rows.append(f'  (data (i32.const {table.address(location)}) "{escaped}")')
    return rows


def table_finals(table: Table, condition: Condition) -> list[Final]:
    """The locations that the condition names."""
    names = {f"{t}:{register}" for t, thread in enumerate(table.threads) for register in thread.registers}
    finals = []
    for name in sorted(condition.formula.names() - names):
        if name not in table.locations:
            raise table.refuse(f"condition {condition.text}: {name} is neither a register, as 0:r0, nor a location")
        finals.append(Final(name, table.locations[name], table.widths.get(name, 4)))
    return finals


def specimen_of_table(path: str, text: str) -> Specimen:
    """The specimen of a table."""
    match = HEAD.fullmatch(text.rstrip())
    if not match:
        raise BadCycle(f"{path}: expected WASM NAME, {{ }}, the table and a condition; docs/LITMUS.md has an example")
    table, condition = Table(path), condition_of(match[5])
    table.read(match[4])
    data, finals = data_of(table, match[3]), table_finals(table, condition)
    threads_registers = [(t, row) for t, thread in enumerate(table.threads) for row in thread.registers.items()]
    columns = [Column(f"{t}:{register}", bits) for t, (register, bits) in threads_registers]
    columns += [Column(final.name, 8 * final.width) for final in finals]
    threads = tuple(Thread(f"P{k}") for k, _ in enumerate(table.threads))
    reader = (Thread("final"),) if finals else ()
    has_finals = bool(finals)
    traced = assembled(module_text(table, data, finals, has_finals, True), path)
    judged = assembled(module_text(table, data, finals, has_finals, False), path)
    bare = module_text(table, data, finals, False, True)
    return Specimen(
        name=match[1],
        origin=os.path.basename(path),
        module=assembled(bare, path),
        threads=threads,
        columns=tuple(columns),
        finals=tuple(finals),
        condition=condition,
        is_narrow=table.most_value <= MOST_NARROW,
        logged=Logged(traced, judged, (*threads, *reader), has_finals),
        text=bare,
    )
