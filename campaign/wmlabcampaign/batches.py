"""The work of a campaign, cut into batches. A batch is named by the SHA-256 of its module and content."""
import bz2
import gzip
import hashlib
import importlib
import json
import lzma
import os
import zlib
from collections.abc import Iterator, Sequence
from dataclasses import dataclass
from typing import IO, Any, NamedTuple

from .faults import Fault
from .plan import Litmus, Logs, Module, Part, Recording, Tests

try:
    zstd: Any = importlib.import_module("compression.zstd")
except ImportError:  # before Python 3.14
    zstd = None

# The most bytes of a document. The program reads one more of a line, and refuses it.
DOCUMENT_BYTES = 8_388_608
# A batch has at most this many bytes of logs, unless one log alone has more.
BATCH_BYTES = 4 * 2**20
# How many litmus tests a batch has, the most iterations of one, and how many instances litmus/run makes at once.
TESTS_OF_A_BATCH = 10
MOST_ITERATIONS = 1_003_520
INSTANCES = 4096
LOG_ENDINGS = (".json", ".jsonl", ".ndjson")
OPENERS: dict[str, Any] = {".gz": gzip.open, ".xz": lzma.open, ".bz2": bz2.open, ".zst": zstd and zstd.open}
BAD_CONTENT = (OSError, EOFError, zlib.error, lzma.LZMAError, *([zstd.ZstdError] if zstd else []))


@dataclass(frozen=True)
class Batch:
    """A batch of either kind: its number, from 1 in the order of the campaign, its name, and how many logs it has."""

    number: int
    name: str
    module: Module | Tests
    logs: int

    def origin(self, number: int) -> str:
        """Where a log of the batch comes from."""
        raise NotImplementedError


class Origin(NamedTuple):
    """Lines of a file: its path, the number of the first one, and how many."""

    path: str
    first: int
    lines: int


@dataclass(frozen=True)
class LogBatch(Batch):
    """Logs that are there, compressed; `origins` has, for each file, the number of its first line here and how many."""

    packed_lines: bytes
    origins: tuple[Origin, ...]

    def origin(self, number: int) -> str:
        for origin in self.origins:
            if number < origin.lines:
                return f"{origin.path} line {origin.first + number}"
            number -= origin.lines
        raise IndexError(number)


@dataclass(frozen=True)
class RoundBatch(Batch):
    """Rounds to record, the first of which has this seed."""

    options: tuple[str, ...]
    starts: tuple[str, ...]
    seed: int

    def words(self) -> tuple[list[str], list[str]]:
        return [*self.options, f"--seed={self.seed}", f"--rounds={self.logs}"], list(self.starts)

    def origin(self, number: int) -> str:
        words = [*self.options, f"--seed={self.seed + number}", "--rounds=1", self.module.path, *self.starts]
        return f"engines/node/record.mjs {' '.join(words)}"


@dataclass(frozen=True)
class LitmusBatch(Batch):
    """Litmus tests to run; `logs` is the number of all iterations. A batch that is repeated has a number of its own."""

    options: tuple[str, ...]
    tests: tuple[str, ...]
    iterations: int

    def words(self) -> list[str]:
        return [*self.options, f"--iterations={self.iterations}", *self.tests]

    def origin(self, number: int) -> str:
        return f"litmus/run {' '.join([*self.options, self.tests[min(number, len(self.tests) - 1)]])}"


# ---- lines of files


def is_log_file(name: str) -> bool:
    plain, ending = os.path.splitext(name)
    return (plain if ending in OPENERS else name).endswith(LOG_ENDINGS)


def files_in(place: str) -> list[str]:
    """A file as it is; of a folder and its folders the files whose names end as those of logs, in order."""
    if not os.path.isdir(place):
        return [place]
    found = []
    for folder, folders, names in os.walk(place):
        folders.sort()
        found += [os.path.join(folder, name) for name in sorted(names) if is_log_file(name)]
    return found


def opened(path: str) -> IO[bytes]:
    ending = os.path.splitext(path)[1]
    opener = OPENERS.get(ending, open)
    if not opener:
        raise Fault(f"cannot read {path}: this Python has no zstd (3.14 has); unpack it by zstd -d")
    file: IO[bytes] = opener(path, "rb")
    return file


def lines_of(file: IO[bytes]) -> Iterator[bytes]:
    """The lines of a file without their newlines, as `wmlab stream` counts them. Of a line that is too long, as many
    bytes as show that."""
    while line := file.readline(DOCUMENT_BYTES + 1):
        if line.endswith(b"\n"):
            yield line[:-1]
            continue
        rest = line
        while rest and not rest.endswith(b"\n"):
            rest = file.readline(2**20)
        yield line


class PlacedLine(NamedTuple):
    path: str
    number: int
    line: bytes


def placed_lines(places: Sequence[str]) -> Iterator[PlacedLine]:
    """Each line of some places with its file and number."""
    for place in places:
        for path in files_in(place):
            try:
                with opened(path) as file:
                    yield from (PlacedLine(path, number, line) for number, line in enumerate(lines_of(file), 1))
            except BAD_CONTENT as error:
                raise Fault(f"cannot read {path}: {getattr(error, 'strerror', None) or error}") from error


# ---- batches


def named(kind: str, module: Module | Tests, content: bytes) -> str:
    return hashlib.sha256(f"{kind} {module.digest} ".encode() + content).hexdigest()


class LineCutter:
    """Puts lines together until a batch is full."""

    def __init__(self, module: Module, most_logs: int) -> None:
        self.module, self.most_logs = module, most_logs
        self.lines: list[bytes] = []
        self.origins: list[Origin] = []
        self.size = 0

    def is_full_for(self, line: bytes) -> bool:
        is_full = len(self.lines) == self.most_logs or self.size + len(line) >= BATCH_BYTES
        return bool(self.lines) and is_full

    def add(self, path: str, number: int, line: bytes) -> None:
        self.lines.append(line)
        self.size += len(line) + 1
        if self.origins and self.origins[-1].path == path:
            last = self.origins[-1]
            self.origins[-1] = last._replace(lines=last.lines + 1)
        else:
            self.origins.append(Origin(path, number, 1))

    def cut(self, number: int) -> LogBatch:
        content = b"".join(line + b"\n" for line in self.lines)
        name = named("logs", self.module, content)
        batch = LogBatch(number, name, self.module, len(self.lines), zlib.compress(content, 1), tuple(self.origins))
        self.lines, self.size, self.origins = [], 0, []
        return batch


def log_batches(part: Logs, most_logs: int, number: int) -> Iterator[Batch]:
    cutter = LineCutter(part.module, most_logs)
    for path, line_number, line in placed_lines(part.places):
        if cutter.is_full_for(line):
            yield cutter.cut(number)
            number += 1
        cutter.add(path, line_number, line)
    if cutter.lines:
        yield cutter.cut(number)


def round_batches(part: Recording, most_logs: int, number: int) -> Iterator[Batch]:
    for first in range(0, part.rounds, most_logs):
        rounds, seed = min(most_logs, part.rounds - first), part.seed + first
        content = json.dumps([part.options, part.starts, seed, rounds]).encode()
        name = named("record", part.module, content)
        yield RoundBatch(number, name, part.module, rounds, part.options, part.starts, seed)
        number += 1


def litmus_batches(part: Litmus, _most_logs: int, number: int) -> Iterator[Batch]:
    """Some tests a batch, with at most a million iterations of each."""
    for first in range(0, len(part.tests), TESTS_OF_A_BATCH):
        tests = part.tests[first : first + TESTS_OF_A_BATCH]
        for repeated, begin in enumerate(range(0, part.iterations, MOST_ITERATIONS)):
            wanted = min(MOST_ITERATIONS, part.iterations - begin)
            iterations = -(-wanted // INSTANCES) * INSTANCES
            name = named("litmus", part.module, json.dumps([part.options, tests, iterations, repeated]).encode())
            count = iterations * len(tests)
            yield LitmusBatch(number, name, part.module, count, part.options, tests, iterations)
            number += 1


def batches_of(part: Part, most_logs: int, number: int) -> Iterator[Batch]:
    """The batches of a part, numbered from `number`."""
    if isinstance(part, Logs):
        return log_batches(part, most_logs, number)
    if isinstance(part, Recording):
        return round_batches(part, most_logs, number)
    return litmus_batches(part, most_logs, number)
