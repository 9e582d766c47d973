"""What a campaign is asked for: its parts, each of which is logs of a module, rounds of a module to record, or litmus
tests to run."""
import argparse
import errno
import hashlib
import os
import re
import shlex
import subprocess
from dataclasses import asdict, dataclass
from functools import cached_property
from typing import Any, Protocol

from .faults import Fault, WrongWords

MODES = ("locked", "buffered", "free")
ENGINES = ("node", "chromium", "firefox", "webkit")
# An integer from 1 to 999999999, as the recorder takes it.
NUMBER = re.compile(r"0*[1-9][0-9]{0,8}")


def read_file(path: str) -> bytes:
    try:
        with open(path, "rb") as file:
            return file.read()
    except OSError as error:
        raise Fault(f"cannot read {path}: {error.strerror}") from error


@dataclass(frozen=True)
class Module:
    """A module by the path that the user gave."""

    path: str

    @cached_property
    def data(self) -> bytes:
        return read_file(self.path)

    @cached_property
    def digest(self) -> str:
        return hashlib.sha256(self.data).hexdigest()

    @property
    def name(self) -> str:
        """Its file among the materials of a worker."""
        return f"modules/{self.digest}.wasm"


@dataclass(frozen=True)
class Logs:
    """Logs of a module, one a line, in files or folders."""

    module: Module
    places: tuple[str, ...]

    @property
    def description(self) -> dict[str, Any]:
        return {"logs": list(self.places), "module": self.module.path, "sha256": self.module.digest}


@dataclass(frozen=True)
class Recording:
    """Rounds of a module to record in node."""

    module: Module
    starts: tuple[str, ...]
    options: tuple[str, ...]
    rounds: int
    seed: int

    @property
    def places(self) -> tuple[str, ...]:
        return (self.module.path, *self.starts)

    @property
    def description(self) -> dict[str, Any]:
        return {**asdict(self), "module": self.module.path, "sha256": self.module.digest}


@dataclass(frozen=True)
class Tests:
    """What takes the place of a module for litmus tests, which bring modules of their own."""

    engine: str

    @property
    def path(self) -> str:
        return f"litmus tests in {self.engine}"

    @property
    def digest(self) -> str:
        return hashlib.sha256(self.path.encode()).hexdigest()

    @property
    def name(self) -> str:
        return self.path


@dataclass(frozen=True)
class Litmus:
    """Litmus tests to run many times in an engine, by litmus/run."""

    module: Tests
    tests: tuple[str, ...]
    options: tuple[str, ...]
    iterations: int

    @property
    def places(self) -> tuple[str, ...]:
        return self.tests

    @property
    def description(self) -> dict[str, Any]:
        return {"litmus": list(self.tests), "options": list(self.options), "iterations": self.iterations}


Part = Logs | Recording | Litmus


# ---- the words of a part


def positive(text: str) -> int:
    """The number that an option has."""
    if not NUMBER.fullmatch(text):
        raise argparse.ArgumentTypeError(f"{text!r} was given; expected an integer from 1 to 999999999")
    return int(text)


class Commands(Protocol):
    """The subparsers of a parser, whose class argparse does not name."""

    def add_parser(self, name: str, *, help: str, description: str) -> argparse.ArgumentParser:
        """The parser of the words of a command."""


def add_parts(commands: Commands) -> None:
    """The words of a part, as commands of a parser."""
    add_litmus(commands)
    logs = commands.add_parser("logs", help="judge logs that are there", description="Judges logs, one a line.")
    logs.add_argument("module", metavar="MODULE")
    logs.add_argument("places", metavar="PLACE", nargs="+", help="a file of logs, or a folder with such files")
    record = commands.add_parser("record", help="record rounds in node, and judge them", description="Records rounds.")
    record.add_argument("module", metavar="MODULE")
    record.add_argument("starts", metavar="START", nargs="+", help="an export and its arguments, such as f:0:7")
    record.add_argument("--mode", choices=MODES, default="locked", help="how accesses are recorded (locked)")
    for name, default, shows in (
        ("rounds", 1_000, "the number of runs"),
        ("seed", 1, "of the first run; the next one has the seed N + 1"),
        ("events", 128, "the most events of a run"),
        ("turn", 4, "the most accesses of a thread in one turn"),
        ("seconds", 20, "the longest search for a witness, or for a smaller run"),
    ):
        record.add_argument(f"--{name}", metavar="N", type=positive, default=default, help=f"{shows} ({default:,})")
    record.add_argument("--wrong", metavar="HOW", help="be an engine that is wrong on purpose, as record.mjs has it")


def add_litmus(commands: Commands) -> None:
    """The words of litmus tests."""
    litmus = commands.add_parser("litmus", help="run litmus tests many times", description="Runs tests of litmus/run.")
    litmus.add_argument("tests", metavar="TEST", nargs="*", help="a name or a cycle; without one, each of the suite")
    litmus.add_argument("--engine", choices=ENGINES, default="node", help="the engine of the workers (node)")
    litmus.add_argument("--iterations", metavar="N", type=positive, default=1_000_000, help="of each test (1,000,000)")
    for name, shows in (("chunk", "iterations between two meetings"), ("stride", "bytes between two instances")):
        litmus.add_argument(f"--{name}", metavar="N", type=int, help=f"{shows}, as litmus/run has it")
    litmus.add_argument("--wrong", metavar="HOW", help="be an engine that is wrong on purpose, as litmus/run has it")


def suite_names() -> list[str]:
    """The names of all tests, as litmus/generate lists them."""
    command = [os.path.join(os.path.dirname(__file__), "../../litmus/generate"), "--list"]
    if not os.path.exists(command[0]):
        raise Fault("litmus tests need a clone of the repository, which has litmus/run")
    ran = subprocess.run(command, stdout=subprocess.PIPE, text=True, check=False)
    if ran.returncode:
        raise Fault("litmus/generate --list failed, which names the litmus tests")
    return [line.split("\t")[0] for line in ran.stdout.splitlines()]


def litmus_of(options: argparse.Namespace) -> Litmus:
    """The litmus tests that the words name."""
    known = suite_names()
    unknown = [name for name in options.tests if name not in known and " " not in name]
    if unknown:
        raise WrongWords(f"litmus {unknown[0]}: no test of the suite has this name; litmus/generate --list prints them")
    given = ((name, getattr(options, name)) for name in ("chunk", "stride", "wrong"))
    words = [f"--engine={options.engine}", *(f"--{name}={value}" for name, value in given if value is not None)]
    return Litmus(Tests(options.engine), tuple(options.tests or known), tuple(words), options.iterations)


def part_of(options: argparse.Namespace) -> Part:
    """The part that the words of a command name."""
    if options.command == "litmus":
        return litmus_of(options)
    module = Module(options.module)
    if options.command == "logs":
        for place in options.places:
            if not os.path.exists(place):
                raise Fault(f"cannot read {place}: {os.strerror(errno.ENOENT)}")
        return Logs(module, tuple(options.places))
    words = [f"--{name}={getattr(options, name)}" for name in ("mode", "events", "turn", "seconds")]
    if options.wrong:
        words.append(f"--wrong={options.wrong}")
    return Recording(module, tuple(options.starts), tuple(words), options.rounds, options.seed)


def parts_of(options: argparse.Namespace, parser: argparse.ArgumentParser) -> list[Part]:
    """The parts that a command line asks for. `parser` takes the words of a single part."""
    if options.command != "plan":
        return [part_of(options)]
    parts = []
    for number, line in enumerate(read_file(options.file).decode(errors="replace").split("\n"), 1):
        try:
            words = shlex.split(line, comments=True)
        except ValueError as error:
            raise WrongWords(f"{options.file} line {number}: {error}") from error
        if words:
            parser.prog = f"{os.path.basename(options.file)} line {number}"
            parts.append(part_of(parser.parse_args(words)))
    if not parts:
        raise WrongWords(f"{options.file} has no line `logs ..`, `record ..` or `litmus ..`")
    return parts
