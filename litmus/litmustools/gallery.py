"""What came of each test: by the rules, by the store buffers of `drive` and `run`, and in an engine."""
import json
import os
import subprocess
import tempfile
from collections import Counter
from collections.abc import Callable, Iterable, Mapping, Sequence
from dataclasses import dataclass, field
from typing import Any

from wmlabtools import TOP

from . import judges
from .buffers import Machine, outcomes, script
from .candidates import Candidates, ask
from .explored import Question, explored, is_causal
from .judges import Failed, Stream
from .modules import bytes_of
from .tests import LitmusTest
from .witnesses import Kind, witness_of_cycle

RUN_COMMAND = os.path.join(TOP, "litmus/run")
# The most events of a thread that are explored: a thread of a test has fewer.
EVENTS = "64"


@dataclass
class Seen:
    """What an engine gave of a test: how often each outcome and each verdict came, in how many iterations."""

    outcomes: dict[str, int]
    verdicts: dict[str, int]
    iterations: int = 0


@dataclass
class Row:
    """What came of a test. `log` is the first allowed candidate with the cycle's outcome, or one that is refused.
    `is_listed` is whether `explore` lists the outcome. `engines` has what each engine gave that ran the test."""

    test: LitmusTest
    module: str
    is_permitted: bool = False
    answers: Counter[str] = field(default_factory=Counter)
    log: str = ""
    script: str | None = None
    runs: int = 0
    is_listed: bool | None = None
    engines: dict[str, Seen] = field(default_factory=dict)

    @property
    def asked(self) -> int:
        return sum(self.answers.values())

    def times(self, engine: str) -> int:
        """How often an engine gave the cycle's outcome."""
        return self.engines[engine].outcomes.get(self.test.outcome, 0) if engine in self.engines else 0

    @property
    def finds(self) -> list[str]:
        """What an engine or the program showed that is not permitted, in sentences."""
        found: list[str] = []
        for engine, seen in self.engines.items():
            if self.times(engine) and not self.is_permitted:
                found.append(f"{self.test.name}: {engine} gave the cycle's outcome, which is not permitted")
            others = [line for line in seen.verdicts if not line.startswith("allowed")]
            found += [f"{self.test.name}: an outcome of {engine} is {line}" for line in others]
        if (self.script or self.runs) and not self.is_permitted:
            found.append(f"{self.test.name}: the store buffers gave the cycle's outcome, which is not permitted")
        if self.is_listed and not self.is_permitted:
            found.append(f"{self.test.name}: explore lists the cycle's outcome, which is not permitted")
        if self.is_listed is False and self.is_permitted and is_causal(self.log):
            found.append(f"{self.test.name}: explore does not list the cycle's outcome, which a causal execution has")
        return found


@dataclass
class Collected:
    """The rows, and how they were made. `engines` has the version of each engine that ran."""

    date: str
    version: str
    iterations: int
    run_rounds: int
    engines: dict[str, str] = field(default_factory=dict)
    failed: list[str] = field(default_factory=list)
    rows: list[Row] = field(default_factory=list)
    seconds: float = 0.0

    @property
    def asked(self) -> int:
        return sum(row.asked for row in self.rows)


def row_of(test: LitmusTest, folder: str) -> Row:
    """The row of a test, whose module is written to a folder."""
    module = os.path.join(folder, f"{test.name}.wasm")
    with open(module, "wb") as file:
        file.write(bytes_of(test))
    return Row(test, module)


def judge(row: Row, program: str) -> None:
    """Asks about each candidate with the cycle's outcome, and has it proved if none is allowed that none can be."""
    with Stream(program, row.module) as stream:
        found = ask(Candidates(row.test, outcome=row.test.cycle_values), stream)
    cycle = found[row.test.cycle_values]
    row.answers, row.is_permitted = cycle.answers, cycle.is_permitted
    log = cycle.witness or cycle.last
    assert log is not None
    row.log = judges.completed(program, row.module, log)
    if not row.is_permitted:
        settle(row, program)
    if row.is_permitted:
        check(row, program)


def settle(row: Row, program: str) -> None:
    """The verdict of `wmlab witness` on the cycle's outcome."""
    answer = witness_of_cycle(program, row.module, row.test, row.test.cycle_values)
    if answer.kind not in (Kind.FOUND, Kind.NONE):
        raise Failed(f"{row.test.name}: the cycle's outcome is not decided: {answer.kind.value}")
    row.is_permitted, row.log = answer.kind is Kind.FOUND, answer.log or row.log


def printed(program: str, words: Sequence[str], given: str | None = None) -> str:
    ran = subprocess.run([program, *words], input=given, stdout=subprocess.PIPE, text=True, check=False)
    return ran.stdout


def check(row: Row, program: str) -> None:
    """The witness has to be allowed by `check` too."""
    answer = printed(program, ["check", row.module, "-"], row.log)
    if not answer.startswith("allowed"):
        raise Failed(f"{row.test.name}: check answers {answer.strip()}")


def find_script(row: Row, program: str) -> None:
    """The script with the fewest moves by which the store buffers give the cycle's outcome, tried by `drive`."""
    found = outcomes(Machine(row.test))
    if row.test.cycle_values not in found:
        return
    turns = script(row.test, [move for move in found[row.test.cycle_values] if move])
    lines = printed(program, ["drive", row.module, turns, *row.test.starts]).split("\n")
    if lines[0] != f"outcome {row.test.outcome}" or not lines[1].startswith("allowed"):
        raise Failed(f"{row.test.name}: drive {turns} prints {lines[:2]}")
    row.script = turns


def run_rounds(row: Row, program: str, rounds: int) -> None:
    """How often the cycle's outcome came in rounds of `run`."""
    lines = printed(program, ["run", row.module, str(rounds), *row.test.starts]).split("\n")
    if f"allowed rounds={rounds}" not in lines:
        raise Failed(f"{row.test.name}: run prints {lines[-2:]}")
    counts = {line.strip().split("  ")[1]: int(line.split()[0]) for line in lines if line.startswith(" ")}
    row.runs = counts.get(row.test.outcome, 0)


def explore(row: Row, program: str) -> None:
    """Whether `explore` lists the cycle's outcome."""
    found = explored(Question(program, row.module, EVENTS, row.test.starts))
    if found.bound is not None:
        raise Failed(f"{row.test.name}: explore met a bound: {found.bound}")
    row.is_listed = row.test.outcome in found.outcomes


def seen_of(row: Row, run: dict[str, Any]) -> Seen:
    """What a line of `litmus/run --json` tells of the row's test."""
    verdicts: Counter[str] = Counter()
    for state in run["states"]:
        verdicts["allowed" if state["verdict"] == "permitted" else state["verdict"]] += state["count"]
    return Seen({row.test.outcome: run["positive"]}, dict(verdicts), run["iterations"])


# What a line of `litmus/run --json` tells, of all that is read here.
KEYS = frozenset(("name", "engine", "positive", "iterations", "states"))


def runs_of(engine: str, lines: Iterable[str]) -> dict[str, dict[str, Any]]:
    """An engine's lines of `litmus/run --json` by the names of their tests, the last one of a name."""
    found = {}
    for number, line in enumerate(lines, 1):
        try:
            run = json.loads(line)
        except ValueError:
            run = None
        if not isinstance(run, dict) or not KEYS <= run.keys():
            raise Failed(f"{engine}: line {number} is none of litmus/run --json: {line.strip()[:60]}")
        found[run["name"]] = run
    return found


def take_runs(rows: Sequence[Row], engine: str, runs: Mapping[str, dict[str, Any]]) -> str:
    """Gives the rows what an engine's runs tell. Answers its version."""
    missing = [row.test.name for row in rows if row.test.name not in runs]
    if missing:
        others = f" and {len(missing) - 1} other tests" if missing[1:] else ""
        raise Failed(f"{engine} did not run {missing[0]}{others}")
    for row in rows:
        row.engines[engine] = seen_of(row, runs[row.test.name])
    version: str = runs[rows[0].test.name]["engine"]
    return version


def kept_lines(engine: str, lines: list[str]) -> str:
    """Keeps the tables of an engine that failed later, in the folder that the command was started in. Answers how they
    are used."""
    if not lines:
        return ""
    path = f"gallery-{engine}.jsonl"
    with open(path, "w", encoding="utf-8") as file:
        file.writelines(lines)
    return f"; {path} has {len(lines)} tables: append the others, and give --columns --seen {engine}={path}"


def engine_runs(
    rows: Sequence[Row], program: str, engine: str, iterations: int, tell: Callable[[str], None]
) -> str:
    """Has an engine run each test so many times by litmus/run. Answers its version."""
    command = [RUN_COMMAND, "--json", "--engine", engine, "--iterations", str(iterations), "--wmlab", program]
    lines: list[str] = []
    with tempfile.TemporaryDirectory() as folder, tempfile.TemporaryFile("w+") as errors:
        words = [*command, "--found", folder, *(row.test.name for row in rows)]
        with subprocess.Popen(words, stdout=subprocess.PIPE, stderr=errors, text=True) as running:
            assert running.stdout
            for line in running.stdout:
                lines.append(line)
                if len(lines) % 100 == 0:
                    tell(f"{engine}: {len(lines)} of {len(rows)} tests")
        errors.seek(0)
        said = errors.read().strip().splitlines()
    if running.returncode not in (0, 1):
        last = (said or [f"status {running.returncode}"])[-1]
        raise Failed(f"litmus/run: {last.removeprefix('run: ')}{kept_lines(engine, lines)}")
    return take_runs(rows, engine, runs_of(engine, lines))
