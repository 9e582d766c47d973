"""What `wmlab explore` answers about a module: its outcomes, and whether a bound was met; and a log of each."""
import json
import re
import subprocess
from collections.abc import Sequence
from dataclasses import dataclass
from typing import Any

from .judges import Failed

LAST = re.compile(r"explored outcomes=\d+ graphs=\d+(?: all)?|bounded outcomes=\d+ graphs=\d+ (.+)")


@dataclass(frozen=True)
class Question:
    """A module, the most events of a thread, and how each thread starts, as words of the program."""

    program: str
    module: str
    events: str
    starts: Sequence[str]

    def ask(self, command: str) -> str:
        """What a command prints: `explore` or `witnesses`."""
        words = [self.program, command, self.module, self.events, *self.starts]
        try:
            ran = subprocess.run(words, capture_output=True, text=True, check=False)
        except OSError as error:
            raise Failed(f"{self.program}: {error.strerror}") from error
        if ran.returncode not in (0, 1):
            line = (ran.stdout.splitlines() or [f"{command} ended with status {ran.returncode}"])[0]
            reasons = [reason.removeprefix("wmlab: ") for reason in ran.stderr.splitlines()[:1]]
            raise Failed(": ".join([line, *reasons]))
        return ran.stdout


@dataclass(frozen=True)
class Explored:
    """The outcomes in the order of their lines; the last line; and the bound that was met, None if none was."""

    outcomes: list[str]
    last: str
    bound: str | None


def explored(question: Question) -> Explored:
    *lines, last = question.ask("explore").splitlines() or [""]
    found = LAST.fullmatch(last)
    if not found or not all(line.startswith("outcome ") for line in lines):
        raise Failed(f"{question.program} explore: {last!r} is not its last line")
    return Explored([line.removeprefix("outcome ") for line in lines], last, found[1])


def logs_of(question: Question, outcomes: Sequence[str]) -> dict[str, str]:
    """A log of each outcome that `explore` lists."""
    lines = question.ask("witnesses").splitlines()
    if len(lines) != len(outcomes):
        raise Failed(f"{question.program} witnesses: {len(lines)} documents for {len(outcomes)} outcomes")
    return dict(zip(outcomes, lines))


def is_causal(document: str) -> bool:
    """Whether program order and reads-from, of any byte, have no cycle."""
    threads: list[list[list[Any]]] = [thread[4] for thread in json.loads(document)[2]]
    done = [0] * len(threads)

    def is_next(thread: int) -> bool:
        if done[thread] == len(threads[thread]):
            return False
        kind, *_, last = threads[thread][done[thread]]
        return kind == "w" or all(not writer or writer[1] < done[writer[0]] for writer in last)

    while (ready := next(filter(is_next, range(len(threads))), None)) is not None:
        done[ready] += 1
    return done == [len(events) for events in threads]


def has_explore(program: str) -> bool:
    """Whether the program has these commands."""
    ran = subprocess.run([program, "help"], capture_output=True, text=True, check=False)
    return all(f"{command} MODULE" in ran.stdout for command in ("explore", "witnesses"))
