"""Whether a run can have an outcome: `wmlab witness` is asked about a log for each choice of the values that the
outcome leaves open. That a log has a witness is proved, and that it has none. Nothing is said if the search gives up.

`witness` ignores the writers and the order of a log. `wmlab complete`, which fills in steps and ends before, wants
some: each read here is from the initial memory, whatever its value, and one thread comes after the other."""
import subprocess
from collections.abc import Iterable, Iterator
from dataclasses import dataclass
from enum import Enum
from itertools import product

from wmlabtools import log

from . import judges
from .candidates import Choice, Values, threads_text
from .judges import Failed
from .orders import Key
from .tests import LitmusTest

# An outcome with more choices of values is not decided. Each takes two processes.
MOST_CHOICES = 2_000


class Kind(Enum):
    FOUND = "a witness"
    NONE = "no witness"
    GAVE_UP = "gave up"
    TOO_MANY = f"more than {MOST_CHOICES} choices of values"


@dataclass(frozen=True)
class Answer:
    """What is known of the values of a log, or of all logs of an outcome. `log` is the one with its witness."""

    kind: Kind
    log: str | None = None


def witness(program: str, module: str, document: str) -> Answer:
    """What the program answers about the values of a log, whose steps and ends are filled in first."""
    whole = judges.completed(program, module, document)
    command = [program, "witness", module, "-"]
    ran = subprocess.run(command, input=whole, stdout=subprocess.PIPE, text=True, check=False)
    line = ran.stdout.strip()
    if ran.returncode == 0 and line.startswith("["):
        return Answer(Kind.FOUND, line)
    if ran.returncode == 1 and line.startswith("no witness "):
        return Answer(Kind.NONE)
    if ran.returncode == 2 and line.startswith("gave up "):
        return Answer(Kind.GAVE_UP)
    raise Failed(f"{program} witness ended with status {ran.returncode}: {line[:200]}")


def witness_of_any(program: str, module: str, documents: Iterable[str]) -> Answer:
    """The first log of these that has a witness. That none has one is answered if it is so of each of them."""
    kind = Kind.NONE
    for count, document in enumerate(documents):
        if count == MOST_CHOICES:
            return Answer(Kind.TOO_MANY)
        answer = witness(program, module, document)
        if answer.kind is Kind.FOUND:
            return answer
        if answer.kind is Kind.GAVE_UP:
            kind = Kind.GAVE_UP
    return Answer(kind)


def values_of_read(test: LitmusTest, key: Key) -> list[int]:
    """Each value that a read may have: each byte is what it was at first, or what another event writes there."""
    event = test.events[key]
    others = [other for at, other in test.events.items() if at != key and other.writes]
    options = [sorted({0, *(other.byte(at) for other in others if at in other.bytes)}) for at in event.bytes]
    return [int.from_bytes(bytes(chosen), "little") for chosen in product(*options)]


def logs_of_cycle(test: LitmusTest, outcome: Values) -> Iterator[str]:
    """The logs in which the observed events of a cycle's test read these values."""
    reads = [key for key, event in test.events.items() if event.reads]
    observed = [key for key in reads if test.events[key].is_observed]
    wanted = dict(zip(observed, (value for values in outcome for value in values), strict=True))
    choices = [[wanted[key]] if key in wanted else values_of_read(test, key) for key in reads]
    for values in product(*choices):
        chosen = {key: Choice((None,) * test.events[key].access.width, value) for key, value in zip(reads, values)}
        yield f'["wasm-litmus-log",2,[{threads_text(test, chosen)}],{log.compact(sorted(test.events))}]'


def witness_of_cycle(program: str, module: str, test: LitmusTest, outcome: Values) -> Answer:
    return witness_of_any(program, module, logs_of_cycle(test, outcome))
