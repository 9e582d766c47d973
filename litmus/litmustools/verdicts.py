"""The verdict on the outcome of a cycle: by its candidates, by `wmlab witness`, and what it has to be."""
import os

from wmlabtools import TOP

from .candidates import Candidates, ask
from .decisions import FORBIDDEN, PERMITTED, UNDECIDED
from .judges import Judge
from .tests import LitmusTest
from .witnesses import Answer, Kind

PATH = os.path.join(TOP, "litmus/verdicts.txt")


def expected_verdicts() -> dict[str, str]:
    """The verdict on each test of the suite, as litmus/gallery found it."""
    with open(PATH, encoding="utf-8") as file:
        return dict(line.rstrip("\n").split("\t") for line in file)


def verdict_of(test: LitmusTest, judge: Judge) -> tuple[str, str | None]:
    """The verdict by the candidates that a judge allows, with the first of them. A judge may be wrong on purpose."""
    found = ask(Candidates(test, outcome=test.cycle_values), judge, until_allowed=True)[test.cycle_values]
    return PERMITTED if found.is_permitted else FORBIDDEN, found.witness


def proved_verdict(answer: Answer) -> str:
    """The verdict by what `wmlab witness` answers of an outcome."""
    return {Kind.FOUND: PERMITTED, Kind.NONE: FORBIDDEN}.get(answer.kind, UNDECIDED)
