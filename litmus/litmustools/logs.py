"""The log of a test's cycle: a candidate execution with its outcome, judged by nobody."""
from .candidates import Candidates
from .tests import LitmusTest


def cycle_log(test: LitmusTest) -> str:
    """The first candidate with the cycle's outcome."""
    for _, line in Candidates(test, outcome=test.cycle_values):
        text: str = line
        return text
    raise ValueError(f"{test.name}: no candidate has the cycle's outcome")
