"""The tests that no cycle gives: the tables of litmus/beyond, each with an outcome that one case of a rule alone
refuses; and candidates that no program makes, for the cases that look at the writers and at the order as they are
given."""
import json
import os
from collections.abc import Iterator
from typing import Any

from wmlabtools import TOP

from .decisions import Asking, Question
from .judges import Judge
from .logs import cycle_log
from .specimens import Outcome, Specimen
from .tests import LitmusTest
from .texts import specimen_of_table

FOLDER = os.path.join(TOP, "litmus/beyond")
# What cycles and tables cannot show: a candidate that is made of one of theirs.
MALFORMED = ("V1 case 1", "V1 case 2", "V1 case 3", "V2 case 1", "V2 case 2")


def beyond() -> dict[str, Specimen]:
    """The specimens of the tables, by their names. They need wat2wasm."""
    found = {}
    for name in sorted(os.listdir(FOLDER)):
        path = os.path.join(FOLDER, name)
        with open(path, encoding="utf-8") as file:
            specimen = specimen_of_table(path, file.read())
        found[specimen.name] = specimen
    return found


def forbidden_outcomes(specimen: Specimen) -> list[Outcome]:
    """The outcomes that a table forbids. Its formula has a value for each part of an outcome, in each of some cases."""
    assert specimen.condition
    formula = specimen.condition.formula
    found = []
    for row in formula.parts if formula.operator == "\\/" else (formula,):
        values = {part.name: part.value for part in (row.parts if row.operator == "/\\" else (row,))}
        found.append(tuple(values[column.name] for column in specimen.observed))
    return found


def permits(specimen: Specimen, outcome: Outcome, judge: Judge) -> bool:
    """Whether a judge allows a candidate with an outcome; a writer is chosen for each byte, if parts do not give it."""
    for by_byte in (False, True):
        asking = Asking(Question(specimen, by_byte=by_byte, outcome=outcome), judge)
        asking.all(1_000_000)
        if outcome in asking.found:
            return asking.found[outcome].is_permitted
    return False


def wrong_permission(specimen: Specimen, judge: Judge) -> Outcome | None:
    """An outcome that a table forbids and a judge permits."""
    return next((outcome for outcome in forbidden_outcomes(specimen) if permits(specimen, outcome, judge)), None)


def changed(document: str, change: Any) -> str:
    """A log after a change of its threads and its order."""
    head, version, threads, order = json.loads(document)
    change([row[4] for row in threads], order)
    return json.dumps([head, version, threads, order], separators=(",", ":"))


def reads_itself(threads: Any, _order: Any) -> None:
    update = threads[0][0]
    update[4], update[6] = update[5], [[0, 0]] * update[3]


def reads_from_elsewhere(threads: Any, _order: Any) -> None:
    threads[0][1][-1] = [[0, 0]] * threads[0][1][3]


def reads_another_value(threads: Any, _order: Any) -> None:
    threads[0][1][4] = 7


def against_program_order(_threads: Any, order: Any) -> None:
    order[:] = [[0, 1], [0, 0], [1, 0], [1, 1]]


def before_its_write(threads: Any, order: Any) -> None:
    threads[1][1][4:] = [1, [[0, 0]] * 4]
    order[:] = [[1, 0], [1, 1], [0, 0], [0, 1]]


def malformed(tests: dict[str, LitmusTest]) -> Iterator[tuple[str, str, str]]:
    """For each of these cases the name of a test, and a log that breaks the case and no earlier one. But for the first,
    the case alone refuses it; an update that reads itself is before itself too."""
    yield "V1 case 1", "X+X+rmw", changed(cycle_log(tests["X+X+rmw"]), reads_itself)
    yield "V1 case 2", "SB", changed(cycle_log(tests["SB"]), reads_from_elsewhere)
    yield "V1 case 3", "SB", changed(cycle_log(tests["SB"]), reads_another_value)
    yield "V2 case 1", "SB", changed(cycle_log(tests["SB"]), against_program_order)
    yield "V2 case 2", "MP+un-sc+sc-un", changed(cycle_log(tests["MP+un-sc+sc-un"]), before_its_write)


