"""A judge by the plain memory model, for tests: it is compared with `wmlab`, and with a case of a rule left out it is a
wrong judge, which the suite has to catch. It judges logs of which each thread's events are known to be its module's."""
from collections.abc import Iterator
from typing import Any

from wmlabtools.model import INIT, execution_of

# Each case of each rule; and the last one for a writer that is not the initial memory.
CASES = (
    *("V1 case 1", "V1 case 2", "V1 case 3"),
    *("V2 case 1", "V2 case 2"),
    *("V3 case 1", "V3 case 2"),
    "V4 case 1",
    *("V5 case 1", "V5 case 2", "V5 case 3"),
    "V5 case 3 of a write",
)


def left_out_names(rule: str, fault: Any) -> set[str]:
    """The names by which a fault is left out."""
    case, _, _, writer, *_ = fault
    name = f"{rule} case {case}"
    return {name} if writer is INIT else {name, f"{name} of a write"}


def broken_rules(execution: Any, left_out: tuple[str, ...] = ()) -> Iterator[str]:
    """The rules that are broken, in the order in which they are tried, without some cases. Each case of V5 is a rule of
    its own."""
    for rule, faults in execution.faults().items():
        cases = sorted({fault[0] for fault in faults if not left_out_names(rule, fault) & set(left_out)})
        yield from [f"V5 case {case}" for case in cases] if rule == "V5" else [rule] * bool(cases)


class Model:
    """A judge by these rules, without some of their cases. It answers as `stream` does, up to the rule."""

    def __init__(self, left_out: tuple[str, ...] = ()) -> None:
        self.left_out = left_out

    def __enter__(self) -> "Model":
        return self

    def __exit__(self, *_: object) -> None:
        pass

    def answer(self, line: str) -> str:
        return next((f"broken {rule}" for rule in broken_rules(execution_of(line), self.left_out)), "allowed")

    def answers(self, lines: list[str]) -> list[str]:
        return [self.answer(line) for line in lines]
