"""What an engine gave of a specimen, with the verdict on each outcome, in the form that litmus7 prints."""
from dataclasses import dataclass, field
from typing import Any

from .conditions import KINDS
from .decisions import FORBIDDEN, PERMITTED, UNDECIDED, Decisions, Verdict
from .engines import Ran, Settings
from .specimens import Outcome, Specimen

MOST_STATES = 100


@dataclass
class State:
    """An outcome that was seen, how often, and the verdict on it."""

    outcome: Outcome
    count: int
    verdict: Verdict
    is_starred: bool


@dataclass
class Histogram:
    """All outcomes of a specimen in a run, the most frequent first; and the permitted ones, all of them if
    `is_whole`."""

    specimen: Specimen
    ran: Ran
    version: str
    settings: Settings
    states: list[State] = field(default_factory=list)
    permitted: list[Outcome] = field(default_factory=list)
    is_whole: bool = True

    @property
    def positive(self) -> int:
        return sum(state.count for state in self.states if state.is_starred)

    @property
    def negative(self) -> int:
        return sum(state.count for state in self.states) - self.positive

    def of_kind(self, kind: str) -> list[State]:
        return [state for state in self.states if state.verdict.kind == kind]

    @property
    def bad(self) -> list[State]:
        return self.of_kind(FORBIDDEN)

    @property
    def undecided(self) -> list[State]:
        return self.of_kind(UNDECIDED)

    @property
    def per_second(self) -> float:
        return 1 / self.ran.seconds if self.ran.seconds else 0.0


def histogram_of(specimen: Specimen, ran: Ran, version: str, settings: Settings, decisions: Decisions) -> Histogram:
    """The outcomes of a run, judged."""
    counts: dict[Outcome, int] = {}
    for values, count in ran.tuples:
        outcome = specimen.outcome_of(values)
        counts[outcome] = counts.get(outcome, 0) + count
    states = [State(o, count, decisions.of(o), specimen.is_starred(o)) for o, count in counts.items()]
    states.sort(key=lambda state: (-state.count, state.outcome))
    return Histogram(specimen, ran, version, settings, states, decisions.permitted, decisions.all.is_whole)


def observation(histogram: Histogram) -> str:
    if not histogram.positive:
        return "Never"
    return "Sometimes" if histogram.negative else "Always"


def state_line(histogram: Histogram, state: State) -> str:
    mark = "*>" if state.is_starred else ":>"
    verdict = "" if state.verdict.kind == PERMITTED else f"  {state.verdict.kind.upper()}"
    return f"{state.count:<8}{mark}{histogram.specimen.state(state.outcome)}{verdict}"


def witness_lines(histogram: Histogram) -> list[str]:
    """The part that litmus7 prints of a condition."""
    condition = histogram.specimen.condition
    if not condition:
        return []
    positive, negative = histogram.positive, histogram.negative
    is_validated = condition.is_validated(positive, negative)
    counts = (negative, positive) if condition.kind == "~exists" else (positive, negative)
    return [
        "Ok" if is_validated else "No",
        "",
        "Witnesses",
        f"Positive: {counts[0]}, Negative: {counts[1]}",
        f"Condition {condition.text} is {'' if is_validated else 'NOT '}validated",
        f"Observation {histogram.specimen.name} {observation(histogram)} {positive} {negative}",
    ]


def pins_text(histogram: Histogram) -> str:
    """Whether the threads had processors of their own."""
    count, pins = len(histogram.specimen.threads), histogram.settings.pin
    if histogram.ran.pinned >= count:
        return f"threads pinned to processors {' '.join(str(pins[k % len(pins)]) for k in range(count))}"
    return f"threads not pinned ({histogram.ran.pin_problem or 'not all of them were found'})"


def rate(count: float) -> str:
    return f"{count:,.0f}"


def measure_lines(histogram: Histogram) -> list[str]:
    """Time, speed, and what ran."""
    ran, specimen = histogram.ran, histogram.specimen
    weak = ""
    if specimen.condition:
        weak = f", {rate(histogram.positive * histogram.per_second)} starred outcomes a second"
    settings = histogram.settings
    wrong = f"; wrong on purpose: {settings.wrong}" if settings.wrong else ""
    return [
        f"Time {specimen.name} {ran.seconds:.2f}",
        f"Speed {specimen.name} {rate(ran.iterations * histogram.per_second)} iterations a second{weak}",
        f"Engine {histogram.version}; {pins_text(histogram)}; chunk {settings.chunk}{wrong}",
    ]


def verdict_lines(histogram: Histogram) -> list[str]:
    """The permitted outcomes beside those seen."""
    counts = {state.outcome: state.count for state in histogram.states}
    specimen, permitted = histogram.specimen, histogram.permitted
    unseen = [outcome for outcome in permitted if outcome not in counts]
    seen = sum(state.verdict.kind == PERMITTED for state in histogram.states)
    least, count = "" if histogram.is_whole else "at least ", seen + len(unseen)
    lines = [f"Permitted {specimen.name} {least}{count} outcome{'' if count == 1 else 's'}, {seen} seen"]
    lines += [f"{0:<8}{'*>' if specimen.is_starred(o) else ':>'}{specimen.state(o)}" for o in unseen[:MOST_STATES]]
    if len(unseen) > MOST_STATES:
        lines.append(f"and {len(unseen) - MOST_STATES} more that were not seen")
    for state in [*histogram.bad, *histogram.undecided]:
        kind = state.verdict.kind.capitalize()
        lines.append(f"{kind} {specimen.name} {specimen.state(state.outcome)} seen {state.count} times")
        lines.append(f"    {state.verdict.reason}")
    return lines


def lines_of(histogram: Histogram) -> list[str]:
    """The whole text of a test."""
    specimen, condition = histogram.specimen, histogram.specimen.condition
    count = len(histogram.states)
    lines = [f"Test {specimen.name} {KINDS[condition.kind] if condition else 'Observed'}"]
    lines.append(f"Histogram ({count} state{'' if count == 1 else 's'})")
    lines += [state_line(histogram, state) for state in histogram.states[:MOST_STATES]]
    if count > MOST_STATES:
        lines.append(f"and {count - MOST_STATES} more states")
    if histogram.ran.others:
        lines.append(f"{histogram.ran.others} iterations had further states, which are not judged")
    return [*lines, *witness_lines(histogram), *measure_lines(histogram), *verdict_lines(histogram), ""]


def data_of(histogram: Histogram) -> dict[str, Any]:
    """The same as JSON: values by name, counts, verdicts."""
    specimen, ran, condition = histogram.specimen, histogram.ran, histogram.specimen.condition
    names = [column.name for column in specimen.observed]
    return {
        "name": specimen.name,
        "origin": specimen.origin,
        "engine": histogram.version,
        "iterations": ran.iterations,
        "seconds": round(ran.seconds, 6),
        "pinned": ran.pinned,
        "others": ran.others,
        "wrong": histogram.settings.wrong,
        "condition": condition.text if condition else None,
        "positive": histogram.positive,
        "negative": histogram.negative,
        "observation": observation(histogram) if condition else None,
        "states": [
            {
                "values": dict(zip(names, state.outcome, strict=True)),
                "count": state.count,
                "starred": state.is_starred,
                "verdict": state.verdict.kind,
            }
            for state in histogram.states
        ],
        "permitted": [dict(zip(names, outcome, strict=True)) for outcome in histogram.permitted],
        "complete": histogram.is_whole,
    }
