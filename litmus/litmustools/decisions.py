"""Which outcomes of a specimen the memory rules permit. `decide` is the one place that knows how this is found:
candidate executions are judged by `wmlab stream`, and of an outcome that none of them shows `wmlab witness` is asked,
which alone says that one is not permitted. The verdicts are kept in a folder."""
import hashlib
import json
import os
import shlex
import tempfile
from collections import Counter
from collections.abc import Callable, Collection, Iterable, Iterator
from dataclasses import asdict, dataclass, field, replace
from functools import cache, cached_property
from itertools import islice
from math import prod

from . import commands, judges, witnesses
from .candidates import ANSWER, CHUNK, Candidates
from .executions import Executions, Limits
from .judges import Failed, Judge, Stream
from .modules import bytes_of
from .specimens import Outcome, Specimen, is_flag
from .tests import Event
from .witnesses import Answer, Kind

PERMITTED, FORBIDDEN, UNDECIDED = "permitted", "not permitted", "not decided"
# An outcome that none of so many candidates shows is left to `wmlab witness`; by bytes they serve explanations alone.
MOST_CANDIDATES = 100_000
MOST_BY_BYTE = 2_000
# So many choices of a writer for each byte are tried for outcomes in which one read's bytes come from several writes.
MOST_TORN = 20_000
FORMAT = 7
# The rules whose answer depends on the order of a candidate.
ORDER_RULES = ("broken V2", "broken V5")


@dataclass(frozen=True)
class Verdict:
    """`log` is a candidate with an outcome that is not permitted, the last that was asked; or its witness."""

    kind: str
    reason: str
    log: str | None = None


@dataclass(frozen=True)
class Verdicts:
    """Verdicts on outcomes, and whether each outcome that is permitted is known to be among them."""

    of: dict[Outcome, Verdict]
    is_whole: bool


@dataclass
class Asked:
    """What came of one outcome's candidates."""

    answers: Counter[str] = field(default_factory=Counter)
    log: str | None = None
    is_permitted: bool = False

    @property
    def reason(self) -> str:
        parts = [f"{count} {answer}" for answer, count in sorted(self.answers.items())]
        return f"{sum(self.answers.values())} candidates: {', '.join(parts)}"


def last_flag(events: tuple[Event, ...]) -> int:
    """The number of the last read of a flag, after which final values are read; a larger one if there is none."""
    flags = [number for number, event in enumerate(events) if is_flag(event) and event.reads]
    return flags[-1] if flags else len(events)


def values_of_cycle(specimen: Specimen, outcome: Outcome) -> tuple[tuple[int, ...], ...]:
    """What the observed events of each thread of the cycle's test read in an outcome; flags are read as 1."""
    assert specimen.cycle
    rest, finals = list(outcome), list(outcome[len(outcome) - len(specimen.finals) :])
    rows = []
    for events in specimen.cycle.threads:
        after, row = last_flag(events), []
        for number, event in enumerate(events):
            if event.is_observed:
                row.append(1 if is_flag(event) else (finals if number > after else rest).pop(0))
        rows.append(tuple(row))
    return tuple(rows)


def outcome_of_cycle(specimen: Specimen, values: tuple[tuple[int, ...], ...]) -> Outcome:
    """The outcome of a specimen, of the values that the observed events of the cycle's test read: what the threads
    read, and then the final values."""
    assert specimen.cycle
    own: list[int] = []
    finals: list[int] = []
    for thread, events in enumerate(specimen.cycle.threads):
        after, rest = last_flag(events), iter(values[thread])
        for number, event in enumerate(events):
            if event.is_observed:
                value = next(rest)
                if not is_flag(event):
                    (finals if number > after else own).append(value)
    return (*own, *finals)


@dataclass(frozen=True)
class Question:
    """A specimen, and how its candidates are made; of one outcome alone, if it is given."""

    specimen: Specimen
    by_byte: bool = False
    outcome: Outcome | None = None
    limits: Limits = Limits()

    @cached_property
    def source(self) -> Candidates | Executions:
        if self.specimen.cycle:
            values = None if self.outcome is None else values_of_cycle(self.specimen, self.outcome)
            return Candidates(self.specimen.cycle, self.by_byte, False, values)
        return Executions(self.specimen, self.limits, self.by_byte)

    @property
    def module(self) -> bytes:
        """The module of the logs."""
        if self.specimen.cycle:
            return bytes_of(self.specimen.cycle)
        assert self.specimen.logged
        return self.specimen.logged.judged

    @cached_property
    def by_bytes(self) -> Executions:
        """The executions of a specimen that is no cycle, with each value that its reads may have."""
        return Executions(self.specimen, self.limits, by_byte=True, is_whole=True)

    @property
    def is_cut(self) -> bool:
        """Whether a thread may have other values or go on further than its paths."""
        return not self.specimen.cycle and self.by_bytes.is_cut

    def logs_of_values(self, outcome: Outcome) -> Iterator[str]:
        """A log for each choice of the values that an outcome leaves open."""
        if self.specimen.cycle:
            return witnesses.logs_of_cycle(self.specimen.cycle, values_of_cycle(self.specimen, outcome))
        return self.by_bytes.logs_of_values(outcome)

    def groups(self) -> Iterator[tuple[Outcome, Iterator[str]]]:
        source = self.source
        if isinstance(source, Executions):
            return source.groups()
        return ((outcome_of_cycle(self.specimen, values), lines) for values, lines in source.groups())

    def __iter__(self) -> Iterator["Group"]:
        for outcome, lines in self.groups():
            if self.outcome is None or outcome == self.outcome:
                yield Group(outcome, lines)


@dataclass
class Group:
    """Candidates that differ in their order alone."""

    outcome: Outcome
    lines: Iterator[str]
    width: int = 1

    def next(self) -> list[str]:
        """The next lines to ask: one at first, and more if the order matters."""
        lines = list(islice(self.lines, self.width))
        self.width = min(4 * self.width, CHUNK)
        return lines


class Asking:
    """Asks about the groups of a question, of each outcome until a candidate is allowed."""

    def __init__(self, groups: Iterable[Group], judge: Judge) -> None:
        self.groups, self.judge = iter(groups), judge
        self.found: dict[Outcome, Asked] = {}
        self.count = 0

    def is_open(self, group: Group) -> bool:
        return not self.found.setdefault(group.outcome, Asked()).is_permitted

    def fill(self, active: list[Group]) -> list[Group]:
        active = [group for group in active if self.is_open(group)]
        wanted = (group for group in self.groups if self.is_open(group))
        return active + list(islice(wanted, CHUNK - len(active))) if len(active) < CHUNK else active

    def ask(self, active: list[Group]) -> list[Group]:
        """Asks the next lines of each group. Answers the groups that go on: those of which an order was refused, and
        another may be allowed. V1, V3 and V4 do not look at the order."""
        rows = [(group, line) for group in active for line in group.next()]
        going: dict[int, Group] = {}
        self.count += len(rows)
        for (group, line), answer in zip(rows, self.judge.answers([line for _, line in rows]), strict=True):
            kind = ANSWER.match(answer)
            if not kind:
                raise Failed(f"a candidate is answered by {answer}: {line}")
            each = self.found[group.outcome]
            each.answers[kind[0]] += 1
            if not each.is_permitted:
                each.log, each.is_permitted = line, kind[0] == "allowed"
            if kind[0].startswith(ORDER_RULES):
                going[id(group)] = group
        return list(going.values())

    def all(self, most: int) -> bool:
        """Asks until all is known, or `most` candidates were asked. Answers whether all is known."""
        active = self.fill([])
        while active and self.count < most:
            active = self.fill(self.ask(active))
        return not active


def values_of_reads(source: Candidates) -> list[set[int]]:
    return [{choice.value for choice in choices} for choices in source.choices]


def groups_by_byte(question: Question, known: Collection[Outcome]) -> Iterator[Group] | None:
    """The candidates with a writer for each byte of the outcomes that are not known; nothing if they are too many, or
    if a thread may go on."""
    specimen = question.specimen
    rows: Iterator[tuple[Outcome, Iterator[str]]]
    if specimen.cycle:
        source = Candidates(specimen.cycle, by_byte=True)
        if values_of_reads(source) == values_of_reads(Candidates(specimen.cycle)):
            return iter(())
        if prod(map(len, source.choices)) > MOST_TORN:
            return None
        rows = ((outcome_of_cycle(specimen, values), lines) for values, lines in source.groups())
        return (Group(outcome, lines) for outcome, lines in rows if outcome not in known)
    executions = question.by_bytes
    if executions.is_cut or prod(map(len, executions.paths)) > MOST_TORN:
        return None
    return (Group(outcome, lines) for outcome, lines in executions.groups(known))


def torn(question: Question, judge: Judge, known: Collection[Outcome]) -> dict[Outcome, Asked] | None:
    """What came of the outcomes beside the known ones, in which one read's bytes come from several writes; nothing if
    they are too many to try."""
    groups = groups_by_byte(question, known)
    if groups is None:
        return None
    asking = Asking(islice(groups, MOST_TORN), judge)
    is_whole = asking.all(MOST_TORN) and next(groups, None) is None
    return asking.found if is_whole else None


def settled(question: Question, asked: Asked, answer: Answer) -> Verdict:
    """The verdict on an outcome of which no candidate was allowed, by what the program answered about its values."""
    candidates = asked.reason if asked.answers else "no candidate has it"
    if answer.kind is Kind.FOUND:
        return Verdict(PERMITTED, f"a witness of `wmlab witness`; {candidates}", answer.log)
    if answer.kind is not Kind.NONE:
        return Verdict(UNDECIDED, f"{answer.kind.value}; {candidates}", asked.log)
    if question.is_cut:
        return Verdict(UNDECIDED, f"a thread may make more events or read other values; {candidates}", asked.log)
    return Verdict(FORBIDDEN, f"no witness; {candidates}", asked.log)


def shown(question: Question, judge: Judge) -> Verdicts:
    """The outcomes that a candidate permits, and whether these are all that are permitted."""
    asking = Asking(question, judge)
    is_whole = asking.all(MOST_CANDIDATES)
    further = torn(question, judge, asking.found)
    found = {**asking.found, **(further or {})}
    verdicts = {outcome: Verdict(PERMITTED, each.reason) for outcome, each in found.items() if each.is_permitted}
    return Verdicts(verdicts, is_whole and further is not None)


def asked_of(question: Question, judge: Judge) -> Asked:
    """What came of the candidates of one outcome: those in which the bytes that accesses cover together come from one
    write, or if there are none, those with a writer for each byte."""
    for by_byte in (False, True):
        asking = Asking(replace(question, by_byte=by_byte), judge)
        asking.all(MOST_BY_BYTE if by_byte else MOST_CANDIDATES)
        if asking.found:
            break
    return next(iter(asking.found.values()), Asked())


def decide(program: str, question: Question) -> Verdicts:
    """What candidates permit; or the verdict on the one outcome that the question names."""
    with tempfile.TemporaryDirectory() as room:
        module = os.path.join(room, "test.wasm")
        commands.write(module, question.module)
        with Stream(program, module) as stream:
            if question.outcome is None:
                return shown(question, stream)
            asked = asked_of(question, stream)
        if asked.is_permitted:
            return Verdicts({question.outcome: Verdict(PERMITTED, asked.reason)}, False)
        asked.log = judges.completed(program, module, asked.log) if asked.log else None
        answer = witnesses.witness_of_any(program, module, question.logs_of_values(question.outcome))
        return Verdicts({question.outcome: settled(question, asked, answer)}, False)


@cache
def digest_of(path: str) -> str:
    with open(path, "rb") as file:
        return hashlib.sha256(file.read()).hexdigest()


class Cache:
    """Answers that are kept in a folder, by the program, the module and the question. If it cannot be written, `note`
    is told once."""

    def __init__(self, folder: str, program: str, note: Callable[[str], None]) -> None:
        self.folder, self.program, self.note = folder, program, note
        self.is_written = True

    def path(self, question: Question) -> str:
        logged = question.specimen.logged
        parts = [
            FORMAT,
            digest_of(self.program),
            hashlib.sha256(question.module).hexdigest(),
            hashlib.sha256(logged.traced if logged else b"").hexdigest(),
            [thread.word for thread in (logged or question.specimen).threads],
            [asdict(column) for column in question.specimen.columns],
            [question.outcome, asdict(question.limits), MOST_CANDIDATES, MOST_BY_BYTE, MOST_TORN],
        ]
        name = hashlib.sha256(json.dumps(parts).encode()).hexdigest()
        return os.path.join(self.folder, f"{name}.json")

    def read(self, path: str) -> Verdicts | None:
        try:
            with open(path, encoding="utf-8") as file:
                rows, is_whole = json.load(file)
            return Verdicts({tuple(outcome): Verdict(*verdict) for outcome, verdict in rows}, is_whole)
        except (OSError, ValueError, TypeError):
            return None

    def decided(self, question: Question) -> Verdicts:
        path = self.path(question)
        found = self.read(path)
        if found is None:
            found = decide(self.program, question)
            rows = [[outcome, [each.kind, each.reason, each.log]] for outcome, each in sorted(found.of.items())]
            self.keep(path, json.dumps([rows, found.is_whole]))
        return found

    def keep(self, path: str, text: str) -> None:
        if self.is_written:
            try:
                self.write(path, text)
            except OSError as error:
                self.is_written = False
                folder = shlex.quote(self.folder)
                self.note(f"verdicts are not kept: {folder}: {error.strerror}; --cache names another folder")

    def write(self, path: str, text: str) -> None:
        """A file that another run reads at the same time is there as a whole or not at all."""
        os.makedirs(self.folder, exist_ok=True)
        with tempfile.NamedTemporaryFile("w", dir=self.folder, delete=False, encoding="utf-8") as file:
            file.write(text)
        os.replace(file.name, path)


def usual_folder() -> str:
    """Where answers are kept unless another folder is named."""
    above = os.environ.get("XDG_CACHE_HOME") or os.path.join(os.path.expanduser("~"), ".cache")
    return os.path.join(above, "wmlab", "litmus")


class Decisions:
    """The verdicts on the outcomes of one specimen."""

    def __init__(self, specimen: Specimen, kept: Cache, limits: Limits = Limits()) -> None:
        self.specimen, self.kept, self.limits = specimen, kept, limits
        self.question = Question(specimen, limits=limits)
        self.all = kept.decided(self.question)

    def of(self, outcome: Outcome) -> Verdict:
        """The verdict on an outcome, also on one that no candidate has."""
        found = self.all.of.get(outcome)
        return found or self.kept.decided(Question(self.specimen, False, outcome, self.limits)).of[outcome]

    @property
    def permitted(self) -> list[Outcome]:
        """The permitted outcomes; there may be others unless `all.is_whole`."""
        return sorted(self.all.of)
