#!/usr/bin/env python3
"""Asks the built program to explain random logs, and compares its text with what a plain program says of them.

    scripts/random_logs.py [--wmlab PATH] [--count N] [--seed N]        2,000 logs, seed 1

A log is that of a run in which one access is made after the other, with some writers, values and places changed. The
plain program knows the memory model (`wmlabtools/model.py`). By it the rule that is named has to be the first that is
broken, and the fault one of its faults; each link of a chain has to be an edge, and no shorter chain may be there. The
sentences, the table of events and what the text says of other writers have to be as it would write them, and so the
whole text on a log that is allowed. Another witness that the text names has to be allowed, and if it says that there is
none, all are tried on logs with few choices. The last line is `N passed, N failed`.
"""
import collections
import copy
import itertools
import re
from collections.abc import Sequence
from random import Random

from wmlabtools import harness
from wmlabtools.explained import LEGEND, Difference, existing, expect, expect_lines, rows
from wmlabtools.log import Key, LoggedEvent, document
from wmlabtools.model import INIT, Event, Execution, Writer
from wmlabtools.witnesses import count_of_writers, has_witness

RULES = {
    "V1": "written values: each byte read has the value that its writer wrote there.",
    "V2": "order: what happens before an event precedes it in the order.",
    "V3": "coherence: a read doesn't happen before its writer, and no write of the byte happens between them.",
    "V4": "no tearing: a read that may not tear takes bytes from at most one write of its range that may not tear.",
    "V5": "sequential consistency: in three cases no atomic write may be between a read and its writer in the order.",
}
TAKES = "{read} takes its byte {byte}, at address {address}, from "
BETWEEN = "is between {writer} and {read} in the order"
CANNOT = "with this order {read} can't read from {writer}."
SENTENCES = {
    ("V1", 1): TAKES + "{itself}.",
    ("V1", 2): TAKES + "{writer}, which doesn't write that address.",
    ("V1", 3): TAKES + "{writer}: it reads {value_read} there, and {writer} wrote {value_written}.",
    ("V2", 1): "{writer} comes before {read} in their thread, but the order lists {writer} after {read}.",
    ("V2", 2): (
        "{read} reads from {writer}, and both are atomic accesses of one range: so {writer} synchronizes with {read} "
        "and happens before it, but the order lists {writer} after {read}."
    ),
    ("V3", 1): (
        TAKES + "{writer}, but {read} happens before {writer}: a read can't take a byte from a write that it happens "
        "before."
    ),
    ("V3", 2): (
        TAKES + "{writer}, but {other} writes that address too, {writer} happens before {other}, and {other} happens "
        "before {read}: so the byte of {writer} was overwritten before {read} reads."
    ),
    ("V4", 1): (
        "{read} takes its byte {byte} from {writer} and an earlier byte from {other}. All three are accesses of one "
        "range that may not tear (atomic, or plain of at most 4 bytes at a multiple of their width): {read} may take "
        "bytes from only one of the two writes."
    ),
    ("V5", 1): (
        "{read} reads from {writer}, which synchronizes with it, but {other}, an atomic write of the same range, "
        + BETWEEN + ": " + CANNOT
    ),
    ("V5", 2): (
        "{read} reads from {writer}, but {other}, an atomic write of the range of {writer}, "
        + BETWEEN + ", and both writes are atomic and happen before {read}: " + CANNOT
    ),
    ("V5", 3): (
        "{read} is atomic and reads from {writer}, but {other}, an atomic write of the same range, "
        + BETWEEN + ", and {writer} happens before {other} and {read}: " + CANNOT
    ),
}
# An event that is its own writer, by whether it writes.
ITSELF = {True: "itself: an update can't read from its own write", False: "itself, which is a read and writes nothing"}
# What happens before what in a fault: `r` is its read, `w` the writer and `o` the other write.
PREMISES: dict[tuple[str, int], list[tuple[str, str]]] = {
    ("V3", 1): [("r", "w")],
    ("V3", 2): [("w", "o"), ("o", "r")],
    ("V5", 2): [("w", "r"), ("o", "r")],
    ("V5", 3): [("w", "r"), ("w", "o")],
}
TABLE = ["The events, with their places in the order:", *LEGEND]
ALLOWED = [
    "allowed",
    "The memory rules allow the events with these writers in this order. No module was given, so the threads' runs "
    "were not checked: `explain MODULE DOC` checks them.",
    "The events in their order, with who wrote what was read:",
    *LEGEND,
]
ONLY = "No other writer fits: with these values, no witness makes this run allowed."
SEVERAL = "Events whose value at the address is the value read:"
MAX_NAMED = 8
ANY_ORDER = "This rule doesn't depend on the order of the events."
BY_ORDER = "This rule depends on the order of the events."
CYCLE = "Happens-before has a cycle, so no order agrees with it."
NO_CYCLE = "Happens-before has no cycle: some order agrees with it."
NO_WITNESS = "No other writers and no other order help: with these values, no witness makes this run allowed."
WITNESS = "With another witness, the same accesses are allowed:"
UNKNOWN = "With another witness, the same accesses may be allowed: `wmlab witness` searches for one."
OTHER_BYTE = re.compile(r"  byte (\d+) of (\S+), at address (\d+), from (\S+) in place of (\S+)")
MORE_BYTES = re.compile(r"  and \d+ more bytes from other writers")
OTHER_ORDER = "  in the order "
# The most events, and the most ways to choose writers, of a log of which all witnesses are tried.
MOST_EVENTS, MOST_WRITERS = 7, 300
LINKS = {
    "sequenced": re.compile(r"  (\S+) is sequenced before (\S+): it comes earlier in thread (\d+)"),
    "synchronized": re.compile(
        r"  (\S+) synchronizes with (\S+): (\S+) reads from it, and both are atomic accesses of one range"
    ),
    "initial": re.compile(r"  (init) writes the initial memory, before (\S+) as before every event"),
}


# ---- random logs


def random_threads(chance: Random) -> list[list[Event]]:
    """One to four threads of one to five accesses near one another, without values."""
    start, mixed, atomic = chance.choice((0, 64, 1000)), chance.random() < 0.5, chance.choice((0.2, 0.5, 0.8, 1))
    threads = []
    for thread in range(chance.randint(1, 4)):
        events = []
        for number in range(chance.randint(1, 5)):
            kind = chance.choice("rrrwwwx")
            is_atomic = kind == "x" or chance.random() < atomic
            width = chance.choice((1, 2, 4, 4, 4, 8)) if mixed else 4
            address = chance.randint(0, 12) if mixed else chance.choice((0, 4, 8))
            if is_atomic or chance.random() < 0.7:
                address -= address % width
            events.append(Event(thread, number, kind, is_atomic, start + address, width))
        threads.append(events)
    return threads


def run(chance: Random, threads: Sequence[Sequence[Event]]) -> list[Event]:
    """Makes the accesses one after the other, in an order of chance, and answers the order."""
    memory: dict[int, tuple[int, Writer]] = collections.defaultdict(lambda: (0, INIT))
    order, left = [], [list(events) for events in threads]
    while any(left):
        event = chance.choice([events for events in left if events]).pop(0)
        order.append(event)
        cells = range(event.address, event.address + event.width)
        if event.kind in "rx":
            event.read = sum(memory[cell][0] << 8 * byte for byte, cell in enumerate(cells))
            event.writers = [memory[cell][1] for cell in cells]
        if event.is_write():
            values = (0, 1, 1, 2, 3, 0x01010101, 0x11112222, chance.getrandbits(64))
            event.written = chance.choice(values) % (1 << 8 * event.width)
            memory.update({cell: (event.byte_written(cell), event) for cell in cells})
    return order


def set_byte(event: Event, byte: int, value: int) -> None:
    event.read = event.read & ~(255 << 8 * byte) | value << 8 * byte


def change_writer(chance: Random, event: Event, writes: Sequence[Event]) -> None:
    """Has some bytes of a read come from another write, mostly one that writes them, with its values."""
    cells = range(event.address, event.address + event.width)
    if chance.random() < 0.85:
        writes = [write for write in writes if write is not event and all(map(write.writes, cells))]
    found: list[Writer] = [INIT, *writes]
    writer = chance.choice(found)
    for byte in range(event.width) if chance.random() < 0.6 else [chance.randrange(event.width)]:
        event.writers[byte] = writer
        if writer.writes(cells[byte]) and chance.random() < 0.85:
            set_byte(event, byte, writer.byte_written(cells[byte]))


def random_execution(chance: Random) -> tuple[list[list[Event]], Execution, list[Event]]:
    threads = random_threads(chance)
    order = run(chance, threads)
    reads = [event for event in order if event.kind in "rx"]
    writes = [event for event in order if event.is_write()]
    for _ in range(chance.choice((0, 1, 1, 2, 3))):
        way = chance.random()
        if way > 0.75 or not reads:
            order.insert(chance.randrange(len(order)), order.pop(chance.randrange(len(order))))
        elif way < 0.7:
            change_writer(chance, chance.choice(reads), writes)
        else:
            event = chance.choice(reads)
            set_byte(event, chance.randrange(event.width), chance.choice((0, 1, 2, 255)))
    return threads, Execution(threads, order), order


def key(event: Writer) -> Key:
    return [event.thread, event.number] if isinstance(event, Event) else []


def log_event(event: Event) -> LoggedEvent:
    values = {"r": [event.read], "w": [event.written], "x": [event.read, event.written]}[event.kind]
    writers = [[key(writer) for writer in event.writers]] if event.kind != "w" else []
    return [event.kind, "sc" if event.atomic else "un", event.address, event.width, *values, *writers]


def log_of(threads: Sequence[Sequence[Event]], order: Sequence[Event]) -> bytes:
    """The log as a document, whose threads are `t`, cut after no step."""
    parts = [["t", [], ["cut"], 0, [log_event(event) for event in thread]] for thread in threads]
    return document(parts, [key(event) for event in order])


# ---- the text of an explanation


FAULT = re.compile(r"broken (V\d) case (\d) at (\S+) byte (\d) writer (\S+)(?: other (\S+))?")


class Explanation:
    """The text that explains a broken run: its fault, the chains that it shows, and the lines around them."""

    def __init__(self, execution, lines):
        self.execution, self.lines = execution, lines
        expect(lines, "there is no text")
        found = existing(FAULT.fullmatch(lines[0]), "its first line is not a fault")
        self.rule, self.case, self.byte = found[1], int(found[2]), int(found[4])
        self.read, self.writer = self.named(found[3]), self.named(found[5])
        self.other = self.named(found[6]) if found[6] else None
        starts = [number for number, line in enumerate(lines) if line.startswith("Why ")]
        self.chains = [self.chain(number) for number in starts]
        self.table = lines[: starts[0]] if starts else None
        self.last = lines[starts[-1] + 1 + len(self.chains[-1][2]) :] if starts else None

    def named(self, name):
        expect(name in self.execution.by_name, f"there is no event {name}")
        return self.execution.by_name[name]

    def chain(self, number):
        """The chain whose heading is this line: the events that it leads from and to, and its links as edges."""
        heading = re.fullmatch(r"Why (\S+) happens before (\S+):", self.lines[number])
        ends = existing(heading, "a heading is not that of a chain")
        first = self.named(ends[1])
        last = first if ends[2] == "itself" else self.named(ends[2])
        links = itertools.takewhile(lambda line: line.startswith("  "), self.lines[number + 1 :])
        return first, last, [self.link(line) for line in links]

    def link(self, line):
        for kind, form in LINKS.items():
            found = form.fullmatch(line)
            if found:
                first, last = map(self.named, found.groups()[:2])
                edges = {"sequenced": self.execution.sequenced, "synchronized": self.execution.synchronized}
                expect(kind == "initial" or (first, last) in edges[kind], f"no edge: {line}")
                expect(kind != "sequenced" or found[3] == str(first.thread), f"another thread: {line}")
                expect(kind != "synchronized" or found[3] == last.name, f"another read: {line}")
                return kind, first, last
        raise Difference(f"not a link: {line}")

    def event(self, letter):
        return {"r": self.read, "w": self.writer, "o": self.other}[letter]

    def check_fault(self):
        """The rule is the first that is broken, and the fault one of its faults."""
        rule, faults = self.execution.first_faults() or (None, set())
        expect(rule == self.rule, f"the first rule that is broken is {rule}")
        fault = self.case, self.read, self.byte, self.writer, self.other
        expect(fault in faults, "there is no such fault")

    def check_chains(self):
        for first, last, links in self.chains:
            ends = [first, *(end for _, _, end in links)]
            expect(ends[-1] is last and [start for _, start, _ in links] == ends[:-1], "a chain has a gap")
            shortest = self.execution.distance(first, last)
            expect(self.rule == "V2" or len(links) == shortest, f"a chain of {shortest} links is there")
        if self.rule == "V2":
            expect(len(self.chains) == self.execution.has_cycle(), "a cycle is shown exactly if there is one")
            expect(all(first is last for first, last, _ in self.chains), "the chain is no cycle")
            return
        premises = [(self.event(first), self.event(last)) for first, last in PREMISES.get((self.rule, self.case), [])]
        expect([chain[:2] for chain in self.chains] == premises, "the chains are not those of the fault")

    def sentence(self):
        address = self.read.address + self.byte
        return SENTENCES[self.rule, self.case].format(
            read=self.read.name,
            itself=ITSELF[self.read.is_write()],
            writer=self.writer.name,
            other=self.other and self.other.name,
            byte=self.byte,
            address=address,
            value_read=self.read.byte_read(self.byte) if self.rule == "V1" else None,
            value_written=self.writer.byte_written(address) if self.case == 3 and self.rule == "V1" else None,
        )

    def check_table(self):
        events = {self.read, self.writer, *([self.other] if self.other else [])}
        events |= {end for _, _, links in self.chains for _, *ends in links for end in ends}
        expected = [self.lines[0], f"{self.rule}, {RULES[self.rule]}", self.sentence(), *TABLE]
        expected += rows(self.execution, events)
        found = self.lines[: len(expected)] if self.table is None else self.table
        expect_lines(found, expected)
        return self.lines[len(expected) :] if self.last is None else self.last

    def needs(self):
        """The reads that the fault needs, each with the bytes that it takes from a writer."""
        if self.rule in ("V1", "V3"):
            yield self.read, [self.byte], self.writer
        if self.rule == "V4":
            for writer in self.writer, self.other:
                yield self.read, [byte for byte, own in enumerate(self.read.writers) if own is writer], writer
        for kind, writer, read in (link for _, _, links in self.chains for link in links):
            if kind == "synchronized":
                yield read, [byte for byte, own in enumerate(read.writers) if own is writer], writer

    def check_last(self, lines):
        """What the last lines say of the order, of the writers, and of other witnesses."""
        expect(lines, "the last lines are missing")
        if self.rule == "V5":
            self.check_search(lines, BY_ORDER + " ")
        elif self.rule == "V2" and not self.chains:
            self.check_search(lines, NO_CYCLE + " ")
        else:
            start = CYCLE if self.rule == "V2" else ANY_ORDER
            only = all(
                any(not self.execution.others_that_fit(read, byte, writer) for byte in taken)
                for read, taken, writer in self.needs()
            )
            if only:
                expect_lines(lines, [f"{start} {ONLY}"])
                self.check_none()
                return
            expected = [f"{start} {SEVERAL}"]
            expected += [self.fits_text(read, byte) for read, taken, _ in self.needs() for byte in taken]
            expect_lines(lines[: len(expected)], expected)
            self.check_search(lines[len(expected) :], "")

    def check_search(self, lines, start):
        """The answer of the search for another witness, after the beginning of its line."""
        expect(lines, "the answer of the search is missing")
        if lines[0] == start + WITNESS:
            self.check_witness(lines[1:])
        elif lines[0] == start + NO_WITNESS:
            expect(len(lines) == 1, lines)
            self.check_none()
        else:
            expect(lines == [start + UNKNOWN], lines)

    def threads(self):
        """A copy of the events, whose writers may be changed."""
        events = copy.deepcopy(self.execution.events)
        return [list(thread) for _, thread in itertools.groupby(events, lambda event: event.thread)]

    def check_none(self):
        """If the log has few choices: no witness makes it allowed."""
        threads = self.threads()
        is_small = len(self.execution.events) <= MOST_EVENTS and count_of_writers(threads) <= MOST_WRITERS
        expect(not (is_small and has_witness(threads)), "a witness makes the run allowed")

    def check_witness(self, lines):
        """Other writers of bytes, and another order, with which the model allows the run."""
        threads = self.threads()
        by_name = {event.name: event for thread in threads for event in thread}
        writers = {"init": INIT, **by_name}
        for event in by_name.values():
            event.writers = [writers[writer.name] for writer in event.writers]
        order = sorted(by_name.values(), key=lambda event: self.execution.place[self.execution.by_name[event.name]])
        is_whole = True
        for line in lines:
            found = OTHER_BYTE.fullmatch(line)
            if found:
                byte, read = int(found[1]), by_name[found[2]]
                expect(int(found[3]) == read.address + byte, f"another address: {line}")
                expect(read.writers[byte].name == found[5] != found[4], f"another writer: {line}")
                read.writers[byte] = writers[found[4]]
            elif line.startswith(OTHER_ORDER):
                order = [by_name[name] for name in line.removeprefix(OTHER_ORDER).split(" ")]
                expect(sorted(event.name for event in order) == sorted(by_name), f"no order of the events: {line}")
            else:
                expect(MORE_BYTES.fullmatch(line), f"not a part of a witness: {line}")
                is_whole = False
        expect(lines, "nothing differs from the log's own witness")
        expect(not is_whole or not Execution(threads, order).first_faults(), "the other witness isn't allowed either")

    def fits_text(self, read, byte):
        """The line of a byte of a read: all events that leave its value there, of which eight are named."""
        names = [event.name for event in [INIT, *self.execution.events] if self.execution.fits(event, read, byte)]
        more = f" and {len(names) - MAX_NAMED} more" if len(names) > MAX_NAMED else ""
        named = ", ".join(names[:MAX_NAMED]) or "none"
        return f"  byte {byte} of {read.name}, at address {read.address + byte}: {named}{more}"


def fault_of(execution, text, status):
    """What is wrong with the text that explains an execution; None if nothing is."""
    lines = text.splitlines()
    try:
        if status == 0:
            expect(not execution.first_faults(), "a rule is broken")
            expect_lines(lines, [*ALLOWED, *rows(execution, execution.events)])
            return None
        expect(status == 1, "neither allowed nor broken")
        explanation = Explanation(execution, lines)
        explanation.check_fault()
        explanation.check_chains()
        explanation.check_last(explanation.check_table())
    except Difference as difference:
        return str(difference)
    return None


def case_fault(wmlab, number, chance):
    """What is wrong with the explanation of a random log, with the log and the text; None if nothing is."""
    threads, execution, order = random_execution(chance)
    log = log_of(threads, order)
    text, _, status = harness.run(wmlab, ["explain", "-"], input=log)
    fault = fault_of(execution, text, status)
    return fault and (number, fault, log.decode(), text)


def main():
    options = harness.random_arguments(__doc__, 2_000, "logs").parse_args()
    harness.try_cases(options, "an explanation", case_fault)


if __name__ == "__main__":
    harness.run_script(main)
