"""Tests of the verdicts on outcomes: that what no candidate shows is asked of `wmlab witness`, and what its answers
mean."""
import os

from wmlabtools.harness import Tally

from . import bytewise, commands, judges
from .decisions import FORBIDDEN, PERMITTED, UNDECIDED, Cache, Decisions
from .executions import Limits
from .logs import cycle_log
from .modules import bytes_of
from .specimens import Outcome, Specimen, specimen_of
from .suite import suite
from .texts import specimen_of_table, specimen_of_text

# Two writes of 8 bytes, and a read that has a half of each.
WRITES = """WASM words
{{ }}
 P0                                      | P1                                      | P2               ;
 i64.{how}store x 0x0101010101010101 | i64.{how}store x 0x0202020202020202 | i64.{how}load r0 x ;
exists (2:r0=0x0202020201010101)
"""
MIXED = (0x0202020201010101,)
# A thread that waits: its loop may make more events than it may have in a log.
WAITS = """(module (memory 1 1 shared)
  (func (export "a") (i32.atomic.store (i32.const 0) (i32.const 1)))
  (func (export "b") (result i32)
    (loop $again (br_if $again (i32.eqz (i32.atomic.load (i32.const 0)))))
    (i32.load (i32.const 16))))
;; exists (b=1)
"""


class Verdicts:
    """Verdicts by a program, kept in a folder of their own."""

    def __init__(self, program: str, room: str) -> None:
        self.notes: list[str] = []
        self.program, self.kept = program, Cache(os.path.join(room, "decisions"), program, self.notes.append)

    def of(self, specimen: Specimen, outcome: Outcome, limits: Limits = Limits()) -> tuple[str, str]:
        """The verdict on an outcome, and its reason."""
        verdict = Decisions(specimen, self.kept, limits).of(outcome)
        return verdict.kind, verdict.reason


def program_that(room: str, program: str, name: str, answer: str) -> str:
    """A program that answers `witness` as this shell script does, and all else as the program."""
    path = os.path.join(room, name)
    commands.write(path, f"#!/bin/sh\n[ $1 != witness ] && exec {program} \"$@\"\n{answer}\n")
    os.chmod(path, 0o755)
    return path


def test_witnesses(tally: Tally, verdicts: Verdicts) -> None:
    """What no candidate shows, with a witness and without one."""
    buffering = specimen_of(suite()["SB+sc"])
    got = verdicts.of(buffering, (0, 0))
    tally.check(got == (FORBIDDEN, "no witness; 6 candidates: 6 broken V5 case 3"), "an outcome without a witness", got)
    got = verdicts.of(buffering, (7, 0))
    tally.check(got == (FORBIDDEN, "no witness; no candidate has it"), "a value that nobody wrote", got)
    got = verdicts.of(buffering, (0, 1))
    tally.check(got[0] == PERMITTED, "an outcome with an allowed candidate", got)
    plain = specimen_of_table("plain.litmus", WRITES.format(how=""))
    got = verdicts.of(plain, MIXED)
    tally.check(got[0] == PERMITTED, "a read of bytes from several writes", got)
    atomic = specimen_of_table("atomic.litmus", WRITES.format(how="atomic."))
    got = verdicts.of(atomic, MIXED)
    tally.check(got[0] == FORBIDDEN, "no atomic read is one of these", got)


def test_limits(tally: Tally, room: str, verdicts: Verdicts) -> None:
    """A search that gives up, and a loop, are no verdict; an answer that is none is a failure."""
    buffering = specimen_of(suite()["SB+sc"])
    tired = program_that(room, verdicts.program, "tired", "echo 'gave up nodes=1'; exit 2")
    got = Verdicts(tired, room).of(buffering, (0, 0))
    tally.check(got[0] == UNDECIDED and got[1].startswith("gave up; 6 "), "a search that gave up is no verdict", got)
    broken = program_that(room, verdicts.program, "broken", "echo nothing; exit 0")
    try:
        got = Verdicts(broken, room).of(buffering, (0, 0))
        tally.check(False, "an answer that is none is a failure", got)
    except judges.Failed as error:
        tally.check("witness ended with status 0: nothing" in str(error), "an answer that is none is a failure", error)
    waiting = specimen_of_text("waits.wat", WAITS, None)
    got = verdicts.of(waiting, (1,), Limits(events=4))
    tally.check(got[0] == UNDECIDED and "more events" in got[1], "a loop that may go on leaves it open", got)
    got = verdicts.of(waiting, (0,), Limits(events=4))
    tally.check(got[0] == PERMITTED, "what it does within the limit is decided", got)


def test_torn(tally: Tally, program: str, verdicts: Verdicts, room: str) -> None:
    """The permitted outcomes have those in which one read's bytes come from several writes, or it is told that they may
    not be all."""
    for name, count in (("CoRR+un+un2", 16), ("SB+sc", 3)):
        test = suite()[name]
        module = os.path.join(room, f"{name}.wasm")
        commands.write(module, bytes_of(test))
        with judges.Stream(program, module) as stream:
            second = bytewise.permitted(cycle_log(test), stream)
        found = Decisions(specimen_of(test), verdicts.kept)
        holds = set(found.permitted) == second and len(second) == count and found.all.is_whole
        tally.check(holds, f"{name}: the permitted outcomes are those of the second enumeration", (found, second))
    plain = Decisions(specimen_of_table("plain.litmus", WRITES.format(how="")), verdicts.kept)
    holds = MIXED in plain.permitted and plain.all.is_whole
    tally.check(holds, "a module's torn reads are listed", len(plain.permitted))
    many = Decisions(specimen_of(suite()["CoRW2+un8+un@4"]), verdicts.kept)
    tally.check(many.permitted and not many.all.is_whole, "too many outcomes are told", many.permitted)
    waiting = Decisions(specimen_of_text("waits.wat", WAITS, None), verdicts.kept, Limits(events=4))
    tally.check(waiting.permitted and not waiting.all.is_whole, "a loop that may go on is told", waiting.permitted)


def test_kept(tally: Tally, program: str, room: str) -> None:
    """Verdicts are kept; a folder that cannot be written is told once, and changes no verdict."""
    notes: list[str] = []
    buffering = specimen_of(suite()["SB+sc"])
    for folder in (os.path.join(room, "kept-verdicts"), "/proc/none"):
        kept = Cache(folder, program, notes.append)
        got = [Decisions(buffering, kept).of((0, 0)).kind for _ in range(2)]
        tally.check(got == [FORBIDDEN, FORBIDDEN], f"verdicts with the folder {folder}", got)
    files = os.listdir(os.path.join(room, "kept-verdicts"))
    holds = len(files) == 2 and len(notes) == 1 and notes[0].startswith("verdicts are not kept: /proc/none: ")
    tally.check(holds, "a folder that cannot be written is told once", (files, notes))


def test_decisions(tally: Tally, program: str, room: str) -> None:
    """All of this. Tables and texts need wat2wasm."""
    verdicts = Verdicts(program, room)
    test_torn(tally, program, verdicts, room)
    test_kept(tally, program, room)
    test_witnesses(tally, verdicts)
    test_limits(tally, room, verdicts)
