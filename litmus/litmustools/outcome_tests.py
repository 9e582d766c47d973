"""Tests of litmus/outcomes, and of `wmlab explore` on the suite beside its candidates."""
import os
import shutil
from collections.abc import Callable, Iterator, Mapping, Sequence
from itertools import islice

from wmlabtools import TOP, harness
from wmlabtools.harness import Tally

from . import buffers
from .accesses import BadCycle
from .candidates import CHUNK, Candidates, Values
from .explored import Question, explored, is_causal, logs_of
from .judges import Judge, Stream
from .orders import Key
from .patterns import ends_condition
from .scripts import Scripts, histories_of
from .tests import LitmusTest

OUTCOMES = os.path.join(TOP, "litmus/outcomes")
EXAMPLES = os.path.join(TOP, "examples")
# Of a test with more candidates the outcomes are not compared, unless all tests are.
MOST_CANDIDATES = 20_000
# Tests whose scripts are searched for.
SCRIPTED = ("SB", "SB+sc", "MP", "MP+sc", "S", "R", "2+2W", "CoRR", "LB")
# A causal outcome is looked for among no more executions of the threads than this.
EVENTS = "64"

FITS = (
    ("0 0", "0 0", True),
    ("0 0", "0 1", False),
    ("0x10 *", "16 trap:unaligned", True),
    ("{0, 0xf} -", "15 -", True),
    ("!{0,15} *", "15 3", False),
    ("!0 *", "trap:overflow 3", True),
    ("trap:* *", "trap:overflow 3", True),
    ("!trap:* *", "trap:overflow 3", False),
    ("trap:unaligned *", "trap:overflow 3", False),
    ("007 *", "7 -", True),
)
NOT_ENDS = (
    ("0", "1 ends for 2 threads"),
    ("", "0 ends for 2 threads"),
    ("0 0 0", "3 ends for 2 threads"),
    ("-1 0", "values have no sign"),
    ("x 0", '"x" is not an end'),
    ("{} 0", '"{}" is not an end'),
    ("{0,} 0", '"{0,}" is not an end'),
    ("!* 0", '"!*" is not an end'),
    ("trap:no 0", '"trap:no" is not an end'),
    ("18446744073709551616 0", "is not an end"),
)


def test_patterns(tally: Tally) -> None:
    """Conditions have the words of the recorder."""
    for text, outcome, fits in FITS:
        tally.check(ends_condition("forbid", text, 2).fits(outcome) == fits, f"{text!r} and the outcome {outcome!r}")
    for text, sentence in NOT_ENDS:
        said = "nothing"
        try:
            ends_condition("forbid", text, 2)
        except BadCycle as error:
            said = str(error)
        tally.check(sentence in said, f"the condition {text!r} is refused", said)


# ---- the command

SB = ("store-buffering.wasm", "8", "a", "b")
SEQLOCK = ("writer", "reader", "--forbid", "- !{0,11,0xffffffff}")
# The words after the program, the status, and a part of what is printed.
ANSWERS: tuple[tuple[tuple[str, ...], int, str], ...] = (
    ((*SB, "--want", "0 0", "--forbid", "2 *"), 0, 'ok --forbid "2 *": no such outcome'),
    ((*SB, "--forall", "{0,1} {0,1}"), 0, 'ok --forall "{0,1} {0,1}": no other outcome'),
    ((*SB, "--~exists", "0 0"), 1, 'FAILED --~exists "0 0": 0 0'),
    ((*SB, "--forall", "1 *"), 1, 'FAILED --forall "1 *": 0 0, 0 1'),
    ((*SB, "--exists", "2 2"), 1, 'FAILED --exists "2 2": no such outcome'),
    ((*SB[:1], "1", *SB[2:], "--forbid", "2 *"), 2, 'open --forbid "2 *": no such outcome within a bound'),
    ((*SB[:1], "1", *SB[2:], "--want", "0 0"), 2, 'open --want "0 0": no such outcome within a bound'),
    (("store-buffering-atomic.wasm", *SB[1:], "--forbid", "0 0", "--want", "0 1"), 0, 'ok --want "0 1": 0 1'),
    (("seqlock.wasm", "16", *SEQLOCK), 0, "ok --forbid"),
    (("seqlock-plain-first.wasm", "16", *SEQLOCK), 1, '": - 1, - 10'),
    (("once.wasm", "16", "first", "second", "--forall", "{15,0xffffffff} {15,0xffffffff}"), 0, "ok --forall"),
    (("once-plain-flag.wasm", "16", "first", "second", "--forbid", "{0,7,8} *"), 1, '": 0 15, 7 15, 8 15'),
    ((*SB, "--forbid", "0 0"), 1, "kept explored/store-buffering_0_0.json, .txt, .svg, .turns"),
    (("seqlock-plain-first.wasm", "16", *SEQLOCK), 1, "no script of drive for - 10: store buffers do not give it"),
)
# Words of mistakes, and how the one line begins.
MISTAKES: tuple[tuple[tuple[str, ...], str], ...] = (
    (SB, "there is no condition"),
    ((*SB, "--forbid", "0"), '--forbid "0": 1 ends for 2 threads'),
    ((*SB, "--want", "-1 0"), '--want "-1 0": "-1" is not an end'),
    (("store-buffering.wasm", "0", "a", "b", "--want", "0 0"), "refused command events"),
    (("store-buffering.wasm", "1025", "a", "b", "--want", "0 0"), "refused command events"),
    (("store-buffering.wasm", "x", "a", "b", "--want", "0 0"), "refused command events"),
    (("store-buffering.wasm", "8", "a", "c", "--want", "0 0"), "refused "),
    (("floats.wasm", "8", "a", "--want", "0"), "refused decode "),
    (("none.wasm", "8", "a", "--want", "0"), ""),
)


def run(program: str, words: Sequence[str], room: str, path: str | None = None) -> harness.Output:
    module = os.path.join(EXAMPLES, words[0])
    env = {**os.environ, "PATH": path} if path else None
    return harness.run(OUTCOMES, ["--wmlab", program, module, *words[1:]], cwd=room, env=env, timeout=600)


def test_command(tally: Tally, program: str, room: str) -> None:
    """litmus/outcomes answers, refuses, and keeps what is forbidden."""
    for words, status, part in ANSWERS:
        out, err, ended = run(program, words, room)
        tally.check(ended == status and part in out and not err, f"outcomes {' '.join(words)}", (ended, out, err))
    for words, sentence in MISTAKES:
        out, err, ended = run(program, words, room)
        is_line = err.startswith(f"outcomes: {sentence}") and err.count("\n") == 1
        tally.check(ended == 2 and not out and is_line, f"outcomes {' '.join(words)} is refused in a line", out + err)
    for name in ("/nowhere", "/bin/true"):
        out, err, ended = run(name, (*SB, "--want", "0 0"), room)
        tally.check(ended == 2 and not out and err.count("\n") == 1, f"{name} is no program of outcomes", out + err)
    test_kept(tally, program, os.path.join(room, "explored"))
    test_without_dot(tally, program, room)


def test_kept(tally: Tally, program: str, folder: str) -> None:
    """The log of what is forbidden is allowed, and has its explanation and its picture."""
    stem = os.path.join(folder, "seqlock-plain-first_-_10")
    module = os.path.join(EXAMPLES, "seqlock-plain-first.wasm")
    answer = harness.run(program, ["check", module, f"{stem}.json"])
    tally.check(answer.printed.startswith("allowed "), "check of a kept log", answer)
    for ending, part in ((".txt", "reader"), (".svg", "</svg>")):
        text = ""
        if os.path.isfile(stem + ending):
            with open(stem + ending, encoding="utf-8") as file:
                text = file.read()
        tally.check(part in text, f"{stem}{ending} is kept", text)
    with open(os.path.join(folder, "store-buffering_0_0.turns"), encoding="utf-8") as file:
        turns = file.read().strip()
    answer = harness.run(program, ["drive", os.path.join(EXAMPLES, SB[0]), turns, *SB[2:]])
    tally.check(answer.printed.startswith("outcome 0 0\nallowed "), "drive gives the outcome of a kept script", answer)


def test_without_dot(tally: Tally, program: str, room: str) -> None:
    """Without Graphviz there is a picture too."""
    tools = os.path.join(room, "few-tools")
    os.makedirs(tools)
    for name in ("env", "python3", "bash", "sh"):
        os.symlink(str(shutil.which(name)), os.path.join(tools, name))
    out, err, ended = run(program, (*SB, "--forbid", "0 0", "--kept", "few"), room, path=tools)
    there = sorted(os.listdir(os.path.join(room, "few"))) if ended == 1 else []
    wanted = [f"store-buffering_0_0.{ending}" for ending in ("json", "svg", "turns", "txt")]
    tally.check(there == wanted, "outcomes keeps a picture without dot", (there, out, err))


def test_scripts(
    tally: Tally, tests: Mapping[str, LitmusTest], stream_on: Callable[[LitmusTest], Stream], program: str
) -> None:
    """An outcome of a test has a script exactly if store buffers give it, as another search finds. A bound is told."""
    for name in SCRIPTED:
        test = tests[name]
        given = {test.results(values) for values in buffers.outcomes(buffers.Machine(test))}
        with stream_on(test) as stream:
            question = Question(program, stream.module, EVENTS, test.starts)
            outcomes = explored(question).outcomes
            logs = logs_of(question, outcomes)
            scripts = Scripts(question)
            found = {outcome for outcome in outcomes if scripts.script(outcome, histories_of(logs[outcome])).turns}
            tally.check(found == given & set(outcomes), f"the outcomes of {name} with a script", (found, given))
    short = Scripts(Question(program, os.path.join(EXAMPLES, SB[0]), "1", SB[2:])).script("0 0", ((), ()))
    tally.check("within 1 events of thread " in short.reason, "a search for a script that met its bound", short)


# ---- explore on the suite


class NoFlags(dict[Key, int]):
    """Nothing is wanted of any read: a flag may be unset."""

    def __missing__(self, _key: Key) -> int:
        return 0


class AllCandidates(Candidates):
    """The candidates of a test with any values of its flags."""

    def wanted_values(self, _outcome: Values | None) -> dict[Key, int]:
        return NoFlags()


def is_allowed(lines: Iterator[str], judge: Judge) -> bool:
    """Whether one of some logs is allowed."""
    while chunk := list(islice(lines, CHUNK)):
        if any(answer.startswith("allowed") for answer in judge.answers(chunk)):
            return True
    return False


def permitted(test: LitmusTest, judge: Judge, by_byte: bool = False) -> tuple[set[str], set[str]]:
    """The outcomes that some causal candidate has and is allowed, and those that only others have."""
    causal: set[str] = set()
    others: set[str] = set()
    for values, lines in AllCandidates(test, by_byte).groups():
        outcome = test.results(values)
        first = next(lines, None)
        if outcome in causal or first is None:
            continue
        found = causal if is_causal(first) else others
        if outcome not in found and (is_allowed(iter([first]), judge) or is_allowed(lines, judge)):
            found.add(outcome)
    return causal, others - causal


def test_explored(
    tally: Tally,
    tests: Mapping[str, LitmusTest],
    names: Sequence[str],
    stream_on: Callable[[LitmusTest], Stream],
    program: str,
    is_all: bool,
) -> None:
    """What `explore` lists of a test is what its candidates permit; it may leave out what only candidates have of which
    program order and reads-from have a cycle."""
    left_out = 0
    compared = 0
    for name in names:
        test = tests[name]
        if not is_all and AllCandidates(test).count() > MOST_CANDIDATES:
            continue
        compared += 1
        with stream_on(test) as stream:
            found = explored(Question(program, stream.module, EVENTS, test.starts))
            causal, others = permitted(test, stream)
            missing = causal - set(found.outcomes)
            tally.check(found.bound is None and not missing, f"explore lists what {name} can have", (missing, found))
            beside = set(found.outcomes) - causal - others
            if beside:
                beside -= set().union(*permitted(test, stream, by_byte=True))
            tally.check(not beside, f"explore lists only what {name} can have", (beside, found))
            left_out += len(others - set(found.outcomes))
    tally.check(left_out > 0, "candidates with a cycle have outcomes that explore leaves out", left_out)
    print(f"explore: {compared} tests compared, {left_out} outcomes need a cycle of program order and reads-from")
