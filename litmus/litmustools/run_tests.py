"""Tests of litmus/run: what it prints, engines that are wrong on purpose, mistakes, and what goes wrong around it."""
import json
import os
import shutil
import signal
import subprocess
import time
from collections.abc import Iterator

from wmlabtools import TOP, harness
from wmlabtools.harness import Tally

from . import commands
from .accesses import BadCycle
from .beyond import beyond, malformed, wrong_permission
from .conditions import condition_of
from .decision_tests import test_decisions
from .engines import ENGINES
from .judges import Stream
from .model import CASES, Model
from .modules import bytes_of
from .suite import committed, suite
from .verdicts import expected_verdicts, verdict_of

RUN = os.path.join(TOP, "litmus/run")
# Each engine that is wrong on purpose, with tests that notice it.
NOTICED_BY = {
    "plain-atomics": ("SB+sc",),
    "torn-store": ("CoRR+sc", "MP+un-sc+sc-un@2", "torn.litmus"),
    "split-update": ("X+X+rmw",),
    "early-atomic-load": ("SB+sc",),
    "early-plain-load": ("MP+un-sc+sc-un",),
    "late-plain-store": ("MP+un-sc+sc-un",),
}
MOST_TRIES = 6
HANDSHAKE = "litmus/examples/handshake.wat"

MISTAKES: tuple[tuple[list[str], str], ...] = (
    (["--iterations", "0", "SB"], "expected an integer from 1"),
    (["--seconds", "0", "SB"], "expected a number of seconds that is more than 0"),
    (["--batch", "0", "SB"], "expected an integer from 1"),
    (["--stride", "0", "SB"], "expected an integer from 4"),
    (["--chunk", "3", "SB"], "expected 0 or a power of two"),
    (["--pin", "9999", "SB"], "is not a processor that this process may use"),
    (["--pin", "", "SB"], "is not a processor that this process may use"),
    (["--wrong", "fence", "SB"], "choose from 'plain-atomics'"),
    (["--engine", "opera", "SB"], "choose from 'node'"),
    (["--wmlab", "/bin/true", "SB"], "this program has no command stream"),
    (["--all", "SB"], "name no test"),
    (["--exists", "a=0", "SB"], "this test has its own"),
    ([], "name a test"),
    (["SC"], "no shape has this name"),
    (["none.wat"], "cannot read none.wat"),
    (["none.litmus"], "cannot read none.litmus"),
    (["none.wasm"], "name an exported function for each thread"),
    (["none.wasm", "a"], "cannot read none.wasm"),
)

HEAD = "(module (memory 1 1 shared)"
TEXTS = (
    (f"{HEAD} (func (resul)))", 'unexpected token "resul"'),
    (f'{HEAD} (func (export "a") (result i32) (i32.const 1))) ;;\n;; exists (q=0)\n', "q is not a part of an outcome"),
    (f'{HEAD} (func (export "a")))\n;; exists a\n', "expected = before its end"),
    (f'{HEAD} (func (export "a") (param i32)))\n', "it takes 1 arguments, and 0 are given"),
    (f'{HEAD} (func (export "a")))\n;; threads b\n', "no function is exported under this name"),
    (f'{HEAD} (func (export "a") (result i32) (i32.load (i32.const 65536))))', "outside of the memory"),
    (f'{HEAD} (func (export "a") (drop (memory.grow (i32.const 1)))))', "memory.grow cannot be run many times"),
    (f'{HEAD} (func (export "a") (unreachable)))', "unreachable"),
    ('(module (memory 1 1) (func (export "a")))', "write (memory 1 1 shared)"),
)

TABLES = (
    ("", "expected WASM NAME"),
    ("WASM t\n{ }\n P0 ;\n i32.lod r0 x ;\nexists (0:r0=0)\n", "i32.lod: expected a load"),
    ("WASM t\n{ }\n P0 ;\n i32.load x ;\nexists (0:r0=0)\n", "expected i32.load r0 x"),
    ("WASM t\n{ }\n P0 ;\n i32.store x r0 ;\nexists (x=0)\n", "r0: expected an integer or a register"),
    ("WASM t\n{ }\n P0 ;\n i32.load r0 x+14 ;\nexists (0:r0=0)\n", "a location has 16 bytes"),
    ("WASM t\n{ }\n P0 ;\n i32.atomic.load r0 x+2 ;\nexists (0:r0=0)\n", "at a multiple of its width"),
    ("WASM t\n{ }\n P0 | P1 ;\n i32.load r0 x ;\nexists (0:r0=0)\n", "1 cells; expected 2"),
    ("WASM t\n{ }\n P0 ;\n i32.load r0 x ;\nexists (1:r0=0)\n", "neither a register"),
)

# A memory that is addressed by what a loop counts, with a data segment, a global and a call.
LOOPS = """(module (memory 1 1 shared) (data (i32.const 32) "\\05")
  (global $calls (mut i32) (i32.const 0))
  (func $put (param $at i32) (i32.store (local.get $at) (i32.const 1)))
  (func (export "a") (result i32) (local $i i32)
    (loop $again
      (call $put (i32.shl (local.get $i) (i32.const 2)))
      (br_if $again (i32.lt_u (local.tee $i (i32.add (local.get $i) (i32.const 1))) (i32.const 3))))
    (global.set $calls (i32.add (global.get $calls) (i32.const 1)))
    (i32.add (i32.load (i32.const 32)) (global.get $calls)))
  (func (export "b") (param $n i32) (result i32)
    (if (i32.eqz (i32.load (i32.const 8))) (then (return (local.get $n))))
    (i32.load (i32.const 0))))
;; threads a b:77
;; forall (a=6 /\\ (b=77 \\/ b=1 \\/ b=0))
"""

# A browser that answers for its page. A file has the number of its runs that end in the middle of their first test.
FAKE_BROWSER = """#!/usr/bin/env node
const { readFileSync, writeFileSync } = require('node:fs');
const address = new URL(process.argv.find((word) => word.startsWith('http')) ?? 'http://localhost');
const post = async (answer) => (await fetch(`${address.origin}/litmus/task${address.search}`, {
  method: 'POST', body: JSON.stringify(answer) })).json();
const result = { iterations: 5, milliseconds: 1, tuples: [[['0', '1'], 5]], others: 0 };
async function main() {
  if (process.argv.includes('--version')) return console.log('Fake 1');
  const left = Number(readFileSync(process.env.DEATHS, 'utf8'));
  writeFileSync(process.env.DEATHS, String(left - 1));
  for (let answer = {}; !(await post(answer)).end; answer = { result }) if (left > 0) process.exit(1);
}
main();
"""

Environment = dict[str, str] | None
Process = subprocess.Popen[str]
# What a command prints, what it writes to standard error, and its status.
Ended = tuple[str, str, int]


class Commands:
    """Runs litmus/run with folders of its own."""

    def __init__(self, program: str, room: str) -> None:
        self.room = room
        folders = ["--cache", os.path.join(room, "cache"), "--found", os.path.join(room, "found")]
        self.words = ["--wmlab", program, *folders]

    def start(self, *words: str, environment: Environment = None, before: tuple[str, ...] = ()) -> Process:
        command = [*before, RUN, *self.words, *words]
        env = {**os.environ, **(environment or {})}
        pipe = subprocess.PIPE
        return subprocess.Popen(command, stdout=pipe, stderr=pipe, text=True, cwd=TOP, env=env)

    def run(self, *words: str, environment: Environment = None, before: tuple[str, ...] = ()) -> Ended:
        process = self.start(*words, environment=environment, before=before)
        out, err = process.communicate(timeout=300)
        return out, err, process.returncode

    def written(self, name: str, text: str) -> str:
        path = os.path.join(self.room, name)
        commands.write(path, text)
        return path


def test_output(tally: Tally, run: Commands) -> None:
    """The form of litmus7, and the same as JSON."""
    out, err, status = run.run("SB", "SB+sc", "--iterations", "20000")
    head = ("Test SB Allowed", "Histogram (", "*>0:r0=0; 1:r0=0;", "Observation SB ", "Time SB ")
    wanted = (*head, "Permitted SB 4 outcomes")
    missing = [part for part in wanted if part not in out]
    tally.check(status == 0 and not missing, "run prints a histogram", f"{missing} {out} {err}")
    tally.check("Observation SB+sc Never 0 20480" in out, "SB+sc has no weak outcome", out)
    out, err, status = run.run("2+2W", HANDSHAKE, "litmus/examples/MP.litmus", "--iterations", "5000", "--json")
    rows = [json.loads(line) for line in out.splitlines()]
    holds = status == 0 and [row["name"] for row in rows] == ["2+2W", "handshake", "MP"]
    verdicts = {state["verdict"] for row in rows for state in row["states"]}
    tally.check(holds and verdicts == {"permitted"}, "run --json of a cycle, a module and a table", out + err)
    counts = [sum(state["count"] for state in row["states"]) for row in rows]
    tally.check(counts == [row["iterations"] for row in rows], "each iteration is counted once", counts)


def test_modules(tally: Tally, run: Commands) -> None:
    """A module with loops, a call, a global and data: each instance begins as a new memory does."""
    path = run.written("loops.wat", LOOPS)
    out, err, status = run.run(path, "--iterations", "3000")
    holds = status == 0 and "is validated" in out and "NOT validated" not in out
    tally.check(holds, "a module with loops and data", out + err)
    module = os.path.join(run.room, "sb.wasm")
    commands.write(module, bytes_of(suite()["SB"]))
    out, err, status = run.run("--exists", "a=0 /\\ 1:r0=0", module, "a", "b", "--iterations", "5000")
    tally.check(status == 0 and "*>a=0; b=0;" in out or "a=0; b=1;" in out, "a module and its threads", out + err)


def is_noticed(run: Commands, how: str) -> bool:
    """Whether a wrong engine is noticed within some tries: how threads overlap is left to the machine."""
    for number in range(MOST_TRIES):
        for name in NOTICED_BY[how]:
            test = f"litmus/beyond/{name}" if name.endswith(".litmus") else name
            words = (test, "--wrong", how, "--iterations", str(40_000 << number))
            out, err, status = run.run(*words)
            if status == 1 and "NOT PERMITTED" in out and "is not permitted; " in err:
                return True
    return False


def test_wrong_engines(tally: Tally, run: Commands) -> None:
    if harness.processors() < 2:
        print("one processor: wrong engines are left out, whose threads have to overlap")
        return
    for how in NOTICED_BY:
        tally.check(is_noticed(run, how), f"litmus/run notices an engine with {how}")
    kept = os.listdir(os.path.join(run.room, "found"))
    endings = {name.rsplit(".", 1)[-1] for name in kept}
    tally.check({"json", "txt", "wasm"} <= endings and endings & {"svg", "dot"}, "a find has its files", kept)
    page = next(name for name in kept if name.startswith("SB+sc") and name.endswith(".txt"))
    with open(os.path.join(run.room, "found", page), encoding="utf-8") as file:
        text = file.read()
    tally.check("What is to blame" in text and "broken V5 case 3" in text, "the page of a find", text)


def test_mistakes(tally: Tally, run: Commands) -> None:
    for words, sentence in MISTAKES:
        out, err, status = run.run(*words)
        holds = status == 2 and not out and sentence in err.splitlines()[-1]
        tally.check(holds, f"run {words} is refused", out + err)
    if not shutil.which("wat2wasm"):
        print("wat2wasm is not there: tests in the text format are left out")
        return
    for number, (text, sentence) in enumerate(TEXTS):
        path = run.written(f"wrong-{number}.wat", text)
        out, err, status = run.run(path, "--iterations", "10")
        tally.check(status == 2 and sentence in err.splitlines()[-1], f"a text is refused: {sentence}", out + err)
    for number, (text, sentence) in enumerate(TABLES):
        path = run.written(f"wrong-{number}.litmus", text)
        out, err, status = run.run(path, "--iterations", "10")
        tally.check(status == 2 and sentence in err.splitlines()[-1], f"a table is refused: {sentence}", out + err)


def fake(run: Commands, name: str, script: str) -> dict[str, str]:
    """An environment in which a program of this name comes first."""
    folder = os.path.join(run.room, f"fake-{name}")
    os.makedirs(folder, exist_ok=True)
    path = os.path.join(folder, name)
    commands.write(path, f"#!/bin/sh\n{script}\n")
    os.chmod(path, 0o755)
    return {"PATH": f"{folder}:{os.environ['PATH']}"}


def test_browser_that_ends(tally: Tally, run: Commands) -> None:
    """A browser that ends in a test is opened once more for it; after two tests in which it ended twice, no more."""
    deaths = run.written("deaths", "")
    fake(run, "chromium", "")
    program = run.written("fake-chromium/chromium", FAKE_BROWSER)
    environment = {"PATH": f"{os.path.dirname(program)}:{os.environ['PATH']}", "DEATHS": deaths}
    for count, done, failed, sentence in (
        (1, 3, 0, "run: SB: chromium: the browser ended; it is opened once more"),
        (2, 2, 1, "run: SB: chromium: the browser ended"),
        (4, 0, 2, "run: the engine ended in 2 tests one after the other; 1 of 3 tests, from SB+sc on, "),
    ):
        commands.write(deaths, str(count))
        words = ("SB", "MP", "SB+sc", "--engine", "chromium", "--pin", "none", "--json")
        out, err, status = run.run(*words, environment=environment)
        ends = [line for line in err.splitlines() if line.endswith(": the browser ended")]
        holds = status == (2 if failed else 0) and len(out.splitlines()) == done and len(ends) == failed
        tally.check(holds and sentence in err, f"a browser that ends {count} times", (status, out, err))


def test_folders(tally: Tally, run: Commands) -> None:
    """Folders that cannot be written, and two runs into one."""
    out, err, status = run.run("SB+sc", "--iterations", "1000", "--cache", "/proc/none")
    holds = status == 0 and err.count("run: verdicts are not kept: /proc/none: ") == 1
    tally.check(holds, "a folder of verdicts that cannot be written", (status, out, err))
    wrong = ("SB+sc", "--wrong", "plain-atomics", "--found", "/proc/none", "--iterations", "200000")
    if harness.processors() > 1:
        ended = [run.run(*wrong) for _ in range(MOST_TRIES)]
        holds = any(status == 1 and "/proc/none cannot be written" in err for _, err, status in ended)
        tally.check(holds, "a folder of finds that cannot be written", ended[-1])


def test_surroundings(tally: Tally, run: Commands) -> None:
    """No permission to pin, one processor, a browser that dies, no node."""
    refusing = fake(run, "taskset", "echo 'Operation not permitted' >&2; exit 1")
    out, err, status = run.run("CoRR", "--iterations", "1000", environment=refusing)
    if harness.processors() > 1:
        holds = status == 0 and "threads are not pinned: Operation not permitted" in err and "not pinned" in out
        tally.check(holds, "threads that may not be pinned are told", out + err)
    first = str(min(os.sched_getaffinity(0)))
    out, err, status = run.run("CoRR", "--iterations", "1000", before=("taskset", "-c", first))
    holds = status == 0 and "1 processor for 2 threads" in err
    tally.check(holds, "one processor is told, and the test runs", out + err)
    out, err, status = run.run("CoRR", "--iterations", "1000", "--pin", first)
    holds = status == 0 and "1 processor for 2 threads" in err and f"pinned to processors {first} {first}" in out
    tally.check(holds, "one processor that was chosen is told", out + err)
    dying = fake(run, "chromium", "[ $1 = --version ] && echo Fake 1 || exit 1")
    out, err, status = run.run("SB", "--engine", "chromium", environment=dying)
    tally.check(status == 2 and "the browser ended" in err.splitlines()[-1], "a browser that dies", out + err)
    empty = os.path.join(run.room, "empty")
    os.makedirs(empty, exist_ok=True)
    for name in ("python3", "env"):
        found = shutil.which(name)
        if found and not os.path.exists(os.path.join(empty, name)):
            os.symlink(found, os.path.join(empty, name))
    out, err, status = run.run("SB", environment={"PATH": empty})
    tally.check(status == 2 and "node is not installed" in err.splitlines()[-1], "node is missing", out + err)


def test_browsers(tally: Tally, run: Commands) -> None:
    """The same tests in each browser that is installed."""
    for engine in ENGINES[1:]:
        out, err, status = run.run("SB+sc", HANDSHAKE, "--engine", engine, "--iterations", "20000", "--json")
        if status == 2 and not out and "which is not installed" in err:
            print(f"litmus/run in {engine} is left out: {err.splitlines()[-1]}")
            continue
        rows = [json.loads(line) for line in out.splitlines()]
        holds = status == 0 and [row["iterations"] for row in rows] == [20480, 20480]
        tally.check(holds and engine in rows[0]["engine"].lower(), f"litmus/run in {engine}", out + err)


def test_interruption(tally: Tally, run: Commands) -> None:
    """Ctrl-C and SIGTERM end with the tables and status 130. On a busy machine the test may not have begun, so that
    there is no table yet; then it is tried again later."""
    for sign in (signal.SIGINT, signal.SIGTERM):
        for seconds in (3, 10, 30):
            process = run.start("SB", "--iterations", "1000000000000")
            time.sleep(seconds)
            process.send_signal(sign)
            out, err = process.communicate(timeout=60)
            if "Histogram" in out:
                break
        holds = process.returncode == 130 and "Histogram" in out and "stopped after" in err
        tally.check(holds, f"{sign.name} prints the tables", f"{process.returncode} {out} {err}")


def test_pipes(tally: Tally, run: Commands) -> None:
    """Output whose reader has ended, and two runs at once."""
    process = run.start("CoRR", "SB", "--iterations", "1000")
    assert process.stdout and process.stderr
    process.stdout.close()
    err = process.stderr.read()
    status = process.wait(timeout=60)
    process.stderr.close()
    tally.check(status == 2 and "Traceback" not in err, "output that nobody reads", f"{status} {err}")
    both = [run.start("SB", "R", "--iterations", "5000") for _ in range(2)]
    ends = [(*process.communicate(timeout=120), process.returncode) for process in both]
    tally.check(all(status == 0 for _, _, status in ends), "two runs at the same time", ends)


def test_conditions(tally: Tally) -> None:
    values = {"a": (1, 32), "b": (0, 32), "0:r1": ((1 << 32) - 1, 32)}
    for text, holds in (
        ("exists (a=1 /\\ b=0)", True),
        ("exists (a=0 \\/ b=0 /\\ a=1)", True),
        ("~exists (a=0 \\/ ~(b=0))", False),
        ("forall 0:r1=-1", True),
        ("exists not (a=1)", False),
        ("exists ((a=0x1))", True),
    ):
        tally.check(condition_of(text).formula.holds(values) == holds, f"{text} is {holds}")
    for text in ("exists", "exists (a=1", "exists a==1", "sometimes (a=1)", "exists (a=1) b", "exists a=b"):
        try:
            condition_of(text)
            tally.check(False, f"the condition {text!r} is refused")
        except BadCycle as error:
            tally.check("condition" in str(error), f"the condition {text!r} is refused", error)


def noticing(model: Model) -> Iterator[str]:
    """What notices a judge by the plain rules without a case."""
    tests, verdicts = suite(), expected_verdicts()
    for case, name, log in malformed(tests):
        if not model.answer(log).startswith(f"broken {case[:2]}"):
            yield f"a candidate of {name}"
    yield from (name for name, specimen in beyond().items() if wrong_permission(specimen, model))
    yield from (name for name in committed(tests) if verdict_of(tests[name], model)[0] != verdicts[name])


def test_cases(tally: Tally, program: str, room: str) -> None:
    """Each case of each rule left out is noticed; the rules as they are, and the program, refuse what they have to."""
    if not shutil.which("wat2wasm"):
        print("wat2wasm is not there: the tables of litmus/beyond are left out")
        return
    tally.check(next(noticing(Model()), None) is None, "nothing notices the rules as they are")
    for case in CASES:
        seen = next(noticing(Model((case,))), None)
        tally.check(seen, f"a judge without {case} is noticed")
        print(f"a judge without {case} is noticed by {seen}")
    module = os.path.join(room, "module.wasm")
    for name, specimen in beyond().items():
        commands.write(module, specimen.logged.judged if specimen.logged else b"")
        with Stream(program, module) as stream:
            tally.check(wrong_permission(specimen, stream) is None, f"the program refuses what {name} forbids")
    tests = suite()
    for case, name, log in malformed(tests):
        commands.write(module, bytes_of(tests[name]))
        with Stream(program, module) as stream:
            answer = stream.answers([log])[0]
        tally.check(answer.startswith(f"broken {case}"), f"a malformed candidate of {name} breaks {case}", answer)


def test_run(tally: Tally, program: str, room: str) -> None:
    """All of this. It needs node."""
    test_conditions(tally)
    test_cases(tally, program, room)
    if not shutil.which("node"):
        print("node is not there: litmus/run is left out")
        return
    if shutil.which("wat2wasm"):
        test_decisions(tally, program, room)
    else:
        print("wat2wasm is not there: tests of decisions are left out")
    run = Commands(program, room)
    test_output(tally, run)
    test_modules(tally, run)
    test_wrong_engines(tally, run)
    test_mistakes(tally, run)
    test_surroundings(tally, run)
    test_folders(tally, run)
    test_browser_that_ends(tally, run)
    test_browsers(tally, run)
    test_interruption(tally, run)
    test_pipes(tally, run)


