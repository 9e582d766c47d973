"""What a worker does with a batch.

Dask sends these functions by value, since a worker of a cluster has no clone. So this module uses the standard library
and Dask alone, takes bytes and strings, and returns them. A batch that fails is a result with a `failure`.
"""
from __future__ import annotations

import ctypes
import fcntl
import io
import json
import os
import re
import shutil
import signal
import socket
import subprocess
import tarfile
import tempfile
import zlib
from collections.abc import Callable, Iterable, Sequence
from typing import IO, Any, NotRequired, ParamSpec, TypedDict, final

MOST_STEPS = 1_000_000
Counts = dict[str, int]
# A line of `litmus/run --json`.
Histogram = dict[str, Any]
STATUS = {"allowed": 0, "broken": 1, "refused": 2}
# The longest search for another witness of a log, in seconds.
MOST_SECONDS = 20
# How a log is answered that a rule refuses with its own witness, unless it has no other one.
ANOTHER_WITNESS = "refused another witness is allowed"
NO_WITNESS_FOUND = "refused no witness found"
# How the answers are counted that `wmlab stream` does not give.
OTHER_ANSWERS = (
    (re.compile(ANOTHER_WITNESS), "refused another witness"),
    (re.compile(NO_WITNESS_FOUND), NO_WITNESS_FOUND),
    (re.compile(r"thread \d+ ended with "), "broken engine's end"),
    (re.compile(r"no witness threads="), "broken no witness"),
    (re.compile(r"no witness found"), NO_WITNESS_FOUND),
)


class Packed(TypedDict):
    """The materials of a worker: their name, and the compressed tar of their files."""

    name: str
    tar: bytes


class KeptLog(TypedDict):
    """A log to keep: its number in the batch, and what its files are named by after that."""

    number: int
    answer: str
    log: bytes
    explanation: str
    ending: str


@final
class Result(TypedDict):
    counts: Counts
    kept: list[KeptLog]
    histograms: NotRequired[list[Histogram]]


@final
class Failure(TypedDict):
    failure: str


class BatchFailed(Exception):
    """The batch has no result: nothing of it may be counted."""


# ---- answers


def kind_of(answer: str) -> str:
    """What an answer is counted as: its words without threads, events and places."""
    for pattern, kind in OTHER_ANSWERS:
        if pattern.match(answer):
            return kind
    if answer.startswith("allowed "):
        return "allowed"
    return re.sub(r" at .*| in .*| thread \d+|(?<= event) \d+", "", answer)


def counted(answers: Iterable[str]) -> Counts:
    counts: Counts = {}
    for answer in answers:
        kind = kind_of(answer)
        if kind.split(" ")[0] not in STATUS:
            raise BatchFailed(f"this is no answer: {answer[:200]!r}")
        counts[kind] = counts.get(kind, 0) + 1
    return counts


def status_of(counts: Iterable[str]) -> int:
    found = {STATUS[kind.split(" ")[0]] for kind in counts}
    return 1 if 1 in found else 2 if 2 in found else 0


# ---- the materials: the program, the modules and the recorder


def materials_of(packed: Packed) -> Packed:
    """The value of the task on which all batches depend: Dask brings it to each worker once, and computes it again if
    the workers that have it are lost."""
    return packed


def folder_of(materials: Packed) -> str:
    """The folder of this worker with the files of the materials, which the first batch makes."""
    from distributed import get_worker

    room = get_worker().local_directory
    folder = os.path.join(room, f"campaign-{materials['name']}")
    # A file that another thread has open for writing cannot be executed.
    with open(os.path.join(room, "campaign-lock"), "w", encoding="utf-8") as lock:
        fcntl.flock(lock, fcntl.LOCK_EX)
        if not os.path.isdir(folder):
            unpacked = tempfile.mkdtemp(dir=room)
            with tarfile.open(fileobj=io.BytesIO(zlib.decompress(materials["tar"]))) as tar:
                tar.extractall(unpacked)
            os.rename(unpacked, folder)
    return folder


# ---- the program

# Of prctl(2): the signal that a process gets when its parent ends.
PR_SET_PDEATHSIG = 1


def ran(
    words: Sequence[str],
    *,
    stdin: int | IO[bytes] | None = None,
    input: bytes | None = None,
    timeout: float | None = None,
) -> subprocess.CompletedProcess[bytes]:
    """A process that a Ctrl-C in the terminal of the campaign does not reach, and that ends with this worker. `timeout`
    is in seconds."""
    system = ctypes.CDLL(None)
    try:
        return subprocess.run(
            words,
            stdin=stdin,
            input=input,
            timeout=timeout,
            capture_output=True,
            start_new_session=True,
            preexec_fn=lambda: system.prctl(PR_SET_PDEATHSIG, signal.SIGTERM),
            check=False,
        )
    except OSError as error:
        raise BatchFailed(f"cannot run {words[0]} on {socket.gethostname()}: {error.strerror}") from error


def ending_of(process: subprocess.CompletedProcess[bytes]) -> str:
    """How a process ended, in words, with the last line that it wrote to standard error."""
    said = process.stderr.decode(errors="replace").strip().split("\n")[-1]
    status = process.returncode
    ending = f"ended with status {status}" if status >= 0 else f"was ended by {signal.Signals(-status).name}"
    return f"{ending} on {socket.gethostname()}{': ' if said else ''}{said[:500]}"


def streamed(program: str, module: str, lines: bytes, count: int) -> list[str]:
    """The answers of `wmlab stream` to `count` lines. They are in a file, of which the program reads more at once
    than of a pipe."""
    with tempfile.TemporaryFile() as given:
        given.write(lines)
        given.seek(0)
        stream = ran([program, "stream", module], stdin=given)
    if stream.returncode not in STATUS.values():
        raise BatchFailed(f"wmlab stream {ending_of(stream)}")
    answers = stream.stdout.decode(errors="replace").split("\n")
    if answers.pop() != "" or len(answers) != count:
        raise BatchFailed(f"wmlab stream got {count} lines and answered {len(answers)}; it {ending_of(stream)}")
    expected = status_of(counted(answers))
    if stream.returncode != expected:
        raise BatchFailed(f"wmlab stream {ending_of(stream)}, and its answers have status {expected}")
    return answers


def asked(program: str, words: Sequence[str], document: bytes) -> tuple[bytes, int]:
    """What a command prints on a document, and its status."""
    command = ran([program, *words, "-"], input=document)
    if command.returncode not in STATUS.values():
        raise BatchFailed(f"wmlab {words[0]} {ending_of(command)}")
    return command.stdout.rstrip(b"\n"), command.returncode


def settled(program: str, module: str, document: bytes, answer: str) -> str:
    """The answer to a log. One that a rule refuses with its own witness is broken only if `wmlab witness` finds that it
    has no other one: else the log's witness is at fault, and not the engine."""
    if not answer.startswith("broken V"):
        return answer
    completed, _ = asked(program, ["complete", module], document)
    try:
        search = ran([program, "witness", module, "-"], input=completed, timeout=MOST_SECONDS)
    except subprocess.TimeoutExpired:
        return f"{NO_WITNESS_FOUND} in {MOST_SECONDS} seconds; with its own: {answer}"
    line = search.stdout.decode(errors="replace").rstrip("\n")
    if search.returncode == 0:
        return f"{ANOTHER_WITNESS}; with its own: {answer}"
    if search.returncode == 1 and line.startswith("no witness "):
        return answer
    if search.returncode == 2 and line.startswith("gave up "):
        return f"{NO_WITNESS_FOUND}, {line}; with its own: {answer}"
    raise BatchFailed(f"wmlab witness {ending_of(search)}")


def with_steps_before(program: str, module: str, document: bytes, thread: int) -> bytes:
    """A log whose thread cannot be completed: those before it are, and it has all steps that a thread may have, so that
    `explain` finds the event at which it differs."""
    value = json.loads(asked(program, ["migrate"], document)[0])
    name, version, threads, order = value
    before = [name, version, threads[:thread], [key for key in order if key[0] < thread]]
    completed = json.loads(asked(program, ["complete", module], json.dumps(before).encode())[0])
    for log, run in zip(threads, completed[2]):
        log[2:4] = run[2:4]
    threads[thread][2:4] = [["cut"], MOST_STEPS]
    return json.dumps(value, separators=(",", ":")).encode()


def explained(program: str, module: str, document: bytes, answer: str) -> tuple[bytes, str]:
    """A log that `check` answers as the stream was answered, and its explanation."""
    completed, status = asked(program, ["complete", module], document)
    differs = re.match(r"broken replay thread (\d+) ", answer)
    if status == 0:
        document = completed
    elif differs:
        document = with_steps_before(program, module, document, int(differs[1]))
    return document, asked(program, ["explain", module], document)[0].decode(errors="replace")


def chosen(answers: Sequence[str], most: int) -> list[int]:
    """The numbers of the logs that are kept: broken ones first, then refused ones."""
    kinds = [kind_of(answer).split(" ")[0] for answer in answers]
    return [number for wanted in ("broken", "refused") for number, kind in enumerate(kinds) if kind == wanted][:most]


def kept_log(number: int, answer: str, log: bytes, explanation: str, ending: str = "") -> KeptLog:
    return {"number": number, "answer": answer, "log": log, "explanation": explanation, "ending": ending}


def kept_logs(
    program: str, module: str, answers: Sequence[str], document_of: Callable[[int], bytes], most: int
) -> list[KeptLog]:
    """The logs to keep, each with its answer and its explanation."""
    return [
        kept_log(number, answers[number], *explained(program, module, document_of(number), answers[number]))
        for number in chosen(answers, most)
    ]


# ---- logs and rounds


def read(path: str) -> bytes:
    with open(path, "rb") as file:
        return file.read()


def judged_logs(materials: Packed, module: str, packed_lines: bytes, most_kept: int) -> Result:
    folder = folder_of(materials)
    program, module = os.path.join(folder, "wmlab"), os.path.join(folder, module)
    lines = zlib.decompress(packed_lines)
    separate = lines.split(b"\n")[:-1]
    answers = streamed(program, module, lines, len(separate))
    answers = [settled(program, module, *each) for each in zip(separate, answers, strict=True)]
    kept = kept_logs(program, module, answers, separate.__getitem__, most_kept)
    return {"counts": counted(answers), "kept": kept}


def recorded_answers(path: str, rounds: int) -> list[str]:
    """The answer to each round, in their order, from a file with a line `ROUND ANSWER` for each."""
    with open(path, encoding="utf-8") as file:
        numbered = dict(line.rstrip("\n").split(" ", 1) for line in file)
    if sorted(map(int, numbered)) != list(range(rounds)):
        raise BatchFailed(f"the recorder was asked for {rounds} rounds and answered for {len(numbered)}")
    return [numbered[str(number)] for number in range(rounds)]


def judged_rounds(
    materials: Packed, module: str, words: tuple[list[str], list[str]], rounds: int, most_kept: int
) -> Result:
    """Rounds that this worker records. The recorder has each log judged by `wmlab stream`, and compares the ends."""
    folder, node = folder_of(materials), shutil.which("node")
    if not node:
        raise BatchFailed(f"{socket.gethostname()} has no node, which records (Debian's package nodejs)")
    program, module = os.path.join(folder, "wmlab"), os.path.join(folder, module)
    with tempfile.TemporaryDirectory(dir=folder) as room:
        places = ["--answers", f"{room}/answers", "--out", f"{room}/logs", "--keep", f"{room}/kept.json"]
        recorder = os.path.join(folder, "engines/node/record.mjs")
        recording = ran(
            [node, recorder, "--wmlab", program, *places, *words[0], module, *words[1]], stdin=subprocess.DEVNULL
        )
        if recording.returncode not in (0, 1):
            raise BatchFailed(f"record.mjs {ending_of(recording)}")
        answers = recorded_answers(f"{room}/answers", rounds)

        kept = kept_logs(program, module, answers, lambda number: read(f"{room}/logs/{number}.json"), most_kept)
        if kept and os.path.exists(f"{room}/kept-shrunk.json"):
            smaller, explanation = read(f"{room}/kept-shrunk.json"), read(f"{room}/kept-shrunk.txt").decode()
            kept.append(kept_log(kept[0]["number"], kept[0]["answer"], smaller, explanation, "-shrunk"))
    return {"counts": counted(answers), "kept": kept}


# ---- litmus tests

# The verdicts of litmus/run, and how they are counted.
VERDICTS = {"permitted": "allowed", "not permitted": "broken not permitted", "not decided": "refused not decided"}


def one_at_a_time() -> IO[str]:
    """A lock of this machine: a harness has its processors for itself."""
    path = os.path.join(tempfile.gettempdir(), f"wmlab-litmus-{os.getuid()}.lock")
    lock = open(path, "w", encoding="utf-8")  # held as long as the file is open
    fcntl.flock(lock, fcntl.LOCK_EX)
    return lock


def found_logs(folder: str, most: int) -> list[KeptLog]:
    """What litmus/run kept of outcomes that are not permitted."""
    names = sorted(name.removesuffix(".txt") for name in os.listdir(folder) if name.endswith(".txt"))[:most]
    rows = []
    for number, name in enumerate(names):
        path = os.path.join(folder, f"{name}.json")
        log = read(path).rstrip(b"\n") if os.path.exists(path) else b"[]"
        page = read(os.path.join(folder, f"{name}.txt")).decode(errors="replace")
        rows.append(kept_log(number, page.splitlines()[0], log, page))
    return rows


def judged_tests(materials: Packed, _module: str, words: Sequence[str], count: int, most_kept: int) -> Result:
    """Litmus tests that this worker runs. Each line of the answer is the histogram of one."""
    folder, python = folder_of(materials), shutil.which("python3")
    if not python:
        raise BatchFailed(f"{socket.gethostname()} has no python3")
    with tempfile.TemporaryDirectory(dir=folder) as room, one_at_a_time():
        os.mkdir(f"{room}/found")
        places = ["--found", f"{room}/found", "--cache", os.path.join(folder, "verdicts")]
        command = [python, os.path.join(folder, "litmus/run"), "--json", "--wmlab", os.path.join(folder, "wmlab")]
        running = ran([*command, *places, *words], stdin=subprocess.DEVNULL)
        if running.returncode not in (0, 1, 2) or not running.stdout:
            raise BatchFailed(f"litmus/run {ending_of(running)}")
        rows = [json.loads(line) for line in running.stdout.splitlines()]
        counts: Counts = {}
        for row in rows:
            for state in row["states"]:
                kind = VERDICTS[state["verdict"]]
                counts[kind] = counts.get(kind, 0) + state["count"]
            if row["others"]:
                counts["refused not judged"] = counts.get("refused not judged", 0) + row["others"]
        if sum(counts.values()) != count:
            raise BatchFailed(f"litmus/run made {sum(counts.values())} of {count} iterations; it {ending_of(running)}")
        return {"counts": counts, "kept": found_logs(f"{room}/found", most_kept), "histograms": rows}


Given = ParamSpec("Given")


def result_of(judged: Callable[Given, Result], *given: Given.args, **named: Given.kwargs) -> Result | Failure:
    """The result of a batch of either kind. A worker that is lost gives none, and Dask lets another one do it."""
    try:
        return judged(*given, **named)
    except (BatchFailed, OSError) as error:
        return {"failure": str(error)}


def logs_result(materials: Packed, module: str, packed_lines: bytes, most_kept: int) -> Result | Failure:
    return result_of(judged_logs, materials, module, packed_lines, most_kept)


def rounds_result(
    materials: Packed, module: str, words: tuple[list[str], list[str]], rounds: int, most_kept: int
) -> Result | Failure:
    return result_of(judged_rounds, materials, module, words, rounds, most_kept)


def tests_result(
    materials: Packed, module: str, words: Sequence[str], count: int, most_kept: int
) -> Result | Failure:
    return result_of(judged_tests, materials, module, words, count, most_kept)
