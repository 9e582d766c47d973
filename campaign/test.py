#!/usr/bin/env python3
"""Tests campaigns: on a cluster of three worker processes, one of which is killed half-way, and whose scheduler is then
stopped; and each way in which a campaign can fail. The last line is `N passed, N failed`.

    campaign/test.py [--wmlab PROGRAM]        it needs Debian's python3-distributed and node
"""
import contextlib
import gzip
import json
import lzma
import os
import pty
import shutil
import signal
import subprocess
import sys
import tempfile
import threading
import time
from collections import Counter
from pathlib import Path
from typing import Any

from wmlabcampaign.worker import kind_of

sys.path.insert(0, os.path.join(os.path.dirname(os.path.abspath(__file__)), "../scripts"))

from wmlabtools import TOP, harness, log

MODULE = "examples/store-buffering.wasm"
ATOMIC = "examples/store-buffering-atomic.wasm"
FLOATS = "examples/floats.wasm"
SECONDS = 300
RUN = Path(TOP) / "campaign/run"


# ---- logs


def buffered(stored=1, order=((0, 0), (1, 0), (0, 1), (1, 1)), how="un"):
    """A log of store buffering in which both threads read the initial memory."""

    def thread(name, own, other, value):
        return [name, [], ["cut"], 0, [["w", how, own, 4, value], ["r", how, other, 4, 0, [[]] * 4]]]

    return log.compact(["wasm-litmus-log", 2, [thread("a", 0, 4, 1), thread("b", 4, 0, stored)], list(order)])


ALLOWED = buffered()
BROKEN = buffered(stored=2)
REFUSED = buffered(order=((0, 0), (1, 0)))
ORDERS = [((0, 0), (0, 1), (1, 0), (1, 1)), ((1, 0), (0, 0), (1, 1), (0, 1)), ((1, 0), (1, 1), (0, 0), (0, 1))]


def varied_lines(count):
    """Logs of each kind; the first 30 are the same ones again and again, so that some batches have the same content."""
    for number in range(count):
        if number % 37 == 5 and number >= 30:
            yield BROKEN
        elif number % 41 == 7 and number >= 30:
            yield REFUSED if number % 2 else "x"
        else:
            yield ALLOWED if number < 30 else buffered(order=ORDERS[number * number % 7 % 3])


def write_lines(path, lines, opener=open):
    with opener(path, "wt") as file:
        file.writelines(f"{line}\n" for line in lines)


# ---- processes


def heeds_interrupts():
    """A child is stopped by SIGINT also if these tests run in the background, where a shell has it ignored."""
    signal.signal(signal.SIGINT, signal.SIG_DFL)


class Room:
    """A folder for the results and logs of the tests, and the program that they run."""

    def __init__(self, folder, wmlab):
        self.folder, self.wmlab = Path(folder), wmlab

    def stand_in(self, name, script):
        """A program that does something else as `stream`; `$0` is its name and `$wmlab` the real program."""
        path = self.folder / name
        path.write_text(
            f"#!/bin/bash\nwmlab='{self.wmlab}'\n[ \"$1\" = stream ] || exec \"$wmlab\" \"$@\"\n{script}\n",
            encoding="utf-8",
        )
        path.chmod(0o755)
        return str(path)

    def start(self, *words, wmlab=None, **streams):
        command = [RUN, "--out", self.folder / words[0], "--wmlab", wmlab or self.wmlab, *words[1:]]
        streams = {"stdout": subprocess.PIPE, "stderr": subprocess.PIPE, "text": True, **streams}
        streams["preexec_fn"] = heeds_interrupts
        return subprocess.Popen(command, cwd=TOP, stdin=subprocess.DEVNULL, start_new_session=True, **streams)

    def run(self, *words, **more):
        """What a campaign prints, what it writes to standard error, and its status."""
        return self.run_all([words], **more)[0]

    def run_all(self, campaigns, **more):
        """The same of several campaigns at once."""
        started = [self.start(*words, **more) for words in campaigns]
        return [(*each.communicate(timeout=SECONDS), each.returncode) for each in started]

    def finished(self, name):
        return len(list((self.folder / name / "batches").glob("[0-9a-f]*.json")))

    def one_process(self, lines):
        """The counts of the answers of one process to all lines."""
        given = "".join(f"{line}\n" for line in lines).encode()
        out = harness.run(self.wmlab, ["stream", MODULE], input=given)[0]
        return Counter(map(kind_of, out.splitlines()))


def wait_for(condition):
    """Waits until it holds, for at most two minutes, and returns what it gave last."""
    end = time.monotonic() + 120
    while not (holds := condition()) and time.monotonic() < end:
        time.sleep(0.01)
    return holds


def children_of(pid):
    try:
        return Path(f"/proc/{pid}/task/{pid}/children").read_text(encoding="utf-8").split() + [
            child
            for task in Path(f"/proc/{pid}/task").iterdir()
            if task.name != str(pid)
            for child in (task / "children").read_text(encoding="utf-8").split()
        ]
    except OSError:
        return []


class DaskCluster:
    """A scheduler and workers, each a process of Dask's own command."""

    def __init__(self, folder):
        self.file, self.folder = folder / "scheduler.json", folder
        self.file.unlink(missing_ok=True)
        self.processes: list[subprocess.Popen[bytes]] = []
        self.workers: list[subprocess.Popen[bytes]] = []
        words = ["scheduler", "--host", "127.0.0.1", "--port", "0", "--no-dashboard", "--scheduler-file", self.file]
        self.scheduler = self.start(words)
        self.address = wait_for(self.find_address)

    def start(self, words):
        with open(self.folder / "dask.log", "ab") as file:
            process = subprocess.Popen(["dask", *words], stdout=file, stderr=file, cwd=self.folder)
        self.processes.append(process)
        return process

    def find_address(self):
        try:
            return json.loads(self.file.read_text(encoding="utf-8"))["address"]
        except (OSError, ValueError):
            return None

    def add_workers(self, count):
        words = ["worker", self.address, "--no-nanny", "--nthreads", "1", "--no-dashboard", "--local-directory"]
        return [self.start([*words, self.folder / "workers"]) for _ in range(count)]

    def close(self):
        for process in reversed(self.processes):
            with contextlib.suppress(OSError):
                process.kill()
            process.wait()


@contextlib.contextmanager
def dask_cluster(folder, workers):
    cluster = DaskCluster(folder)
    try:
        cluster.workers += cluster.add_workers(workers)
        yield cluster
    finally:
        cluster.close()


# ---- what a table has to show


def counts_in(text):
    """The row of the first module, and the kinds below it, out of a printed table."""
    rows = text.splitlines()
    numbers = [int(cell.replace(",", "")) for cell in rows[1].split()[1:]]
    kinds: Counter[str] = Counter()
    for row in rows[2:]:
        if not row.startswith(" "):
            break
        count, kind = row.split(maxsplit=1)
        kinds[kind] = int(count.replace(",", ""))
    return numbers, kinds


def is_table_of(text, counts):
    numbers, kinds = counts_in(text)
    by_verdict: Counter[str] = Counter()
    for kind, count in counts.items():
        by_verdict[kind.split(" ")[0]] += count
    expected = [sum(counts.values()), *(by_verdict[verdict] for verdict in ("allowed", "broken", "refused"))]
    return numbers == expected and kinds == Counter({kind: n for kind, n in counts.items() if kind != "allowed"})


def is_quiet(err):
    return "Traceback" not in err


# ---- a worker and a scheduler that are lost


def lost_worker_and_scheduler(tally, room):
    """Half-way a worker is killed, and then the scheduler is stopped; the resumed campaign has the table of one
    process."""
    lines = list(varied_lines(600))
    write_lines(room.folder / "lost.jsonl", lines)
    slow = room.stand_in("slow", 'sleep 0.1; exec "$wmlab" "$@"')
    words = ["lost", "--batch", "10", "logs", MODULE, str(room.folder / "lost.jsonl")]
    with dask_cluster(room.folder, 3) as cluster:
        running = room.start(*words[:1], "--scheduler", cluster.address, *words[1:], wmlab=slow)
        wait_for(lambda: room.finished("lost") >= 8)
        lost = wait_for(lambda: next((each for each in cluster.workers if children_of(each.pid)), None))
        lost.send_signal(signal.SIGKILL)
        wait_for(lambda: room.finished("lost") >= 20)
        is_running = running.poll() is None
        cluster.scheduler.terminate()
        out, err = running.communicate(timeout=SECONDS)
    finished = room.finished("lost")
    is_lost = lost.wait() == -signal.SIGKILL
    tally.check(is_lost and is_running, "a campaign goes on without a worker that was killed", err)
    tally.check(
        running.returncode == 3 and "scheduler was closed" in err and "--resume" in err and is_quiet(err),
        "a campaign whose scheduler is stopped fails in one line",
        (running.returncode, err),
    )
    tally.check(finished >= 20, "some batches are finished then", finished)
    shown = counts_in(out)[0]
    tally.check(0 < shown[0] < 600 and shown[0] % 10 == 0, "the table so far has whole batches", out)
    out, err, status = room.run(*words[:1], "--resume", "--workers", "3", *words[1:], wmlab=slow)
    tally.check(status == 1 and is_quiet(err), "the resumed campaign has the status of its logs", (status, err))
    tally.check(is_table_of(out, room.one_process(lines)), "the table is the one of one process", out)
    tally.check("batches finished: 60 of 60, " in out and "by an earlier run" in out, "each batch is counted once", out)
    contents = {tuple(lines[first : first + 10]) for first in range(0, len(lines), 10)}
    tally.check(
        room.finished("lost") == len(contents) < 60, "batches of the same content have one file", room.finished("lost")
    )
    table = (room.folder / "lost/table.txt").read_text(encoding="utf-8")
    tally.check(table == out, "the table is written beside the results", table)


def on_terminal(start):
    """Starts a process whose standard error is a terminal. Returns it, and a function that gives what was written
    there."""
    ours, theirs = pty.openpty()
    started, parts = start(stderr=theirs), []
    os.close(theirs)

    def read():
        with contextlib.suppress(OSError):  # the terminal was closed
            while part := os.read(ours, 65_536):
                parts.append(part)

    reader = threading.Thread(target=read)
    reader.start()

    def written():
        reader.join()
        os.close(ours)
        return b"".join(parts).decode(errors="replace").replace("\r\n", "\n")

    return started, written


def interrupted(tally, room):
    """Ctrl-C in a terminal reaches the campaign and its workers. A terminal shows Dask's bar."""
    write_lines(room.folder / "stopped.jsonl", varied_lines(600))
    slow = room.stand_in("slow-too", 'sleep 0.2; exec "$wmlab" "$@"')
    words = ["--batch", "10", "logs", MODULE, str(room.folder / "stopped.jsonl")]
    running, written = on_terminal(
        lambda **streams: room.start("stopped", "--workers", "2", *words, wmlab=slow, **streams)
    )
    wait_for(lambda: room.finished("stopped") >= 4)
    os.killpg(running.pid, signal.SIGINT)
    out, err = running.communicate(timeout=SECONDS)[0], written()
    tally.check("% Completed" in err and "dashboard: http" in err, "a terminal shows Dask's bar", err)
    tally.check(
        running.returncode == 130 and "stopped; --resume goes on" in err and is_quiet(err),
        "Ctrl-C ends a campaign in one line",
        (running.returncode, err),
    )
    finished = room.finished("stopped")
    tally.check(finished >= 4 and 0 < counts_in(out)[0][0] < 600, "the table so far is printed", out)
    is_gone = wait_for(lambda: not any(is_of_session(process, running.pid) for process in Path("/proc").iterdir()))
    tally.check(is_gone, "no process of the campaign is left")


def terminated(tally, room):
    """A batch system's signal reaches the campaign alone, which ends its workers and what these run."""
    mark = f"campaign-{os.getpid()}"
    words = ["--workers", "2", "--batch", "500", "record", "--mode", "free", "--rounds", "5000", MODULE, "a", "b"]
    running = room.start("terminated", *words, env={**os.environ, "WMLAB_TEST": mark})
    is_recording = wait_for(lambda: any(b"record.mjs" in words_of(process) for process in marked(mark)))
    running.terminate()
    out, err = running.communicate(timeout=SECONDS)
    is_right = running.returncode == 130 and "stopped; --resume goes on" in err and is_quiet(err)
    tally.check(is_recording and is_right and "batches finished: " in out, "SIGTERM ends a campaign", (out, err))
    tally.check(wait_for(lambda: not marked(mark)), "no recorder of it is left", [*map(words_of, marked(mark))])


def words_of(process):
    """The command line of a process, by its folder in /proc."""
    try:
        return (process / "cmdline").read_bytes()
    except OSError:
        return b""


def marked(mark):
    """The folders in /proc of the processes that have a value in their environment, and have not ended."""

    def has(process):
        try:
            return f"WMLAB_TEST={mark}".encode() in (process / "environ").read_bytes().split(b"\0")
        except OSError:
            return False

    return [process for process in Path("/proc").glob("[0-9]*") if has(process)]


def is_of_session(process, session):
    """Whether a folder of /proc is of a process of a session that has not ended."""
    try:
        state, *fields = (process / "stat").read_text(encoding="utf-8").rpartition(")")[2].split()
        return state != "Z" and int(fields[2]) == session
    except (OSError, ValueError, IndexError):
        return False


# ---- answers and kept logs


def kinds(tally):
    """What answers are counted as."""
    for answer, kind in (
        ("allowed threads=2 events=4", "allowed"),
        ("broken V5 case 3 at 0.1 byte 0 writer init other 1.0", "broken V5 case 3"),
        ("broken replay thread 12 event 345", "broken replay event"),
        ("broken replay thread 0 end", "broken replay end"),
        ("broken replay thread 0 start NoExport", "broken replay start NoExport"),
        ("refused decode Unsupported Floats at 29", "refused decode Unsupported Floats"),
        ("refused valid Alignment in function 0 instruction 2", "refused valid Alignment"),
        ("refused document BadShape at /2/0/1", "refused document BadShape"),
        ("refused shape OrderNotPermutation", "refused shape OrderNotPermutation"),
        ('thread 0 ended with ["done",[1]], and its run with ["done",[0]]', "broken engine's end"),
        ("no witness threads=2 events=4", "broken no witness"),
        ("refused another witness is allowed; with its own: broken V2 case 1 at 0.1", "refused another witness"),
        ("refused no witness found, gave up nodes=100000; with its own: broken V2", "refused no witness found"),
        ("no witness found: gave up after 100000 nodes", "refused no witness found"),
    ):
        tally.check(kind_of(answer) == kind, f"the kind of {answer}", kind_of(answer))


def statuses(tally, room, cluster):
    given = {"allowed": [ALLOWED] * 3, "refused": [ALLOWED, REFUSED, ""], "broken": [REFUSED, BROKEN]}
    campaigns = []
    for name, lines in given.items():
        write_lines(room.folder / f"{name}.jsonl", lines)
        words = ["--scheduler", cluster.address, "logs", MODULE, str(room.folder / f"{name}.jsonl")]
        campaigns.append([f"of-{name}", *words])
    for (name, lines), (out, err, status) in zip(given.items(), room.run_all(campaigns)):
        expected = harness.STATUS[name]
        is_right = status == expected and is_table_of(out, room.one_process(lines)) and is_quiet(err)
        tally.check(is_right, f"logs that are {name} have the status {expected}", (status, out, err))
    kept = sorted(path.name for path in (room.folder / "of-broken/kept").iterdir())
    tally.check(len(kept) == 4, "logs that are not allowed are kept with their explanations", kept)
    texts = "".join(path.read_text(encoding="utf-8") for path in (room.folder / "of-broken/kept").glob("*.txt"))
    for part in ("broken.jsonl line 2\n", "plain write of 4 bytes at address 4, which writes 2", "OrderNotPermutation"):
        tally.check(part in texts, f"an explanation has {part!r}", texts)
    for path in (room.folder / "of-broken/kept").glob("*.json"):
        answer = path.with_suffix(".txt").read_text(encoding="utf-8").splitlines()[0]
        line = harness.run(room.wmlab, ["check", MODULE, str(path)])[0].rstrip("\n")
        tally.check(line == answer, "`check` answers a kept log as the stream did", (line, answer))


def another_witness(tally, room, cluster):
    """A log that a rule refuses, of values that the rules permit, does not count against an engine."""
    misordered = buffered(order=((0, 1), (0, 0), (1, 0), (1, 1)))
    write_lines(room.folder / "misordered.jsonl", [ALLOWED, misordered])
    words = ["--scheduler", cluster.address, "logs", MODULE, str(room.folder / "misordered.jsonl")]
    out, err, status = room.run("misordered", *words)
    is_right = status == 2 and is_table_of(out, {"allowed": 1, "refused another witness": 1})
    tally.check(is_right, "a log with another witness is no fault of an engine", (status, out, err))
    path = next((room.folder / "misordered/kept").glob("*.txt"))
    text = path.read_text(encoding="utf-8")
    line = harness.run(room.wmlab, ["check", MODULE, str(path.with_suffix(".json"))])[0].rstrip("\n")
    is_told = text.startswith(f"refused another witness is allowed; with its own: {line}\n")
    tally.check(is_told and line.startswith("broken V2"), "its own witness is told of", (text, line))


def one_kept_log(tally, room, cluster):
    write_lines(room.folder / "single.jsonl", [BROKEN])
    words = ["--scheduler", cluster.address, "logs", MODULE, str(room.folder / "single.jsonl")]
    out, err, status = room.run("single", *words)
    line = f"kept: 1 log with its explanation in {room.folder / 'single/kept'}\n"
    tally.check(status == 1 and line in out, "one log is kept", (status, out, err))


def a_log_on_several_lines(tally, room, cluster):
    words = ["--scheduler", cluster.address, "logs", MODULE]
    spread = ALLOWED.replace("],", "],\n")
    for name, lines, is_told in (("spread", [spread], True), ("mixed", [spread, ALLOWED], False)):
        write_lines(room.folder / f"{name}.jsonl", lines)
        out, err, status = room.run(name, *words, str(room.folder / f"{name}.jsonl"))
        line = f"no line for {MODULE} is a document: a log has to be on one line, as wmlab migrate prints it\n"
        tally.check(status == 2 and (line in out) == is_told, "a log on several lines", (status, out, err))


def forms_of_logs(tally, room, cluster):
    """Folders, compressed files, lines that are too long, and several parts."""
    folder = room.folder / "forms"
    (folder / "inner").mkdir(parents=True)
    write_lines(folder / "a.jsonl.gz", [ALLOWED] * 5, gzip.open)
    write_lines(folder / "inner/b.jsonl.xz", [ALLOWED] * 7, lzma.open)
    (folder / "c.json").write_text(ALLOWED, encoding="utf-8")
    (folder / "notes.txt").write_text("no log\n", encoding="utf-8")
    write_lines(room.folder / "long.jsonl", [" " * 9_000_000 + ALLOWED, ALLOWED])
    long = str(room.folder / "long.jsonl")
    plan = room.folder / "plan.txt"
    plan.write_text(f"# two parts\nlogs {MODULE} '{folder}'\n\nlogs {MODULE} {long} # too long\n", encoding="utf-8")
    out, err, status = room.run("forms-out", "--scheduler", cluster.address, "--batch", "4", "plan", str(plan))
    counts = {"allowed": 14, "refused document TooLarge": 1}
    tally.check(status == 2 and is_table_of(out, counts) and is_quiet(err), "each form of logs is read", (out, err))
    tally.check("batches finished: 6 of 6\n" in out, "a batch is cut by its size too", out)


def recordings(tally, room, cluster):
    words = ["--scheduler", cluster.address, "--batch", "8", "record", "--mode", "buffered", "--rounds", "20"]
    out, err, status = room.run("recorded", *words, MODULE, "a", "b")
    is_right = status == 0 and is_table_of(out, {"allowed": 20})
    tally.check(is_right, "rounds are recorded and allowed", (status, out, err))
    tally.check(room.finished("recorded") == 3, "rounds are cut into batches", out)
    wrong = ["--wrong", "plain-atomics", "--seconds", "1", ATOMIC, "a", "b"]
    out, err, status = room.run("wrong", *words, *wrong)
    numbers, kinds = counts_in(out)
    tally.check(
        status == 1 and numbers[0] == 20 and kinds["broken no witness"] == numbers[2] > 0,
        "rounds of a wrong engine are broken",
        (status, out, err),
    )
    text = next((room.folder / "wrong/kept").glob("*-shrunk.txt")).read_text(encoding="utf-8")
    tally.check("--seed=" in text and "turns " in text, "a smaller run is kept, and how to record it", text)
    out, err, status = room.run("negative", *words, "examples/spin-lock.wasm", "work:1", "work:-1")
    tally.check(status == 0 and is_table_of(out, {"allowed": 20}), "an argument may be negative", (status, out, err))
    out, err, status = room.run("unknown", *words, "--wrong", "nothing", MODULE, "a", "b")
    tally.check(
        status == 3 and "record.mjs" in err and "not counted: 3" in out,
        "a recorder that refuses its words fails each batch",
        (status, out, err),
    )


def without_pictures(tally, room):
    """Rounds are counted and their logs are kept, though Graphviz does not draw them."""
    (room.folder / "no-pictures").mkdir()
    dot = room.folder / "no-pictures/dot"
    dot.write_text("#!/bin/sh\nexit 1\n", encoding="utf-8")
    dot.chmod(0o755)
    environment = {**os.environ, "PATH": f"{dot.parent}:{os.environ['PATH']}"}
    words = ["--workers", "1", "record", "--mode", "buffered", "--rounds", "20", "--wrong", "plain-atomics", ATOMIC]
    out, err, status = room.run("undrawn", *words, "a", "b", env=environment)
    numbers, kinds = counts_in(out)
    is_right = status == 1 and numbers[0] == 20 and kinds["broken no witness"] == numbers[2] > 0
    tally.check(is_right, "rounds are counted though dot fails", (status, out, err))
    is_kept = any((room.folder / "undrawn/kept").glob("*-shrunk.txt"))
    tally.check(is_kept, "their logs are kept too", os.listdir(room.folder / "undrawn/kept"))


# ---- failures


# How a process fails that reads a line with this many spaces at its end, and what is reported.
FAILURES = (
    ("dies", "kill -9 $$", "was ended by SIGKILL"),
    ("fails", "echo 'cannot read -' >&2; exit 3", "ended with status 3 on "),
    ("answers one line less", '"$wmlab" "$@" <"$lines" | head -n 9; exit 0', "got 10 lines and answered 9"),
    ("does not end its last line", '"$wmlab" "$@" <"$lines" | head -c -1; exit 0', "got 10 lines and answered 9"),
    ("has another status", '"$wmlab" "$@" <"$lines"; exit 2', "and its answers have status 0"),
    ("answers something else", "yes hello | head -n 10; exit 0", "this is no answer: 'hello'"),
)


def failing_streams(tally, room, cluster):
    """A process that dies or gives fewer answers: its batch is never counted."""
    cases = "".join(f"{number}) {script} ;;\n" for number, (_, script, _) in enumerate(FAILURES, 1))
    program = room.stand_in(
        "fails",
        'lines=$(mktemp); trap \'rm -f "$lines"\' EXIT; cat >"$lines"\n'
        f'case $(grep -o " *$" "$lines" | tr -d "\\n" | wc -c) in\n{cases}esac\n"$wmlab" "$@" <"$lines"',
    )
    spaces = [ALLOWED + " " * (number // 10 if number % 10 == 5 else 0) for number in range(10 * (len(FAILURES) + 1))]
    write_lines(room.folder / "spaces.jsonl", spaces)
    words = ["--scheduler", cluster.address, "--batch", "10", "logs", MODULE, str(room.folder / "spaces.jsonl")]
    out, err, status = room.run("failing", *words, wmlab=program)
    tally.check(status == 3 and is_quiet(err), "batches that fail end a campaign with status 3", (status, out, err))
    for number, (name, _, reason) in enumerate(FAILURES, 2):
        told = next((line for line in err.splitlines() if f"batch {number} (" in line), "")
        tally.check(f"spaces.jsonl line {10 * number - 9})" in told and reason in told, f"a stream that {name}", err)
    is_left_out = counts_in(out)[0] == [10, 10, 0, 0] and f"not counted: {len(FAILURES)}; --resume" in out
    tally.check(is_left_out and f"batches finished: 1 of {len(FAILURES) + 1}\n" in out, "they are not counted", out)
    tally.check(room.finished("failing") == 1, "they have no file", room.finished("failing"))


NUMBER = "expected an integer from 1 to 999999999"


def mistakes(tally, room):
    """What is refused before a batch is sent."""
    (room.folder / "empty").mkdir()
    write_lines(room.folder / "one.jsonl", [ALLOWED])
    write_lines(room.folder / "plans.txt", ["# a comment", "plan plans.txt"])
    write_lines(room.folder / "quote.txt", [f"logs {MODULE} 'logs"])
    one = str(room.folder / "one.jsonl")
    impatient = {**os.environ, "DASK_DISTRIBUTED__COMM__TIMEOUTS__CONNECT": "3s"}
    for name, words, more, status, reason in (
        ("no words", [], {}, 2, "usage:"),
        ("no place", ["logs", MODULE], {}, 2, "PLACE"),
        ("an unknown command", ["judge", MODULE, one], {}, 2, "invalid choice"),
        ("no batch size", ["--batch", "0", "logs", MODULE, one], {}, 2, f"--batch: '0' was given; {NUMBER}\n"),
        ("no number", ["--keep", "", "logs", MODULE, one], {}, 2, f"--keep: '' was given; {NUMBER}\n"),
        ("too many rounds", ["record", "--rounds", "9" * 5_000, MODULE, "a"], {}, 2, f"9' was given; {NUMBER}\n"),
        ("two clusters", ["--workers", "1", "--scheduler", "x", "logs", MODULE, one], {}, 2, "not allowed with"),
        ("an unknown mode", ["record", "--mode", "fast", MODULE, "a"], {}, 2, "invalid choice"),
        ("an unknown test", ["litmus", "SC"], {}, 2, "litmus SC: no test of the suite has this name"),
        ("an empty plan", ["plan", "/dev/null"], {}, 2, "has no line"),
        ("a plan of a plan", ["plan", str(room.folder / "plans.txt")], {}, 2, "plans.txt line 2: error: argument"),
        ("a quote that is open", ["plan", str(room.folder / "quote.txt")], {}, 2, "quote.txt line 1: No closing"),
        ("a missing plan", ["plan", "/nothing"], {}, 3, "cannot read /nothing"),
        ("a missing module", ["logs", "/nothing.wasm", one], {}, 3, "cannot read /nothing.wasm"),
        ("a missing place", ["logs", MODULE, one, "/nothing.jsonl"], {}, 3, "cannot read /nothing.jsonl"),
        ("no such export", ["record", MODULE, "a", "zz"], {}, 2, "refused start NoExport thread 1"),
        ("an unsupported module", ["record", FLOATS, "a"], {}, 2, "refused decode Unsupported Floats"),
        ("a missing program", ["logs", MODULE, one], {"wmlab": "/nothing"}, 3, "/nothing is not a program"),
        ("another program", ["logs", MODULE, one], {"wmlab": "/bin/true"}, 3, "has no command stream"),
        ("nothing to resume", ["--resume", "logs", MODULE, one], {}, 2, "has no campaign to resume"),
        ("no scheduler", ["--scheduler", "tcp://127.0.0.1:9", "logs", MODULE, one], {}, 3, "cannot connect to tcp"),
        ("no address", ["--scheduler", "nowhere", "logs", MODULE, one], {}, 3, "cannot connect to nowhere"),
    ):
        out, err, got = room.run(f"mistake-{name.replace(' ', '-')}", *words, **more, env=impatient)
        is_right = got == status and reason in err and out == "" and is_quiet(err)
        tally.check(is_right, f"{name}: refused with status {status}", (got, out, err))
        tally.check(not (room.folder / f"mistake-{name.replace(' ', '-')}").exists(), f"{name}: nothing is written")


def without_dask(tally, room):
    (room.folder / "no-dask").mkdir()
    (room.folder / "no-dask/distributed.py").write_text(
        "raise ModuleNotFoundError(\"No module named 'distributed'\", name='distributed')\n", encoding="utf-8"
    )
    environment = {**os.environ, "PYTHONPATH": str(room.folder / "no-dask")}
    out, err, status = room.run("without", "logs", MODULE, str(room.folder / "one.jsonl"), env=environment)
    is_right = status == 3 and err.count("\n") == 1 and "python3-distributed" in err and out == ""
    tally.check(is_right, "without Dask, one line names its package", (status, out, err))


def no_logs(tally, room, cluster):
    """Places without logs, and files that cannot be read."""
    (room.folder / "half.txt").write_text(
        f"logs {ATOMIC} {room.folder / 'empty'}\nlogs {MODULE} {room.folder / 'one.jsonl'}\n", encoding="utf-8"
    )
    whole = gzip.compress(f"{ALLOWED}\n".encode() * 500)
    (room.folder / "torn.jsonl.gz").write_bytes(whole[:-20])
    words = ["--scheduler", cluster.address]
    none, half, torn = room.run_all(
        [
            ["none", *words, "logs", MODULE, str(room.folder / "empty")],
            ["half", *words, "plan", str(room.folder / "half.txt")],
            ["torn", *words, "logs", MODULE, str(room.folder / "torn.jsonl.gz")],
        ]
    )
    tally.check(none[2] == 2 and "no logs" in none[1], "a campaign without logs does not succeed", none)
    tally.check(half[2] == 2 and "no logs" in half[1], "a part without logs is reported", half)
    is_right = torn[2] == 3 and "cannot read " in torn[1] and "and there are more" in torn[0] and is_quiet(torn[1])
    tally.check(is_right, "a compressed file that is cut ends the campaign", torn)


def other_folders(tally, room, cluster):
    """Results are not mixed with those of another campaign."""
    words = ["--scheduler", cluster.address, "logs", MODULE, str(room.folder / "one.jsonl")]
    first = room.run("mine", *words)
    tally.check(first[2] == 0, "a campaign of one log", first)
    two = [*words, str(room.folder / "allowed.jsonl")]
    logs = 'one.jsonl"], and has ["'
    for name, more, changed, reason in (
        ("again", [], words, "has this campaign already; --resume goes on with it"),
        ("logs", ["--resume"], two, "has another campaign: part 1 had logs ["),
        ("places", ["--resume"], two, logs),
        ("logs, not resumed", [], two, "has another campaign: part 1 had logs ["),
        ("batch", ["--resume", "--batch", "7"], words, "another campaign: its --batch was 1000, and is 7 now; name a"),
    ):
        out, err, status = room.run("mine", *more, *changed)
        tally.check(status == 2 and reason in err and out == "", f"a campaign of other {name}", (status, out, err))
    plan = room.folder / "longer.txt"
    plan.write_text(f"{' '.join(words[2:])}\nrecord --rounds 5 {MODULE} a b\n", encoding="utf-8")
    out, err, status = room.run("mine", "--resume", *words[:2], "plan", str(plan))
    is_right = status == 2 and "another campaign: its parts were 1, and are 2 now: the next one is {" in err
    tally.check(is_right, "a plan with a further part", (status, err))
    same = room.run("mine", "--resume", *words, wmlab=room.stand_in("newer", 'exec "$wmlab" "$@"'))
    is_right = same[2] == 2 and "has another campaign: it was judged by another program" in same[1]
    tally.check(is_right, "a campaign of another program", same)
    (room.folder / "full").mkdir()
    (room.folder / "full/letter.txt").write_text("dear\n", encoding="utf-8")
    out, err, status = room.run("full", *words)
    is_right = status == 2 and "is not empty" in err and os.listdir(room.folder / "full") == ["letter.txt"]
    tally.check(is_right, "a folder of something else is left as it is", (status, err))
    out, err, status = room.run("full/letter.txt", *words)
    tally.check(status == 3 and "cannot write to the folder" in err, "a file in place of the folder", (status, err))
    batch = next((room.folder / "mine/batches").iterdir())
    batch.write_text('{"counts": {"allowed": 5}}', encoding="utf-8")
    out, err, status = room.run("mine", "--resume", *words)
    tally.check(status == 0 and counts_in(out)[0][0] == 1, "a result that does not fit its batch is made again", out)


def litmus_tests(tally, room, cluster):
    """Litmus tests on two workers: their histograms are added up, and what a wrong engine gives is kept."""
    (room.folder / "tests.txt").write_text(
        "litmus --iterations 1010000 SB\nlitmus --wrong plain-atomics --iterations 400000 SB+sc\n", encoding="utf-8"
    )
    words = ["--scheduler", cluster.address, "plan", str(room.folder / "tests.txt")]
    out, err, status = room.run("tests", *words)
    tally.check(status == 1 and "broken not permitted" in out, "a wrong engine in a campaign", (status, out, err))
    files = sorted((room.folder / "tests/litmus").glob("*.jsonl"))
    rows = [json.loads(line) for path in files for line in path.read_text(encoding="utf-8").splitlines()]
    nothing: dict[str, Any] = {"iterations": 0, "states": []}
    whole = next((row for row in rows if row["name"] == "SB"), nothing)
    tally.check(whole["iterations"] == 1_011_712, "the histograms of two batches are added up", rows)
    count = sum(state["count"] for state in whole["states"])
    tally.check(count == whole["iterations"], "each iteration is counted once", whole)
    pages = list((room.folder / "tests/litmus").glob("*.html"))
    texts = [page.read_text(encoding="utf-8") for page in pages]
    tally.check(len(pages) == 2 and all("litmus tests" in text for text in texts), "a page per engine", pages)
    kept = list((room.folder / "tests/kept").glob("*.txt"))
    tally.check(kept and "What is to blame" in kept[0].read_text(encoding="utf-8"), "the page of a find is kept", kept)
    again = room.run("tests", "--resume", *words)
    tally.check(again[2] == 1 and "3 of them by an earlier run" in again[0], "a campaign of tests is resumed", again)


def main():
    options = harness.arguments(__doc__).parse_args()
    missing = [tool for tool in ("dask", "node") if not shutil.which(tool)]
    if missing:
        sys.exit(f"this needs {' and '.join(missing)}")
    tally = harness.Tally()
    with tempfile.TemporaryDirectory() as folder:
        room = Room(folder, harness.program_of(options))
        kinds(tally)
        lost_worker_and_scheduler(tally, room)
        interrupted(tally, room)
        terminated(tally, room)
        mistakes(tally, room)
        without_dask(tally, room)
        without_pictures(tally, room)
        with dask_cluster(room.folder, 2) as cluster:
            for test in (statuses, another_witness, one_kept_log, a_log_on_several_lines, forms_of_logs):
                test(tally, room, cluster)
            for test in (recordings, litmus_tests, failing_streams, no_logs, other_folders):
                test(tally, room, cluster)
    tally.end()


if __name__ == "__main__":
    main()
