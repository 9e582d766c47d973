#!/usr/bin/env python3
"""Hostile input through the built program, each with its exact line and status: modules and logs cut at each length,
each limit at its value and one past it, values and addresses changed, inputs that never end or come byte by byte, and
devices, streams and files that fail. The answers are written here from README.md and docs/, and not from the program.

    scripts/hostile.py [--wmlab PATH]

The last line is `N passed, N failed`.
"""
import glob
import json
import os
import subprocess
import tempfile
import time

from wmlabtools import TOP, harness, wasm
from wmlabtools.harness import STATUS
from wmlabtools.log import compact, document, one_thread
from wmlabtools.wasm import body, export, section

OPTIONS = harness.arguments(__doc__).parse_args()
WMLAB = harness.program_of(OPTIONS)
WORK = tempfile.TemporaryDirectory()
TALLY = harness.Tally()
check = TALLY.check


def run(words, data=b"", **streams):
    if "stdin" not in streams:
        streams["input"] = data
    return harness.run(WMLAB, words, **streams)


def wanted(text, error="", status=None):
    """What has to come: a line, nothing on standard error, and the status that goes with the line's first word."""
    if status is None:
        status = STATUS.get(text.split(" ")[0], 0)
    return (text + "\n" if text else ""), (error + "\n" if error else ""), status


def told(words, got):
    """What is compared of what came: of the sentences after the line of a check only that there are some."""
    text, error, status = got
    line, _, sentences = text.partition("\n")
    if words[0] == "explain" and status < 3 and sentences.endswith("\n"):
        text = line + "\n"
    return text, error, status


def answers(shows, words, line, data=b"", error="", status=None, **streams):
    got = run(words, data, **streams)
    check(told(words, got) == wanted(line, error, status), shows, got)


def all_answer(cases):
    """Many short runs side by side: what each shows, its words, its input and its line."""
    for (shows, words, _, line), got in zip(cases, harness.at_once(lambda case: run(case[1], case[2]), cases)):
        check(told(words, got) == wanted(line), shows, got)


def file_of(data, name):
    path = f"{WORK.name}/{name}"
    with open(path, "wb") as file:
        file.write(data)
    return path


def example(name):
    with open(f"{TOP}/examples/{name}", "rb") as file:
        return file.read()


# ---- modules and documents


def module_of(bodies, pages=1, parameters=0):
    """Functions without a result, each of some locals and code, all of one type, over a shared memory."""
    code = [body(text, count) for count, text in bodies]
    return wasm.module_of(
        code, types=[wasm.parameters(parameters)], memory=wasm.shared_memory(pages), exports=[export(b"a", 0)]
    )


def stores(count):
    return [["w", "un", 0, 4, 1]] * count


STORE_BUFFERING = json.loads(example("store-buffering.json"))
MODULE = "examples/store-buffering.wasm"
LOG = "examples/store-buffering.json"
ALLOWED = "allowed threads=2 events=4"
# Each command that reads a document, with that on standard input.
OVER_DOCUMENTS = [
    *([command, "-"] for command in ("rules", "explain", "graph", "races")),
    ["migrate", "-"],
    *([command, MODULE, "-"] for command in ("check", "complete", "explain", "graph", "races")),
]


# ---- what is cut


def cut_documents():
    """A list that isn't closed is no JSON text, in each version and under each command."""
    cases = []
    for name in ("store-buffering.json", "store-buffering-one-after-the-other.json"):
        text = example(name).rstrip()
        for length in range(len(text)):
            for words in OVER_DOCUMENTS:
                cases.append((f"{name} cut to {length}, {words[0]}", words, text[:length], "refused document NotJson"))
        cases.append((f"{name} without the end of its line", ["check", MODULE, "-"], text, ALLOWED))
    all_answer(cases)


def line_of_cut(sections, end, length):
    """The line of `check` on a module of a type section, functions, code and more that is cut. Bytes that are missing
    are missed where the first one would stand; a section that is absent is missed at the end, where counts have to
    agree. What is left after a whole section may be a module: without a memory it has no place for the log's first
    event."""
    starts = [8] + [start for start, _ in sections] + [end]
    if length not in starts:
        return f"refused decode Truncated at {length}"
    there = {which for start, which in sections if start < length}
    if 3 in there and 10 not in there or 12 in there and 11 not in there:
        return f"refused decode CountMismatch at {length}"
    return None if 10 in there else "refused shape RangeOutOfMemory at 0.0"


def cut_modules():
    cases = []
    for path in sorted(glob.glob(f"{TOP}/examples/*.wasm") + glob.glob(f"{TOP}/examples/c/*.wasm")):
        name = os.path.relpath(path, f"{TOP}/examples")
        if name in ("floats.wasm", "misaligned.wasm", "too-many-locals.wasm"):
            continue
        module = example(name)
        sections, end = wasm.sections_of(module)
        for length in range(len(module)):
            line = line_of_cut(sections, end, length)
            if line:
                path = file_of(module[:length], f"{length}-{name.replace('/', '-')}")
                for command in ("check", "explain"):
                    cases.append((f"{name} cut to {length}, {command}", [command, path, LOG], b"", line))
    all_answer(cases)


# ---- limits


STORING = file_of(module_of([(0, b"\x03\x40" + b"\x41\0\x41\1\x36\x02\0" + b"\x0c\0\x0b")]), "storing.wasm")
LOOPING = file_of(module_of([(0, b"\x03\x40\x0c\0\x0b")]), "looping.wasm")
# What is checked of a run, by its line and by the text that explains it.
CHECKS = ("check", "explain")


def event_limits(version):
    """16,384 events and one more."""
    says = f"version {version}"
    most, more = (one_thread(stores(count), version=version) for count in (16_384, 16_385))
    answers(f"16,384 events, {says}", ["rules", "-"], "allowed", most)
    over_module = ([command, STORING, "-"] for command in ("check", "complete", "explain", "graph"))
    for words in (["rules", "-"], *over_module):
        answers(f"16,385 events, {words[0]}, {says}", words, "refused shape TooManyEvents", more)
    # The loop, two constants and the store for the first event; then the branch before each of the four again. The
    # thread is cut after the branch, the loop and the two constants.
    steps = 4 + 5 * 16_383 + 4
    completed = one_thread(stores(16_384), steps=steps)
    answers(f"16,384 events, complete, {says}", ["complete", STORING, "-"], completed.decode(), most)
    whole = one_thread(stores(16_384), steps=steps, version=version)
    for command in CHECKS:
        shows = f"16,384 events, {command}, {says}"
        answers(shows, [command, STORING, "-"], "allowed threads=1 events=16384", whole)


def thread_and_step_limits(version):
    """16 threads, 1,000,000 steps, and one more."""
    says, cut = f"version {version}", ["a", [], ["cut"], 0, []]
    threads = {count: document([cut] * count, [], version) for count in (16, 17)}
    steps = {count: one_thread([], steps=count, version=version) for count in (1_000_000, 1_000_001)}
    for command in CHECKS:
        shows = f"16 threads, {command}, {says}"
        answers(shows, [command, MODULE, "-"], "allowed threads=16 events=0", threads[16])
        shows = f"1,000,000 steps, {command}, {says}"
        answers(shows, [command, LOOPING, "-"], "allowed threads=1 events=0", steps[1_000_000])
    for words in OVER_DOCUMENTS:
        answers(f"17 threads, {words[0]}, {says}", words, "refused document TooLarge", threads[17])
        shows = f"1,000,001 steps, {words[0]}, {says}"
        answers(shows, words, "refused document NumberRange at /2/0/3", steps[1_000_001])
    completed, given = one_thread([], steps=1_000_000).decode(), one_thread([], version=version)
    answers(f"a loop is completed to the limit, {says}", ["complete", LOOPING, "-"], completed, given)


def byte_limits(version):
    """8,388,608 bytes and one more, from standard input and from a file."""
    text = document(STORE_BUFFERING[2], STORE_BUFFERING[3], version)
    printed = document(STORE_BUFFERING[2], STORE_BUFFERING[3]).decode()
    lines = (
        (["rules"], "allowed"),
        (["check", MODULE], ALLOWED),
        (["explain", MODULE], ALLOWED),
        (["migrate"], printed),
        (["complete", MODULE], printed),
    )
    for size in (8_388_608, 8_388_609):
        path = file_of(text.ljust(size), "document.json")
        for words, within in lines:
            line = within if size == 8_388_608 else "refused document TooLarge"
            shows = f"{size} bytes, {words[0]}, version {version}"
            answers(shows, [*words, "-"], line, text.ljust(size))
            answers(f"a file of {shows}", [*words, path], line)


def document_limits():
    """Events, threads, steps and bytes, in both versions."""
    for version in (1, 2):
        event_limits(version)
        thread_and_step_limits(version)
        byte_limits(version)


LAST_BYTE = 16 * 65_536 - 1
# Events with a number at its limit or past it, and the line of `rules`.
NUMBERS = (
    ("an address past 2^32", ["w", "un", 2**32, 1, 0], "refused document NumberRange at /2/0/4/0/2"),
    ("a value past 2^64", ["w", "un", 0, 8, 2**64], "refused document NumberRange at /2/0/4/0/4"),
    ("a width of 3", ["w", "un", 0, 3, 0], "refused document NumberRange at /2/0/4/0/3"),
    ("the largest value", ["w", "un", 0, 8, 2**64 - 1], "allowed"),
    ("the largest address", ["w", "un", 2**32 - 1, 1, 0], "refused shape RangeOutOfMemory at 0.0"),
    ("the last byte", ["w", "un", LAST_BYTE, 1, 0], "allowed"),
    ("past the last byte", ["w", "un", LAST_BYTE + 1, 1, 0], "refused shape RangeOutOfMemory at 0.0"),
    ("a value that is too wide", ["w", "un", 0, 4, 2**32], "refused shape ValueTooWide at 0.0"),
)


def numbers_at_their_limits():
    """Addresses, names of events, values and arguments at the largest number and one past it."""
    for version in (1, 2):
        for shows, event, line in NUMBERS:
            answers(f"{shows}, version {version}", ["rules", "-"], line, one_thread([event], version=version))
        for argument, line in ((2**64 - 1, "allowed"), (2**64, "refused document NumberRange at /2/0/1/0")):
            log = one_thread([], arguments=[argument], version=version)
            answers(f"the argument {argument}, version {version}", ["rules", "-"], line, log)
    order = document([["a", [], ["cut"], 0, stores(1)]], [[0, 2**32]])
    answers("an event's number past 2^32", ["rules", "-"], "refused document NumberRange at /3/0/1", order)


def module_limits():
    """Bytes, pages, functions, locals with parameters, and nesting."""
    cut = one_thread([], arguments=[])
    allowed = "allowed threads=1 events=0"
    plain = module_of([(0, b"")])
    for size in (1_048_576, 1_048_577):
        # A custom section with an empty name after the code, whose size takes three bytes.
        padding = section(0, b"\0" * (size - len(plain) - 4))
        assert len(plain + padding) == size
        line = allowed if size == 1_048_576 else "refused decode Limit ModuleBytes at 1048576"
        for command in ("check", "explain"):
            answers(
                f"a module of {size} bytes, {command}", [command, file_of(plain + padding, "long.wasm"), "-"], line, cut
            )

    def judged(shows, module, line, log=cut):
        for command in ("check", "explain"):
            answers(f"{shows}, {command}", [command, file_of(module, "limit.wasm"), "-"], line, log)

    judged("16 pages", module_of([(0, b"")], pages=16), allowed)
    pages = module_of([(0, b"")], pages=17)
    # The memory's section: its number, its size, a count, the flag, and then the pages.
    place = wasm.start_of(pages, 5) + 4
    judged("17 pages", pages, f"refused decode Limit Pages at {place}")
    judged("1,000 functions", module_of([(0, b"")] * 1_000), allowed)
    functions = module_of([(0, b"")] * 1_001)
    place = wasm.start_of(functions, 3) + 3
    judged("1,001 functions", functions, f"refused decode Limit Functions at {place}")
    judged("1,000 locals", module_of([(1_000, b"")]), allowed)
    locals_ = module_of([(1_001, b"")])
    # The code's section: its number, its size, a count, the body's size and its count of entries; then the entry.
    place = wasm.start_of(locals_, 10) + 5
    judged("1,001 locals", locals_, f"refused decode Limit Locals at {place}")
    both = module_of([(400, b"")], parameters=600)
    arguments = one_thread([], arguments=[0] * 600)
    judged("600 parameters and 400 locals", both, allowed, arguments)
    both = module_of([(401, b"")], parameters=600)
    place = wasm.start_of(both, 10) + 5
    judged("600 parameters and 401 locals", both, f"refused decode Limit Locals at {place}", arguments)
    judged("64 blocks in one another", module_of([(0, b"\x02\x40" * 64 + b"\x0b" * 64)]), allowed)
    nested = module_of([(0, b"\x02\x40" * 65 + b"\x0b" * 65)])
    # The code's section: its number, its two bytes of size, a count, the body's two bytes of size, a count of no
    # locals.
    place = wasm.start_of(nested, 10) + 7 + 2 * 64
    judged("65 blocks in one another", nested, f"refused decode Limit Nesting at {place}")


def script_limits():
    """Threads, turns and rounds."""
    many = "wmlab: there are 17 STARTs. Expected: 1 to 16, one for each thread"
    answers("17 starts", ["drive", MODULE, "0", *["a"] * 17], "refused plan Threads", error=many)
    answers("17 starts of a round", ["run", MODULE, "1", *["a"] * 17], "refused plan Threads", error=many)
    alone = one_thread(STORE_BUFFERING[2][0][4], steps=6, end=["done", [0]]).decode()
    answers(
        "1,000,000 turns",
        ["drive", MODULE, "0*1000000", "a"],
        f"outcome 0\nallowed threads=1 events=2\n{alone}",
        status=0,
    )
    sixteen = ",".join(f"{thread}*6" for thread in range(16))
    text, error, status = run(["drive", MODULE, sixteen, *["a"] * 16])
    lines = text.split("\n")
    check(
        (lines[:2], status, error) == (["outcome" + " 0" * 16, "allowed threads=16 events=32"], 0, ""),
        "16 starts",
        (text[:200], error, status),
    )
    answers("1,000,001 turns", ["drive", MODULE, "0*1000001", "a"], "refused plan Turns")
    absent = "wmlab: TURNS names thread 16. Expected: a thread below 16, the number of STARTs"
    there = ["drive", MODULE, "16", *["a"] * 16]
    answers("a turn of a thread that isn't there", there, "refused plan Turn 16", error=absent)
    for rounds in ("0", "10001"):
        reason = f"wmlab: ROUNDS is '{rounds}'. Expected: an integer from 1 to 10000"
        answers(f"{rounds} rounds", ["run", MODULE, rounds, "a", "b"], "refused command rounds", error=reason)


# ---- what is changed


def changed_logs():
    """Each value and each address of the first log changed, under `check` and under `rules`. Each thread stores 1 and
    then loads 0 from the initial memory, which is its result."""
    for thread in (0, 1):
        for event, changes in ((0, ((4, 2), (2, 8))), (1, ((4, 1), (2, 8)))):
            for place, value in changes:
                log = json.loads(json.dumps(STORE_BUFFERING))
                log[2][thread][4][event][place] = value
                text = json.dumps(log).encode()
                is_read_value = (event, place) == (1, 4)
                replay = f"broken replay thread {thread} " + ("end" if is_read_value else f"event {event}")
                rules = f"broken V1 case 3 at {thread}.1 byte 0 writer init" if is_read_value else "allowed"
                shows = f"thread {thread} event {event}, item {place} is {value}"
                answers(f"{shows}, check", ["check", MODULE, "-"], replay, text)
                answers(f"{shows}, explain", ["explain", MODULE, "-"], replay, text)
                answers(
                    f"{shows}, complete",
                    ["complete", MODULE, "-"],
                    replay if not is_read_value else compact(with_result(log, thread, 1)),
                    text,
                )
                answers(f"{shows}, rules", ["rules", "-"], rules, text)


def with_result(log, thread, result):
    log = json.loads(json.dumps(log))
    log[2][thread][2] = ["done", [result]]
    return log


# ---- inputs, devices and streams


def endless_inputs():
    """What never ends is read to its limit."""
    with open("/dev/zero", "rb") as zero:
        answers("zeros without end", ["rules", "-"], "refused document TooLarge", stdin=zero)
    for words in OVER_DOCUMENTS:
        endless = subprocess.Popen(["yes"], stdout=subprocess.PIPE)
        assert endless.stdout is not None
        answers(f"lines without end, {words[0]}", words, "refused document TooLarge", stdin=endless.stdout)
        endless.stdout.close()
        endless.kill()
        endless.wait()
    answers("a document that is a device", ["rules", "/dev/zero"], "refused document TooLarge")
    over_zeros = [[command, "/dev/zero", LOG] for command in ("check", "complete", "explain", "graph")]
    for words in (*over_zeros, ["drive", "/dev/zero", "0", "a"], ["run", "/dev/zero", "1", "a"]):
        answers(f"a module that is a device, {words[0]}", words, "refused decode Limit ModuleBytes at 1048576")
    answers("an empty module", ["check", "/dev/null", LOG], "refused decode Truncated at 0")
    answers("an empty document", ["rules", "/dev/null"], "refused document NotJson")


def one_byte_a_read():
    for words, line in ((["rules", "-"], "allowed"), (["check", MODULE, "-"], ALLOWED)):
        slow = subprocess.Popen(
            [WMLAB, *words], cwd=TOP, stdin=subprocess.PIPE, stdout=subprocess.PIPE, stderr=subprocess.PIPE, bufsize=0
        )
        assert slow.stdin is not None and slow.stdout is not None and slow.stderr is not None
        for byte in example("store-buffering.json"):
            slow.stdin.write(bytes([byte]))
            time.sleep(0.001)
        slow.stdin.close()
        got = slow.stdout.read().decode(), slow.stderr.read().decode(), slow.wait(timeout=60)
        check(got == wanted(line), f"one byte a read, {words[0]}", got)


COMMANDS = [
    ["rules", LOG],
    ["check", MODULE, LOG],
    ["migrate", LOG],
    ["complete", MODULE, LOG],
    ["explain", MODULE, LOG],
    ["graph", MODULE, LOG],
    ["drive", MODULE, "0*6,1*6", "a", "b"],
    ["run", MODULE, "3", "a", "b"],
    ["rules", "examples/too-few-writers.json"],
    ["nothing"],
]


def full_devices():
    """A full device, and an output that nobody reads."""
    for words in COMMANDS:
        shows = " ".join(words)
        with open("/dev/full", "wb") as full:
            answers(f"a full device, {shows}", words, "", error="cannot write", status=3, stdout=full)
        unread, end = os.pipe()
        os.close(unread)
        answers(f"an output that nobody reads, {shows}", words, "", error="cannot write", status=3, stdout=end)
        os.close(end)
        # Nothing can be said where standard error fails too: the status still says it.
        with open("/dev/full", "wb") as full:
            got = run(words, stdout=full, stderr=full)
            check(got == ("", "", 3), f"both devices are full, {shows}", got)


# Commands, with NAME in place of a file.
OVER_FILES = (
    ["rules", "NAME"],
    ["migrate", "NAME"],
    *([command, "NAME", LOG] for command in ("check", "complete", "explain", "graph")),
    *([command, MODULE, "NAME"] for command in ("check", "complete", "explain", "graph")),
    ["drive", "NAME", "0", "a"],
    ["run", "NAME", "1", "a"],
)
NO_FILES = {
    "examples/nothing": "a missing file",
    "examples": "a folder",
    f"{LOG}/below": "a file below a file",
    "": "no name",
}


def missing_files():
    """Files that aren't there, and folders."""
    for words in OVER_FILES:
        for name, shows in NO_FILES.items():
            given = [name if word == "NAME" else word for word in words]
            answers(f"{shows}, {words[0]}", given, "", error=f"cannot read {name}", status=3)
    folder = os.open(f"{TOP}/examples", os.O_RDONLY)
    answers("an input that is a folder", ["rules", "-"], "", error="cannot read -", status=3, stdin=folder)
    os.close(folder)


def closed_streams():
    for given, tail, text, error, status in (
        *((words, "<&-", "", "cannot read -\n", 3) for words in OVER_DOCUMENTS),
        (["rules", LOG], "<&-", "allowed\n", "", 0),
        (["rules", LOG], "2>&-", "allowed\n", "", 0),
        (["rules", "-"], "<&- 2>&-", "", "", 3),
        *((words, ">&-", "", "cannot write\n", 3) for words in COMMANDS),
        *((words, ">&- 2>&-", "", "", 3) for words in COMMANDS),
    ):
        got = harness.run("sh", ["-c", f'exec "$0" "$@" {tail}', WMLAB, *given])
        check(got == (text, error, status), f"closed streams, {given} {tail}", got)


PARTS = (
    cut_documents,
    cut_modules,
    document_limits,
    numbers_at_their_limits,
    module_limits,
    script_limits,
    changed_logs,
    endless_inputs,
    one_byte_a_read,
    full_devices,
    missing_files,
    closed_streams,
)


def main():
    for part in PARTS:
        start = time.monotonic()
        part()
        so_far = f"{TALLY.passed} passed, {TALLY.failed} failed so far"
        print(f"{part.__name__}: {so_far}, {time.monotonic() - start:.1f} s", flush=True)
    TALLY.end()


if __name__ == "__main__":
    harness.run_script(main)
