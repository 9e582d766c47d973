#!/usr/bin/env python3
"""The must-fail edits: wrong bodies, each of which the prover must refuse. edits/README.md describes them.

    scripts/edits.py [CRATE..]       tries those of these crates or of all, each on the function that it changes or
                                     that edits/gate.txt names (all take an hour on four processors)
    scripts/edits.py --unedited [CRATE..]
                                     asks whether these functions pass there without an edit
    scripts/edits.py --functions     tries those of edits/gate.txt; with --until FILE beside `rt ci`: it waits for each
                                     library until FILE is there
    scripts/edits.py --check         asks whether each can still be applied, and whether the gate's copies are current
    scripts/edits.py --sync          copies those that edits/gate.txt lists without a function to crates/*/must-fail/

Each is tried on a copy, over the libraries that `rt ci` left in out/: it has proved the functions without the edits.
The last line is `N passed, N failed`.
"""
import argparse
import concurrent.futures
import contextlib
import filecmp
import glob
import os
import re
import shutil
import signal
import subprocess
import tempfile
import threading
import time
from collections.abc import Collection, Iterable, Iterator, Mapping

from wmlabtools import TOP, by_contract, changed_function, edits, harness, prover

# The seconds after which a library that was being written is whole.
SETTLED = 5
# Whether the script was interrupted.
STOPPED = threading.Event()


# For each edit or function, whether it is refused or proved, and what is said of it.
Answers = dict[str, tuple[bool, str]]


class Stopped(Exception):
    """The script was interrupted, so nothing more is tried."""


@contextlib.contextmanager
def threads(count: int) -> Iterator[concurrent.futures.ThreadPoolExecutor]:
    """A pool of threads. An interrupt ends what they do."""
    with concurrent.futures.ThreadPoolExecutor(count) as pool:
        try:
            yield pool
        except KeyboardInterrupt:
            STOPPED.set()
            raise


def copy_of(edit: str) -> str:
    """Where the gate finds an edit."""
    _, crate, name = edit.split("/")
    return f"crates/{crate}/must-fail/{name}"


def check(tally: harness.Tally) -> None:
    """Whether each edit can be applied, and the copies in the crates are those of edits/gate.txt."""
    for edit in edits.all_edits():
        changed = edits.changed_files(edit)
        tally.check(not isinstance(changed, str), edit, changed)
    listed = edits.gate_edits()
    tally.check(list(listed) == sorted(listed), "edits/gate.txt is not sorted")
    for edit in listed:
        tally.check(os.path.isfile(f"{TOP}/{edit}"), f"edits/gate.txt lists {edit}, which is not there")
    wanted = {copy_of(edit): edit for edit, function in listed.items() if not function}
    found = {os.path.relpath(path, TOP) for path in glob.glob(f"{TOP}/crates/*/must-fail/*")}
    for copy in sorted(found | set(wanted)):
        is_current = copy in found and copy in wanted and os.path.isfile(f"{TOP}/{wanted[copy]}")
        is_current = is_current and filecmp.cmp(f"{TOP}/{copy}", f"{TOP}/{wanted[copy]}", shallow=False)
        tally.check(is_current, f"{copy} is not what edits/gate.txt asks for; scripts/edits.py --sync mends it")


def sync() -> None:
    """Makes the copies in the crates."""
    for path in glob.glob(f"{TOP}/crates/*/must-fail"):
        shutil.rmtree(path)
    for edit, function in edits.gate_edits().items():
        if not function:
            os.makedirs(f"{TOP}/{os.path.dirname(copy_of(edit))}", exist_ok=True)
            shutil.copy(f"{TOP}/{edit}", f"{TOP}/{copy_of(edit)}")


def changed_since(crate: str) -> str | None:
    """What is said if a crate has no library, or one that is older than a file of the crate; else nothing. Of a crate
    that no other uses there is none."""
    top = f"{TOP}/crates/{crate}"
    if not any(crate in used for used in prover.dependencies().values()):
        return None
    if not os.path.isdir(f"{top}/out/rlib"):
        return f"{crate} has no library: run `rt ci` first, or `rt lib` in crates/{crate}"
    proved = os.path.getmtime(f"{top}/out/rlib")
    for part in ("src", "specs", "proofs"):
        for path in glob.glob(f"{top}/{part}/**/*.*", recursive=True):
            if os.path.getmtime(path) > proved:
                return f"{os.path.relpath(path, TOP)} is newer than what `rt ci` proved"
    return None


def wait_for_library(crate: str, start: float, until: str) -> None:
    """Waits until `rt ci`, which began at the same time, has built the library of a crate, or has ended and so written
    the file `until`. A library from before the start is not meant."""
    last = f"{TOP}/crates/{crate}/out/rlib/{crate}.rlib/toolchain"
    while not os.path.exists(until) and not STOPPED.is_set():
        if os.path.isfile(f"{last}/mir.json") and start <= os.path.getmtime(last) < time.time() - SETTLED:
            return
        time.sleep(1)


class Copy:
    """A copy of a crate in a folder, in which functions are proved. Others that have files of a proof are taken by
    their contracts, which `rt ci` has proved. What was proved is kept, so that an edit costs only what it changes."""

    def __init__(self, crate: str, room: str) -> None:
        self.crate, self.room, self.top = crate, room, f"{TOP}/crates/{crate}"
        kept = f"{room}/kept"
        os.makedirs(kept)
        self.words = prover.check_words(crate, "--allow-holes", "--incremental", kept)
        for part in ("src", "specs", "proofs"):
            if os.path.isdir(f"{self.top}/{part}"):
                shutil.copytree(f"{self.top}/{part}", f"{room}/{part}")
        self.others = by_contract.ByContract(crate, self.top, room)

    def write(self, texts: Mapping[str, str], functions: Collection[str]) -> None:
        """Writes changed texts of files, with these functions as they are."""
        self.others.leave(functions, {os.path.relpath(path, self.top): text for path, text in texts.items()})

    def prove(self, functions: Iterable[str]) -> str:
        """What the prover says of these functions, and of what they call."""
        only = [word for function in functions for word in ("--only", f"{self.crate}::{function}")]
        words, to = [*self.words, *only], subprocess.PIPE
        said: str | None = None
        with subprocess.Popen(words, cwd=self.room, stdout=to, stderr=subprocess.STDOUT, text=True) as started:
            while said is None:
                with contextlib.suppress(subprocess.TimeoutExpired):
                    said = started.communicate(timeout=1)[0]
                if STOPPED.is_set():
                    started.terminate()
        if STOPPED.is_set() or started.returncode == -signal.SIGINT:
            raise Stopped
        return said


# What the prover says of a function, after its open goals, each with its place in the source; and at a place of a
# proof, unless the proof names what an edit took away: that shows nothing about the contract.
VERDICT = re.compile(r"fn (\S+): (not proved|no proof)\b")
OPEN = re.compile(r"note: src/\S+:\d+:\d+: (?:it is not proved that |`search` found no proof )")
PLACE = re.compile(r"\./proofs/(\S+)/\w+\.antt:\d+:\d+: error")
NAMES = re.compile(r"has no field|is not in scope|has no `|was not admitted|record `[^`]+` \(nearest: ")
# Functions that call one another have one proof, in a folder whose name begins with a +, with their names in its goals.
GOAL_OF_CYCLE = re.compile(r"error: `(\w+)-")


def function_of(folder: str, line: str) -> str:
    """The function that a line says something of, at a place of a proof in this folder."""
    *outer, last = folder.split("/")
    goal = GOAL_OF_CYCLE.search(line) if last.startswith("+") else None
    return "::".join([*outer, goal[1] if goal else last])


def goal_of(said: str, crate: str, function: str) -> str | None:
    """The line of what the prover said that names an open goal of the contract of a function, or of a closure in it;
    or nothing."""

    def is_meant(name: str) -> bool:
        return by_contract.owner_of(name) == function

    of_proofs: list[str] = []
    of_function: list[str] = []
    for line in said.split("\n"):
        place, verdict = PLACE.match(line), VERDICT.match(line)
        if place and is_meant(function_of(place[1], line)) and not NAMES.search(line):
            of_proofs.append(line)
        elif OPEN.match(line):
            of_function.append(line)
        elif verdict and is_meant(verdict[1].removeprefix(f"{crate}::")) and of_proofs + of_function:
            return (of_proofs + of_function)[0]
        elif line.startswith("fn "):
            of_function = []
    return None


def refusals(copy: Copy, batch: Mapping[str, str]) -> Answers:
    """For each of some edits, tried at the same time, whether the prover refuses its function by a goal of the
    contract; and what it said."""
    changed: dict[str, str] = {}
    for edit in batch:
        changed = edits.applied(edit, changed_before=changed)
    functions = sorted(set(batch.values()))
    copy.write(changed, functions)
    said = copy.prove(functions)
    copy.write({path: edits.text_of(path) for path in changed}, functions)
    answers: Answers = {}
    for edit, function in batch.items():
        goal = goal_of(said, copy.crate, function)
        answers[edit] = (goal is not None, goal[:200] if goal else f"it is not refused: {said[-500:]}")
    return answers


def next_batch(waiting: Mapping[str, str], alone: Collection[str]) -> dict[str, str]:
    """Edits to try at the same time: none that changes or tries a function that another one changes or tries."""
    batch: dict[str, str] = {}
    changed: dict[str, str] = {}
    taken: set[str] = set()
    for edit, function in waiting.items():
        bodies = None if edit in alone else changed_function.bodies_changed(edit)
        if not bodies or taken & {function, *bodies}:
            continue
        tried = edits.changed_files(edit, changed_before=changed)
        if not isinstance(tried, str):
            batch[edit], changed, taken = function, tried, taken | {function, *bodies}
    return batch or dict([next(iter(waiting.items()))])


def try_crate(crate: str, listed: Mapping[str, str]) -> Answers:
    """For each edit of a crate, with its function, whether it is refused, and what is said of it. `rt ci` has proved
    the functions without the edits. An edit is tried alone if it changes more than bodies of functions, or if it is
    not refused beside others, since its function calls theirs, say."""
    whys = {edit: changed_since(crate) or edits.changed_files(edit) for edit in listed}
    answers: Answers = {edit: (False, why) for edit, why in whys.items() if isinstance(why, str)}
    waiting = {edit: function for edit, function in listed.items() if edit not in answers}
    if not waiting:
        return answers
    alone = {edit for edit in waiting if not changed_function.bodies_changed(edit)}
    with tempfile.TemporaryDirectory() as room:
        copy = Copy(crate, room)
        while waiting:
            batch = next_batch(waiting, alone)
            for edit, answer in refusals(copy, batch).items():
                if answer[0] or len(batch) == 1:
                    answers[edit] = answer
                    del waiting[edit]
                else:
                    alone.add(edit)
    return answers


def try_functions(tally: harness.Tally, jobs: int, until: str | None) -> None:
    start, turns = time.time(), threading.Semaphore(jobs)
    by_crate: dict[str, dict[str, str]] = {}
    for edit, function in edits.gate_edits().items():
        if function:
            by_crate.setdefault(edit.split("/")[1], {})[edit] = function

    def answered(crate: str) -> Answers:
        if until:
            wait_for_library(crate, start, until)
        with turns:
            return try_crate(crate, by_crate[crate])

    with threads(max(1, len(by_crate))) as pool:
        for answers in pool.map(answered, by_crate):
            for edit, (is_refused, said) in answers.items():
                tally.check(is_refused, edit, said)
                print(f"{edit}: {said}", flush=True)


def by_crates(crates: Collection[str]) -> dict[str, dict[str, list[str]]]:
    """The edits of these crates, or of all, by their crates: each with the function that edits/gate.txt names, or else
    with those that it changes. The crates with the most edits come first."""
    listed = edits.gate_edits()
    found: dict[str, dict[str, list[str]]] = {}
    for edit in edits.all_edits(crates):
        functions = [listed[edit]] if listed.get(edit) else changed_function.changed_functions(edit)
        found.setdefault(edit.split("/")[1], {})[edit] = functions
    return dict(sorted(found.items(), key=lambda each: -len(each[1])))


def try_each_function(crate: str, listed: Mapping[str, list[str]]) -> Answers:
    """For each edit of a crate, with its functions, whether one of them is refused, and what is said of it."""
    answers: Answers = {edit: (False, "it changes no function") for edit in listed}
    answers.update(try_crate(crate, {edit: functions[0] for edit, functions in listed.items() if functions}))
    for edit, functions in listed.items():
        for function in functions[1:]:
            if not answers[edit][0]:
                answers.update(try_crate(crate, {edit: function}))
    for edit, (is_refused, said) in answers.items():
        print(f"{edit}: {'refused' if is_refused else 'NOT REFUSED'}: {said}", flush=True)
    return answers


def try_by_function(tally: harness.Tally, crates: Collection[str], jobs: int) -> None:
    by_crate = by_crates(crates)
    with threads(jobs) as pool:
        for answers in pool.map(try_each_function, by_crate, by_crate.values()):
            for edit, (is_refused, said) in answers.items():
                tally.check(is_refused, edit, said)


def unedited(crate: str, listed: Mapping[str, list[str]]) -> Answers:
    """For each function of the edits of a crate, whether it is proved over contracts as it is, and what is said."""
    functions = sorted({function for functions in listed.values() for function in functions})
    why = changed_since(crate)
    if why or not functions:
        return {crate: (False, why or "its edits change no function")}
    with tempfile.TemporaryDirectory() as room:
        copy = Copy(crate, room)
        copy.write({}, functions)
        said = copy.prove(functions)
    # A hole in place of a proof is a function's that is taken by its contract.
    holes = r"(?:`\S+\.Proof\.\w+_spec`|the same \d+ declarations as `)"
    passes = rf"(?:proved$|no holes$|depends on a hole in {holes})"
    proved = set(re.findall(rf"(?m)^fn {crate}::(\S+): {passes}", said))
    return {f"{crate}::{function}": (function in proved, said[-500:]) for function in functions}


def try_unedited(tally: harness.Tally, crates: Collection[str], jobs: int) -> None:
    by_crate = by_crates(crates)
    with threads(jobs) as pool:
        for answers in pool.map(unedited, by_crate, by_crate.values()):
            for function, (is_proved, said) in answers.items():
                tally.check(is_proved, f"{function} is not proved without an edit", said)


def main() -> None:
    parser = argparse.ArgumentParser(description=__doc__, formatter_class=argparse.RawDescriptionHelpFormatter)
    parser.add_argument(
        "--check", action="store_true", help="only ask whether each can be applied and the copies are current"
    )
    parser.add_argument("--sync", action="store_true", help="only copy those of edits/gate.txt into the crates")
    parser.add_argument("--functions", action="store_true", help="only try those of edits/gate.txt with a function")
    parser.add_argument("--unedited", action="store_true", help="ask whether these functions pass without an edit")
    parser.add_argument("--until", metavar="FILE", help="wait for the libraries of `rt ci` until FILE is there")
    parser.add_argument("--jobs", type=int, default=harness.processors(), help="crates that are tried side by side")
    parser.add_argument("crates", nargs="*", metavar="CRATE")
    options = parser.parse_args()
    without = [crate for crate in options.crates if not os.path.isdir(f"{TOP}/edits/{crate}")]
    if without:
        parser.error(f"there are no edits of {' '.join(without)}")
    tally = harness.Tally()
    if options.sync:
        sync()
    if options.check or options.sync:
        check(tally)
    elif options.functions:
        try_functions(tally, options.jobs, options.until)
    elif options.unedited:
        try_unedited(tally, options.crates, options.jobs)
    else:
        try_by_function(tally, options.crates, options.jobs)
    tally.end()


if __name__ == "__main__":
    harness.run_script(main)
