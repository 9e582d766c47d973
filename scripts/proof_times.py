#!/usr/bin/env python3
"""Runs a command that calls the prover, and prints how much processor time the proof of each crate took.

    scripts/proof_times.py .ci/run               the gate, at the top of a clean clone
    RT_JOBS=1 scripts/proof_times.py rt ci       one proof at a time

It looks at the prover's processes five times a second, so each may have run 0.2 seconds longer. Tests, edits of single
functions and the compiler have lines of their own. What `rt ci` kept is not proved again and has none. The last line
counts all processes of the command. Interrupted, it ends the command and prints what there was until then; the last
line then lacks what did not end by itself.
"""
import argparse
import collections
import os
import resource
import signal
import subprocess
import sys
import time
from collections.abc import Iterable, Sequence

from wmlabtools import prover

# The options of the prover's command that tell another part of its work than the proof of a whole crate.
PARTS = {"--test": "tests", "--only": "single functions", "--backend": "compiler"}
PAUSE = 0.2


def contents(number: str, name: str) -> str | None:
    """A file of the system about a process; None if the process has ended."""
    try:
        with open(f"/proc/{number}/{name}", encoding="utf-8", errors="replace") as file:
            return file.read()
    except (FileNotFoundError, ProcessLookupError):
        return None


class Process:
    """A process of the prover: its crate, the part of the work, and its seconds of the processor so far."""

    def __init__(self, words: Sequence[str]) -> None:
        self.crate = words[words.index("--crate-name") + 1] if "--crate-name" in words else "no crate"
        self.part = next((part for option, part in PARTS.items() if option in words), "proof")
        self.seconds = 0.0


def fields_of(number: str) -> list[str] | None:
    """What the system counts of a process, from its state on; None if it has ended."""
    stat = contents(number, "stat")
    return stat.rsplit(")", 1)[1].split() if stat else None


def is_below(number: str, command: str) -> bool:
    """Whether this process was started by the command, or by a process that was."""
    while number not in ("0", command):
        fields = fields_of(number)
        number = fields[1] if fields else "0"
    return number == command


def look(command: str, program: str, seen: dict[tuple[str, str], Process]) -> None:
    """Notes how long each process of this program has run that the command started. `seen` has them by their number and
    the time of their start, since the system gives numbers again."""
    for number in filter(str.isdigit, os.listdir("/proc")):
        fields = fields_of(number)
        if not fields:
            continue
        key = number, fields[19]
        if key not in seen:
            words = (contents(number, "cmdline") or "").split("\0")
            if words[0] != program or not is_below(number, command):
                continue
            seen[key] = Process(words)
        seen[key].seconds = (int(fields[11]) + int(fields[12])) / os.sysconf("SC_CLK_TCK")


def run(command: Sequence[str], program: str) -> tuple[int, list[Process]]:
    """Runs the command to its end, or until an interrupt ends it: its status, and the prover's processes. The command
    has a session of its own, so that an interrupt of the script alone ends it too, and none reaches it twice."""
    seen: dict[tuple[str, str], Process] = {}
    try:
        with subprocess.Popen(command, start_new_session=True) as ran:
            try:
                while ran.poll() is None:
                    look(str(ran.pid), program, seen)
                    time.sleep(PAUSE)
            except KeyboardInterrupt:
                os.killpg(ran.pid, signal.SIGINT)
                ran.wait()
                return 130, list(seen.values())
    except OSError as error:
        sys.exit(f"{command[0]}: {error.strerror}")
    return ran.returncode, list(seen.values())


def report(processes: Iterable[Process]) -> None:
    """Prints a line for each crate and part, the longest first, and the sum of each part."""
    crates: dict[tuple[str, str], float] = collections.defaultdict(float)
    parts: dict[str, float] = collections.defaultdict(float)
    for process in processes:
        crates[process.crate, process.part] += process.seconds
        parts[process.part] += process.seconds
    for (crate, part), seconds in sorted(crates.items(), key=lambda each: -each[1]):
        print(f"{seconds:8.1f} s  {crate}" + ("" if part == "proof" else f", {part}"))
    for part, seconds in sorted(parts.items(), key=lambda each: -each[1]):
        print(f"{seconds:8.1f} s  {part}, all crates")
    used = resource.getrusage(resource.RUSAGE_CHILDREN)
    print(f"{used.ru_utime + used.ru_stime:8.1f} s  all processes of the command")


def main() -> None:
    parser = argparse.ArgumentParser(description=__doc__, formatter_class=argparse.RawDescriptionHelpFormatter)
    parser.add_argument("command", nargs=argparse.REMAINDER, metavar="COMMAND", help="the command and its words")
    command = parser.parse_args().command
    if not command:
        parser.error("name the command to run")
    status, processes = run(command, f"{prover.kit()}/bin/rattle")
    report(processes)
    if status == 0 and not processes:
        sys.exit("the prover was not called: rt ci takes proofs that it kept; move /opt/rattle-kept away")
    sys.exit(status)


if __name__ == "__main__":
    main()
