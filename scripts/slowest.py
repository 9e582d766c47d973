#!/usr/bin/env python3
"""Prints which functions take the prover longest: of each crate the seconds of its whole check, and of all crates
together the slowest functions, with the part of the work that took most of each. It proves each crate from nothing,
one after the other.

    scripts/slowest.py [--count N] [--tests] [CRATE..]      these crates, or all; it needs what `rt ci` left in out/

Seconds are those of the processor, on a busy host up to three times as many. The prover takes a function apart into
modules and writes a file for each when it is done with it; `strace` names these files as they are written. A module is
counted to its function. The MB of these files are the same in every run. `Lts` is the function's code under the rules
for borrows: it grows with each owned value that is dropped at each exit. `Tie` ties it to the contract, and `Proof` is
the proof. --tests checks the crates with their tests.
"""
import argparse
import collections
import os
import re
import resource
import shutil
import subprocess
import sys
from collections.abc import Sequence

from wmlabtools import TOP, harness, prover

# What `strace` says, beside what the prover says.
TRACED = re.compile(r"\d+ (?:openat\(|\+\+\+|---|<\.\.\.)")
# A module's file that is written, with the process, its path, the module of the source, and the module's own name.
WRITTEN = re.compile(r'(\d+) .*"(\S*rattle-logic-built-[^/]*/Rattle-\w+-(?:proofs|specs)\.(\S*?)([^.]+)\.oantt)\.tmp')


class Function:
    """What the prover did for a function."""

    def __init__(self) -> None:
        # Seconds of the processor, by the part of the work.
        self.parts: dict[str, float] = collections.defaultdict(float)
        self.size = 0

    def seconds(self) -> float:
        return sum(self.parts.values())


def processor_seconds(process: str) -> float | None:
    """How long a process has run on a processor, from the system's count of its ticks; None if it has ended."""
    try:
        with open(f"/proc/{process}/stat", encoding="utf-8") as file:
            fields = file.read().rsplit(")", 1)[1].split()
    except (FileNotFoundError, ProcessLookupError):
        return None
    return (int(fields[11]) + int(fields[12])) / 100


def size_of(path: str) -> int:
    """The size of a file, or 0 if it is not there any more."""
    try:
        return os.path.getsize(path)
    except FileNotFoundError:
        return 0


def checked(crate: str, more: Sequence[str]) -> dict[str, Function]:
    """What the prover did for each function of a crate; ends if the crate is not proved."""
    words = prover.check_words(crate, *more)
    functions: dict[str, Function] = collections.defaultdict(Function)
    before: float | None = None
    last: tuple[Function, str] | None = None
    said: list[str] = []
    traced = ["strace", "-f", "-e", "trace=openat", "-o", "|cat", *words]
    with subprocess.Popen(
        traced, cwd=f"{TOP}/crates/{crate}", stdout=subprocess.PIPE, stderr=subprocess.STDOUT, text=True
    ) as ran:
        assert ran.stdout is not None
        for line in ran.stdout:
            if not TRACED.match(line):
                said.append(line)
            found = WRITTEN.match(line)
            now = processor_seconds(found[1]) if found else None
            if found and now is not None:
                # The file before this one is complete. The last one is gone when the prover ends.
                if last is not None:
                    last[0].size += size_of(last[1])
                _, path, name, part = found.groups()
                function = functions[f"{crate}::{name.rstrip('.').replace('.', '::')}"]
                # What comes before the first module, reading the libraries, is no function's.
                if before is not None:
                    function.parts[part.split("-")[0]] += now - before
                before, last = now, (function, path)
    if not any(line.startswith("logic=proved") for line in said):
        sys.exit(f"{crate} is not proved:\n{''.join(said[-20:])}")
    return functions


def children_seconds() -> float:
    usage = resource.getrusage(resource.RUSAGE_CHILDREN)
    return usage.ru_utime + usage.ru_stime


def main() -> None:
    parser = argparse.ArgumentParser(description=__doc__, formatter_class=argparse.RawDescriptionHelpFormatter)
    parser.add_argument("--count", type=int, default=20, help="how many functions are printed")
    parser.add_argument("--tests", action="store_true", help="check the crates with their tests")
    parser.add_argument("crates", nargs="*", metavar="CRATE")
    options = parser.parse_args()
    if not shutil.which("strace"):
        sys.exit("this needs strace, of Debian's package of that name")
    functions: dict[str, Function] = {}
    for crate in options.crates or prover.dependencies():
        start = children_seconds()
        found = checked(crate, ["--test"] if options.tests else [])
        functions.update(found)
        size = sum(function.size for function in found.values())
        seconds = children_seconds() - start
        print(f"{seconds:7.1f} s {size / 1e6:7.1f} MB {crate}, {len(found)} functions and types", flush=True)
    slowest = sorted(functions.items(), key=lambda each: -each[1].seconds())
    for name, function in slowest[: options.count]:
        part = max(function.parts, key=function.parts.__getitem__, default="no part")
        print(f"{function.seconds():7.1f} s {function.size / 1e6:7.1f} MB {name}, {part} {function.parts[part]:.1f} s")


if __name__ == "__main__":
    harness.run_script(main)
