#!/usr/bin/env python3
"""Runs the built program on mutated examples: bytes flipped, cut out, doubled, or spliced from another example.

    scripts/mutate.py [--wmlab PATH] [--count N] [--seed N]        20,000 mutations, seed 1

Each command is tried. Each run has to end with a status below 3, with nothing on standard error, and with the lines
that its command has: one; or of `explain` the line of `check` and more after it; of `graph` a picture or the line of
`check`, if that is a refusal; of `drive` an outcome, a verdict and a document, or the line of a refusal; of `run` a
table and how many rounds there were, or that line. What `drive` and `run` log is allowed, whatever the module. The
last line is `N passed, N failed`.
"""
import glob
import random
import subprocess
import tempfile
from collections.abc import Sequence

from wmlabtools import TOP, harness


def read(pattern: str) -> list[bytes]:
    contents = []
    for name in sorted(glob.glob(f"{TOP}/examples/{pattern}")):
        with open(name, "rb") as file:
            contents.append(file.read())
    return contents


# A run of the program.
Ran = subprocess.CompletedProcess[bytes]
MODULES, DOCUMENTS = read("*.wasm"), read("*.json")


def mutated(data: bytes, others: Sequence[bytes], chance: random.Random) -> bytes:
    """The data with one to four changes."""
    made = bytearray(data)
    for _ in range(chance.randint(1, 4)):
        at = chance.randrange(len(made) + 1)
        end = min(len(made), at + chance.randint(1, 8))
        kind = chance.randrange(5)
        if kind == 0 and at < len(made):
            made[at] ^= 1 << chance.randrange(8)
        elif kind == 1 and at < len(made):
            made[at] = chance.choice([0, 0x0B, 0x7F, 0x80, 0xFF, 0x30, 0x5B, 0x5D, chance.randrange(256)])
        elif kind == 2:
            del made[at:end]
        elif kind == 3:
            made[at:at] = made[at:end]
        else:
            other = chance.choice(others)
            start = chance.randrange(len(other))
            made[at:end] = other[start : start + chance.randint(1, 16)]
    return bytes(made)


def is_line(text: bytes, words: bytes = b"") -> bool:
    """Whether this is one line, which begins so."""
    return text.count(b"\n") == 1 and text.endswith(b"\n") and text.startswith(words)


def is_answer(command: str, ran: Ran, checked: Ran | None) -> bool:
    """Whether a run of the command ended with the status and the lines that it has; `checked` is the run of `check`
    on the same."""
    if not 0 <= ran.returncode < 3 or ran.stderr:
        return False
    first, _, behind = ran.stdout.partition(b"\n")
    refused = is_line(ran.stdout, b"refused ")
    if command == "explain" and checked:
        return first + b"\n" == checked.stdout and ran.returncode == checked.returncode and behind.endswith(b"\n")
    if command == "graph" and checked:
        drawn = first == b"digraph execution {" and behind.endswith(b"}\n")
        return ran.returncode == checked.returncode and (
            ran.stdout == checked.stdout if checked.returncode == 2 else drawn
        )
    if command == "drive":
        lines = ran.stdout.splitlines()
        played = len(lines) == 3 and lines[0].startswith(b"outcome ") and lines[1].startswith(b"allowed threads=2 ")
        return played and ran.returncode == 0 or refused and ran.returncode == 2
    if command == "run":
        return refused and ran.returncode == 2 or ran.stdout.endswith(b"\nallowed rounds=2\n") and ran.returncode == 0
    return is_line(ran.stdout)


COMMANDS = ["check", "check", "complete", "explain", "graph", "rules", "migrate", "drive", "run"]


def words_of(command: str, module: str) -> list[str]:
    """The words of a command over the module of this name, with the document on standard input."""
    if command == "drive":
        return [command, module, "0*9,1*9,d0/1,d1,0*9,1*9", "a", "b"]
    if command == "run":
        return [command, module, "2", "a", "b"]
    return [command, "-"] if command in ("rules", "migrate") else [command, module, "-"]


def fault_of(program: str, number: int, chance: random.Random) -> tuple[int, str, str, bytes, Ran] | None:
    """What was given and got where a mutation is not answered as it must be; None where it is."""
    module, document = chance.choice(MODULES), chance.choice(DOCUMENTS)
    command = chance.choice(COMMANDS)
    if command in ("drive", "run") or command not in ("rules", "migrate") and chance.randrange(2):
        module = mutated(module, MODULES, chance)
    else:
        document = mutated(document, DOCUMENTS, chance)
    with tempfile.NamedTemporaryFile() as file:
        file.write(module)
        file.flush()

        def run(command: str) -> Ran:
            return subprocess.run(
                [program, *words_of(command, file.name)], input=document, capture_output=True, timeout=60
            )

        ran = run(command)
        checked = run("check") if command in ("explain", "graph") else None
    return None if is_answer(command, ran, checked) else (number, command, module.hex(), document, ran)


def main() -> None:
    options = harness.random_arguments(__doc__, 20_000, "mutations").parse_args()
    harness.try_cases(options, "a mutation", fault_of)


if __name__ == "__main__":
    harness.run_script(main)
