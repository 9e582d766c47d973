"""Finding the program, running it, and counting what holds."""
import argparse
import concurrent.futures
import hashlib
import os
import random
import signal
import subprocess
import sys
from collections.abc import Callable, Iterable, Iterator, Mapping, Sequence
from typing import IO, NamedTuple, NoReturn, TypeVar

from . import TOP

STATUS = {"allowed": 0, "broken": 1, "refused": 2}
Item = TypeVar("Item")
Result = TypeVar("Result")


class Output(NamedTuple):
    """What a run of the program printed, what it wrote to standard error, and its status."""

    printed: str
    errors: str
    status: int


def checksum(*parts: str) -> str:
    """The checksum of every file below these places of the repository, of their names and of what they hold."""
    digest = hashlib.sha256()
    for name in sorted(files_below(parts)):
        with open(os.path.join(TOP, name), "rb") as file:
            digest.update(f"{name}\0{hashlib.sha256(file.read()).hexdigest()}\n".encode())
    return digest.hexdigest()


def files_below(parts: Iterable[str]) -> Iterator[str]:
    for part in parts:
        path = os.path.join(TOP, part)
        if os.path.isfile(path):
            yield part
        for folder, _, names in os.walk(path):
            for name in names:
                yield os.path.relpath(os.path.join(folder, name), TOP)


def processors() -> int:
    """How many processors this process may use: those of `taskset`, if it was started by that."""
    return len(os.sched_getaffinity(0))


def find_program() -> str:
    """The program as the launcher finds it: `./wmlab --which` prints its path, and builds a quick one if there is
    none."""
    ran = subprocess.run([os.path.join(TOP, "wmlab"), "--which"], stdout=subprocess.PIPE, text=True, check=False)
    if ran.returncode:
        sys.exit("the program is not built, and a quick build failed; name one with --wmlab PATH")
    return ran.stdout.rstrip("\n")


def arguments(description: str | None) -> argparse.ArgumentParser:
    """A parser of the words of a script that runs the program."""
    parser = argparse.ArgumentParser(description=description, formatter_class=argparse.RawDescriptionHelpFormatter)
    parser.add_argument(
        "--wmlab", metavar="PATH", help="the built program (if it is not given, the one that ./wmlab runs)"
    )
    return parser


def random_arguments(description: str | None, count: int, cases: str) -> argparse.ArgumentParser:
    """A parser of the words of a script that tries random cases, so many if it is not told how many."""
    parser = arguments(description)
    parser.add_argument("--count", type=int, default=count, help=cases)
    parser.add_argument("--seed", type=int, default=1)
    return parser


def chance_of(options: argparse.Namespace, number: int) -> random.Random:
    """The random choices of a case. Cases differ with the seed and with their numbers."""
    return random.Random(options.seed * 1_000_003 + number)


def program_of(options: argparse.Namespace) -> str:
    """The path of the program that the options name, or of the one that is found."""
    given: str | None = options.wmlab
    path = os.path.abspath(given) if given else find_program()
    if not os.access(path, os.X_OK):
        sys.exit(f"{path} is not a program")
    return path


def run(
    program: str,
    words: Sequence[str],
    *,
    input: bytes | None = None,
    stdin: int | IO[bytes] | None = None,
    stdout: int | IO[bytes] = subprocess.PIPE,
    stderr: int | IO[bytes] = subprocess.PIPE,
    cwd: str = TOP,
    env: Mapping[str, str] | None = None,
    timeout: float = 120,
    pass_fds: Sequence[int] = (),
) -> Output:
    """A run of the program at the top of the repository, without standard input if it is given none."""
    ran = subprocess.run(
        [program, *words],
        check=False,
        input=input,
        stdin=subprocess.DEVNULL if stdin is None and input is None else stdin,
        stdout=stdout,
        stderr=stderr,
        cwd=cwd,
        env=env,
        timeout=timeout,
        pass_fds=pass_fds,
    )
    printed, errors = ((data or b"").decode(errors="replace") for data in (ran.stdout, ran.stderr))
    return Output(printed, errors, ran.returncode)


def at_once(task: Callable[[Item], Result], items: Iterable[Item]) -> Iterator[Result]:
    """What a task gives for each of some items, in their order; as many are done at once as there are processors."""
    with concurrent.futures.ThreadPoolExecutor(processors()) as pool:
        yield from pool.map(task, items)


def run_script(main: Callable[[], object], stop: Callable[..., object] | None = None) -> None:
    """Runs a script. An interrupt ends it with status 130 and without its last line. `stop` is what Ctrl-C and SIGTERM
    do, if the script has something to end; it raises an interrupt."""
    for sign in (signal.SIGINT, signal.SIGTERM) if stop else ():
        # A shell has Ctrl-C ignored by what it starts in the background.
        if signal.getsignal(sign) != signal.SIG_IGN:
            signal.signal(sign, stop)
    try:
        main()
    except KeyboardInterrupt:
        sys.exit(130)


class Tally:
    """Counts what holds and what does not."""

    def __init__(self) -> None:
        self.passed = self.failed = 0

    def check(self, holds: object, shows: str, got: object = "") -> None:
        """Counts one case; if it does not hold, prints what it shows and what came."""
        self.passed, self.failed = self.passed + bool(holds), self.failed + (not holds)
        if not holds:
            print(f"FAILED {shows}: {str(got)[:2000]}", flush=True)

    def add(self, passed: int, failed: int) -> None:
        self.passed, self.failed = self.passed + passed, self.failed + failed

    def end(self) -> NoReturn:
        """Prints the last line, and ends with status 1 if something failed or nothing was tried."""
        print(f"{self.passed} passed, {self.failed} failed")
        sys.exit(1 if self.failed or not self.passed else 0)


def try_cases(
    options: argparse.Namespace, shows: str, fault_of: Callable[[str, int, random.Random], object]
) -> NoReturn:
    """Tries random cases on the program, and ends the script. `fault_of` is given the program, a case's number and its
    random choices; it answers what is wrong with the case, None if nothing is."""
    program, tally = program_of(options), Tally()

    def fault_at(number: int) -> object:
        return fault_of(program, number, chance_of(options, number))

    for fault in at_once(fault_at, range(options.count)):
        tally.check(fault is None, shows, fault)
    tally.end()
