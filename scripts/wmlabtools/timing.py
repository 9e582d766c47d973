"""Wall time, processor time and peak memory of a process."""
import os
import subprocess
import sys
import tempfile
import time
from collections.abc import Callable, Sequence

TIME = "/usr/bin/time"


class Measured:
    """The best of some runs: seconds of wall time, seconds of processor time, and the first line."""

    def __init__(self, wall: float, processor: float, line: str) -> None:
        self.wall, self.processor, self.line = wall, processor, line


def best(runs: Sequence[Measured]) -> Measured:
    """The least wall time and the least processor time of some runs, and the last line."""
    return Measured(min(run.wall for run in runs), min(run.processor for run in runs), runs[-1].line)


def measure_both(
    ours: Sequence[str], theirs: Sequence[str], runs: int, stdin: str | None = None
) -> tuple[Measured, Measured]:
    """The best of some runs of each, alternately, so that what else runs on the machine slows down either."""
    pairs = [(measure(ours, 1, stdin), measure(theirs, 1, stdin)) for _ in range(runs)]
    return best([pair[0] for pair in pairs]), best([pair[1] for pair in pairs])


def measure(words: Sequence[str], runs: int = 5, stdin: str | None = None, cwd: str | None = None) -> Measured:
    """The least wall time and the least processor time of some runs. `stdin` is the path of a file. Standard error is
    taken with what is printed. A process that is ended by a signal has that as its line."""
    walls, processors, line = [], [], ""
    for _ in range(runs):
        with open(stdin or os.devnull, "rb") as given:
            start = time.perf_counter()
            ran = subprocess.Popen(words, stdin=given, stdout=subprocess.PIPE, stderr=subprocess.STDOUT, cwd=cwd)
            assert ran.stdout is not None
            with ran.stdout as printed:
                line = printed.readline(200).decode(errors="replace").rstrip()
                while printed.read(1 << 20):
                    pass
                _, status, used = os.wait4(ran.pid, 0)
        walls.append(time.perf_counter() - start)
        processors.append(used.ru_utime + used.ru_stime)
        if status & 127:
            line = f"signal {status & 127}"
    return Measured(min(walls), min(processors), line)


def mebibytes(words: Sequence[str], stdin: str | None = None, cwd: str | None = None) -> float:
    """The peak memory of a run. GNU's `time` starts it: the system counts the memory of the process that starts
    another, which is Python's else, to that of the other."""
    if not os.access(TIME, os.X_OK):
        sys.exit(f"{TIME} is not there: peak memory needs Debian's package time")
    with open(stdin or os.devnull, "rb") as given, tempfile.NamedTemporaryFile("r") as told:
        timed = [TIME, "--format", "%M", "--output", told.name, *words]
        nothing = subprocess.DEVNULL
        subprocess.run(timed, cwd=cwd, check=False, stdin=given, stdout=nothing, stderr=nothing)
        return int(told.read().split()[-1]) / 1024


def made_by_a_child(make: Callable[[], str | bytes], path: str) -> str:
    """Writes what `make` gives to a file, in a child, so that this process stays small, and starts others quickly."""
    child = os.fork()
    if child == 0:
        made = make()
        with open(path, "wb") as file:
            file.write(made if isinstance(made, bytes) else made.encode())
        os._exit(0)
    _, status = os.waitpid(child, 0)
    if status:
        raise RuntimeError(f"{path} was not written")
    return path
