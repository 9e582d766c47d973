"""Runs specimens in an engine, by litmus/harness/main.mjs in node."""
import base64
import json
import os
import shutil
import signal
import subprocess
import threading
from collections.abc import Callable, Iterator
from dataclasses import dataclass, field
from types import TracebackType
from typing import Any

from wmlabtools import TOP

from .judges import Failed
from .specimens import Specimen

EARLY = "the harness ended early"
COMMAND = os.path.join(TOP, "litmus/harness/main.mjs")
ENGINES = ("node", "chromium", "firefox", "webkit")
WRONG = (
    "plain-atomics",
    "torn-store",
    "split-update",
    "early-atomic-load",
    "early-plain-load",
    "late-plain-store",
)


@dataclass(frozen=True)
class Settings:
    """How tests are run. `pin` has the processors of the threads, none if they are not pinned."""

    engine: str = "node"
    iterations: int = 1_000_000
    seconds: float = 1e9
    batch: int = 4096
    chunk: int = 256
    stride: int = 64
    wrong: str | None = None
    pin: tuple[int, ...] = ()

    @property
    def options(self) -> dict[str, Any]:
        names = ("iterations", "seconds", "batch", "chunk", "stride", "wrong")
        return {name: getattr(self, name) for name in names}


@dataclass(frozen=True)
class Ran:
    """What an engine gave: each tuple of the columns' values with its count. `problem` is why it gave nothing."""

    name: str
    tuples: tuple[tuple[list[str], int], ...] = ()
    others: int = 0
    iterations: int = 0
    seconds: float = 0.0
    pinned: int = 0
    pin_problem: str | None = None
    problem: str | None = None


def ran_of(result: dict[str, Any]) -> Ran:
    tuples = tuple((values, count) for values, count in result["tuples"])
    seconds = result["milliseconds"] / 1000
    pins = result["pinned"], result["pinProblem"]
    return Ran(result["name"], tuples, result["others"], result["iterations"], seconds, *pins)


def task_of(specimen: Specimen) -> str:
    """A specimen as the harness takes it."""
    task = {
        "name": specimen.name,
        "module": base64.b64encode(specimen.module).decode(),
        "threads": [{"start": thread.start, "args": list(thread.args)} for thread in specimen.threads],
        "finals": [{"address": final.address, "width": final.width} for final in specimen.finals],
        "options": {"isNarrow": specimen.is_narrow},
    }
    return json.dumps(task)


def ignore(_name: str, _done: int) -> None:
    """Progress that nobody wants to see."""


def say_nothing(_sentence: str) -> None:
    """What nobody wants to be told."""


@dataclass
class Harness:
    """An engine with its process. Used in a `with` statement."""

    settings: Settings
    version: str = ""
    tell: Callable[[str, int], None] = field(default=ignore)
    note: Callable[[str], None] = field(default=say_nothing)
    is_stopped: bool = False
    ending: str = EARLY

    def __enter__(self) -> "Harness":
        node = shutil.which("node")
        if not node:
            raise Failed("node is not installed, which runs the harness also for browsers (Debian: nodejs)")
        # A session of its own: Ctrl-C on the terminal reaches this process alone, which then stops the harness.
        self.process = subprocess.Popen(
            [node, COMMAND], stdin=subprocess.PIPE, stdout=subprocess.PIPE, text=True, start_new_session=True
        )
        return self

    def __exit__(self, kind: type[BaseException] | None, *_: BaseException | TracebackType | None) -> None:
        assert self.process.stdin and self.process.stdout
        if kind:
            self.process.terminate()
        try:
            self.process.stdin.close()
        except BrokenPipeError:
            pass
        self.process.stdout.close()
        self.process.wait()

    def stop(self) -> None:
        """Has the harness end the test that it runs, and start no other one."""
        self.is_stopped = True
        self.process.send_signal(signal.SIGINT)

    def hand_out(self, specimens: list[Specimen]) -> None:
        """Writes the tests, which a thread of its own does: the harness may end before it has read all."""
        settings = self.settings
        lines = [json.dumps({"engine": settings.engine, "pin": list(settings.pin), "options": settings.options})]
        lines += map(task_of, specimens)
        assert self.process.stdin
        try:
            for line in lines:
                self.process.stdin.write(line + "\n")
            self.process.stdin.close()
        except BrokenPipeError:
            pass  # the harness has ended, and its last line states why

    def results(self, specimens: list[Specimen]) -> Iterator[Ran]:
        """What the engine gave of each specimen, in their order. A failure that ends the engine is the last one."""
        writer = threading.Thread(target=self.hand_out, args=(specimens,), daemon=True)
        writer.start()
        assert self.process.stdout
        for line in self.process.stdout:
            value = json.loads(line)
            if "engine" in value:
                self.version = value["engine"]
            elif "progress" in value:
                self.tell(value["progress"]["name"], value["progress"]["done"])
            elif "again" in value:
                name, message = value["again"]["name"], value["again"]["message"]
                self.note(f"{name}: {message}; it is opened once more, and the test begins again")
            elif "result" in value:
                yield ran_of(value["result"])
            elif value["failed"]["name"] is not None:
                yield Ran(value["failed"]["name"], problem=value["failed"]["message"])
            elif self.version:
                self.ending = value["failed"]["message"]
            else:
                raise Failed(value["failed"]["message"])
        writer.join(timeout=1)
        self.end_of(self.process.wait())

    def end_of(self, status: int) -> None:
        """Keeps why the harness ended, if it did not say so itself."""
        if status < 0:
            self.ending = f"the harness was ended by {signal.Signals(-status).name}"
        elif status and self.ending == EARLY:
            self.ending = f"the harness ended with status {status}"
