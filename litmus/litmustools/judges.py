"""Who answers for candidates: the program's `stream`, one process for a module."""
import subprocess
import tempfile
from typing import Protocol

BATCH = 500


class Failed(Exception):
    """The program did not answer as it should, in a sentence."""


class Judge(Protocol):
    """Who answers for candidates: `wmlab stream`, or for tests the rules as a plain program."""

    def answers(self, lines: list[str]) -> list[str]:
        """The answer to each log."""


class Stream:
    """`wmlab stream` on a module. Used in a `with` statement."""

    def __init__(self, program: str, module: str) -> None:
        self.program, self.module = program, module

    def __enter__(self) -> "Stream":
        self.errors = tempfile.TemporaryFile()
        try:
            process = subprocess.Popen(
                [self.program, "stream", self.module],
                stdin=subprocess.PIPE,
                stdout=subprocess.PIPE,
                stderr=self.errors,
            )
        except OSError as error:
            raise Failed(f"{self.program}: {error.strerror}") from error
        assert process.stdin is not None and process.stdout is not None
        self.process, self.given, self.printed = process, process.stdin, process.stdout
        return self

    def __exit__(self, *_: object) -> None:
        self.given.close()
        self.printed.close()
        self.process.wait()
        self.errors.close()

    def failure(self) -> Failed:
        status = self.process.wait()
        self.errors.seek(0)
        said = self.errors.read(200).decode(errors="replace").strip()
        return Failed(f"{self.program} stream ended with status {status} before it answered: {said}")

    def answers(self, lines: list[str]) -> list[str]:
        """The answer to each line, which is the text of a log. At most a batch is under way, so that neither side
        waits for the other to read."""
        found = []
        for start in range(0, len(lines), BATCH):
            batch = lines[start : start + BATCH]
            try:
                self.given.write(("\n".join(batch) + "\n").encode())
                self.given.flush()
            except BrokenPipeError:
                raise self.failure() from None
            for _ in batch:
                answer = self.printed.readline()
                if not answer.endswith(b"\n"):
                    raise self.failure()
                found.append(answer[:-1].decode())
        return found


def missing_command(program: str) -> str | None:
    """The command that the program does not have, of those that judge."""
    ran = subprocess.run([program, "help"], stdout=subprocess.PIPE, stderr=subprocess.DEVNULL, text=True, check=False)
    usages = {"stream": "stream MODULE", "witness": "witness [MODULE]"}
    return next((name for name, usage in usages.items() if usage not in ran.stdout), None)


def completed(program: str, module: str, document: str) -> str:
    """The log with its steps and ends, as `wmlab complete` prints it."""
    ran = subprocess.run(
        [program, "complete", module, "-"], input=document, stdout=subprocess.PIPE, text=True, check=False
    )
    if ran.returncode:
        raise Failed(f"{program} complete: {ran.stdout.strip()}")
    return ran.stdout.strip()


def graph(program: str, module: str, document: str) -> str:
    """The execution for Graphviz, with what is violated in red."""
    whole = completed(program, module, document)
    ran = subprocess.run([program, "graph", module, "-"], input=whole, stdout=subprocess.PIPE, text=True, check=False)
    if not ran.stdout.startswith("digraph"):
        raise Failed(f"{program} graph: {ran.stdout.strip()}")
    return ran.stdout
