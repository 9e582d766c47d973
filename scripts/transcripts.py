#!/usr/bin/env python3
"""Runs the transcripts of the pages: each line `$ COMMAND` of a block of code, in a copy of the files of this clone,
and compares what it prints and its status. Each page has a copy of its own, so its commands may use what earlier ones
of the page wrote. `scripts/wmlabtools/transcripts.py` lists the comments by which a page marks what varies and what is
not run. The last line is `N passed, N failed`; a page of which no command was run has failed.

    scripts/transcripts.py                         all pages
    scripts/transcripts.py README.md docs/LAWS.md  these
"""
import difflib
import os
import shutil
import signal
import subprocess
import sys
import tempfile
import threading
import time
from collections.abc import Mapping, Sequence
from typing import NamedTuple, NoReturn

from wmlabtools import TOP, harness, transcripts
from wmlabtools.transcripts import Block, Transcript

SECONDS = 300
# How long what a command left running has to end by itself, after Ctrl-C or SIGTERM.
SECONDS_TO_END = 3
# Held while files are copied or a process starts: a process that has not come to its own program yet has each file open
# that is being written, and a file that is open for writing cannot be run.
STARTING = threading.Lock()


def files_of_clone(*patterns: str) -> list[str]:
    """The files of the repository, also those that are not committed yet."""
    words = ["git", "ls-files", "-z", "--cached", "--others", "--exclude-standard", *patterns]
    ran = subprocess.run(words, cwd=TOP, capture_output=True, text=True, check=True)
    return sorted(name for name in ran.stdout.split("\0") if name and os.path.lexists(f"{TOP}/{name}"))


def copy_clone(folder: str, program: str) -> None:
    """Copies the clone's files, and the program to where the launcher looks for the proved one: it is the newest
    file, so that the launcher takes it."""
    with STARTING:
        for name in files_of_clone():
            os.makedirs(os.path.dirname(f"{folder}/{name}"), exist_ok=True)
            shutil.copy2(f"{TOP}/{name}", f"{folder}/{name}", follow_symlinks=False)
        os.makedirs(f"{folder}/.built")
        shutil.copy(program, f"{folder}/.built/wmlab")


class Ran(NamedTuple):
    """What a command printed on both streams, without empty lines, and its status."""

    lines: list[str]
    status: int


class Running:
    """The commands that run, each with the group of its processes, and whether the script is being stopped."""

    def __init__(self) -> None:
        self.groups: set[int] = set()
        self.is_stopped = False

    def end(self, group: int, sign: int = signal.SIGKILL) -> None:
        try:
            os.killpg(group, sign)
        except ProcessLookupError:
            pass

    def stop(self, *_: object) -> NoReturn:
        """What Ctrl-C and SIGTERM do: the commands hear of it, as in a terminal, and no further one is run."""
        self.is_stopped = True
        for group in list(self.groups):
            self.end(group, signal.SIGINT)
        raise KeyboardInterrupt

    def seconds_left(self, start: float) -> float:
        """How long a command that was started then may run, as far as is known now."""
        return SECONDS_TO_END if self.is_stopped else start + SECONDS - time.monotonic()


RUNNING = Running()


def output_of(started: subprocess.Popen[bytes]) -> bytes | None:
    """What a command prints until it ends; None if it does not end in time."""
    start = time.monotonic()
    while (left := RUNNING.seconds_left(start)) > 0:
        try:
            return started.communicate(timeout=min(left, SECONDS_TO_END))[0]
        except subprocess.TimeoutExpired:
            if RUNNING.is_stopped:
                return None
    return None


def start(command: str, folder: str, home: str) -> subprocess.Popen[bytes]:
    environment = {**os.environ, "HOME": home, "XDG_CACHE_HOME": f"{home}/.cache", "LC_ALL": "C.UTF-8"}
    with STARTING:
        return subprocess.Popen(
            ["bash", "-c", command],
            cwd=folder,
            env=environment,
            start_new_session=True,
            stdin=subprocess.DEVNULL,
            stdout=subprocess.PIPE,
            stderr=subprocess.STDOUT,
        )


def run(command: str, folder: str, home: str) -> Ran | None:
    """What came of a command; None if it did not end in time."""
    with start(command, folder, home) as started:
        RUNNING.groups.add(started.pid)
        try:
            out = output_of(started)
        finally:
            RUNNING.groups.discard(started.pid)
            # What the command left running would write into a folder that is removed.
            RUNNING.end(started.pid)
    if out is None:
        return None
    lines = out.decode(errors="backslashreplace").split("\n")
    return Ran([line for line in lines if line], started.returncode)


def fault_of(transcript: Transcript, folder: str, home: str) -> str:
    """What differs from the page, as text; nothing if it agrees."""
    ran = run(transcript.command, folder, home)
    if ran is None:
        return f"it did not end in {SECONDS} s"
    shown, status = transcript.lines(), transcript.status()
    if ran.status == status and transcripts.fits(shown, ran.lines, "counts vary" in transcript.marks):
        return ""
    page, came = [*shown, f"[{status}]"], [*ran.lines, f"[{ran.status}]"]
    return "\n" + "\n".join(difflib.unified_diff(page, came, "page", "came", lineterm=""))


def why_left_out(marks: Mapping[str, str]) -> str:
    """The reason why the commands of a block are not run; nothing if they are."""
    if "not run" in marks:
        return marks["not run"] or "no reason is given"
    missing = [tool for tool in marks.get("needs", "").split() if not shutil.which(tool)]
    return f"{' '.join(missing)} is not there" if missing else ""


class Fault(NamedTuple):
    """A command of a page that was run, and what differs from the page; nothing if it agrees."""

    place: str
    difference: str


class Page:
    """A page with what came of its transcripts, in their order."""

    def __init__(self, name: str) -> None:
        self.name = name
        with open(f"{TOP}/{name}", encoding="utf-8") as file:
            self.blocks = list(transcripts.blocks_of(file.read()))
        self.count = sum(len(transcripts.transcripts_of(block)) for block in self.blocks)
        self.left_out: list[str] = []
        self.tried: list[Fault] = []

    def try_all(self, program: str) -> "Page":
        with tempfile.TemporaryDirectory(prefix="wmlab-page-") as room:
            folder, home = f"{room}/wmlab", f"{room}/home"
            os.makedirs(home)
            copy_clone(folder, program)
            for block in self.blocks:
                self.try_block(block, folder, home)
        return self

    def try_block(self, block: Block, folder: str, home: str) -> None:
        if "file" in block.marks:
            with open(f"{folder}/{block.marks['file']}", "w", encoding="utf-8") as file:
                file.write("\n".join(transcripts.without_empty_end(block.lines)) + "\n")
            return
        reason = why_left_out(block.marks)
        for transcript in transcripts.transcripts_of(block):
            if RUNNING.is_stopped:
                return
            place = f"{self.name}:{transcript.line}: $ {transcript.command}"
            if reason:
                self.left_out.append(f"{place}\n  not run: {reason}")
            else:
                self.tried.append(Fault(place, fault_of(transcript, folder, home)))


def pages_of(names: Sequence[str]) -> list[Page]:
    """The pages of these names, or all that have a transcript."""
    known = files_of_clone("*.md")
    for name in names:
        if name not in known:
            sys.exit(f"{name} is not a page of this clone; they are {', '.join(known)}")
    pages = [Page(name) for name in names or known]
    return [page for page in pages if page.count or names]


def main() -> None:
    parser = harness.arguments(__doc__)
    parser.add_argument("names", nargs="*", metavar="PAGE", help="a page, by its path from the top of the clone")
    options = parser.parse_args()
    program, tally = harness.program_of(options), harness.Tally()
    for page in harness.at_once(lambda page: page.try_all(program), pages_of(options.names)):
        for fault in page.tried:
            tally.check(not fault.difference, fault.place, fault.difference)
        for line in page.left_out:
            print(line)
        if not page.tried:
            tally.check(False, f"{page.name}: none of its {page.count} transcripts was run")
    tally.end()


if __name__ == "__main__":
    harness.run_script(main, RUNNING.stop)
