"""The program that the workers run, and what else they need."""
import hashlib
import io
import os
import re
import subprocess
import tarfile
import zlib
from collections.abc import Sequence
from dataclasses import dataclass
from pathlib import Path

from . import worker
from .faults import REFUSED, Fault, WrongWords
from .plan import Litmus, Part, Recording, read_file

TOP = Path(__file__).resolve().parents[2]
# Beside an installed campaign, which is in share/wmlab/campaign.
INSTALLED = TOP.parents[1] / "lib/wmlab/wmlab"


def find_program(given: str | None) -> str:
    """The path of the program: the one given, else the one that the launcher names, else the installed one."""
    path: str | Path | None = given
    if not given and (TOP / "wmlab").exists():
        named = subprocess.run([TOP / "wmlab", "--which"], stdout=subprocess.PIPE, text=True, check=False)
        if named.returncode:
            raise Fault("./wmlab --which names no program; name one by --wmlab PROGRAM")
        path = named.stdout.rstrip("\n")
    path = os.path.abspath(path or INSTALLED)
    if not os.path.isfile(path) or not os.access(path, os.X_OK):
        raise Fault(f"{path} is not a program; name one by --wmlab PROGRAM")
    require_stream(path)
    return path


def require_stream(path: str) -> None:
    try:
        helped = subprocess.run([path, "help"], capture_output=True, stdin=subprocess.DEVNULL, check=False)
    except OSError as error:
        raise Fault(f"cannot run {path}: {error.strerror}") from error
    if not re.search(rb"^ *stream MODULE ", helped.stdout, re.MULTILINE):
        raise Fault(f"{path} has no command stream: it is not wmlab, or an older one")


def require_starts(program: str, part: Recording) -> None:
    """Refuses rounds of a module that the program refuses, or whose threads do not start. Words that only the recorder
    takes, such as a negative argument, are left to it."""
    words = [program, "drive", part.module.path, "d0", *part.starts]
    ran = subprocess.run(words, capture_output=True, text=True, stdin=subprocess.DEVNULL, check=False)
    if ran.returncode == REFUSED and not ran.stdout.startswith("refused command "):
        raise WrongWords(f"no rounds of {part.module.path} {' '.join(part.starts)}: {ran.stdout.strip()}")


@dataclass(frozen=True)
class Materials:
    """The files of a worker, packed: `wmlab`, the modules by their checksums, and `engines` if rounds are recorded."""

    name: str
    tar: bytes
    program_digest: str

    @property
    def packed(self) -> worker.Packed:
        return {"name": self.name, "tar": self.tar}


def add_file(tar: tarfile.TarFile, name: str, data: bytes, mode: int = 0o644) -> None:
    entry = tarfile.TarInfo(name)
    entry.size, entry.mode = len(data), mode
    tar.addfile(entry, io.BytesIO(data))


def litmus_files() -> list[Path]:
    """What litmus/run needs beside the engines."""
    folders = ("litmus/litmustools", "litmus/harness", "scripts/wmlabtools")
    found = [path for folder in folders for path in sorted((TOP / folder).iterdir()) if path.is_file()]
    return [TOP / "litmus/run", *found]


def materials(program: str, parts: Sequence[Part]) -> Materials:
    """The name changes with any of the files, and with what a worker does."""
    packed, digest, data = io.BytesIO(), hashlib.sha256(), read_file(program)
    with tarfile.open(fileobj=packed, mode="w") as tar:
        add_file(tar, "wmlab", data, 0o755)
        modules = [part.module for part in parts if not isinstance(part, Litmus)]
        for module in {module.digest: module for module in modules}.values():
            add_file(tar, module.name, module.data)
        has_tests = any(isinstance(part, Litmus) for part in parts)
        for path in litmus_files() if has_tests else ():
            add_file(tar, str(path.relative_to(TOP)), path.read_bytes(), path.stat().st_mode & 0o777)
        if has_tests or any(isinstance(part, Recording) for part in parts):
            for path in sorted((TOP / "engines").rglob("*.mjs")):
                add_file(tar, str(path.relative_to(TOP)), path.read_bytes())
    digest.update(packed.getvalue())
    digest.update(Path(worker.__file__).read_bytes())
    return Materials(digest.hexdigest(), zlib.compress(packed.getvalue(), 1), hashlib.sha256(data).hexdigest())
