"""Generated files: written, or compared with what is there."""
import argparse
import os
import re
import shutil
import sys
from collections.abc import Mapping

from . import TOP, harness


def words_of(description: str | None) -> argparse.Namespace:
    """The words of a generator: --check compares in place of writing."""
    parser = argparse.ArgumentParser(description=description, formatter_class=argparse.RawDescriptionHelpFormatter)
    parser.add_argument("--check", action="store_true", help="ask whether the files are current, and write nothing")
    return parser.parse_args()


def need(*tools: str) -> None:
    """Ends, with nothing counted, if a tool is missing."""
    missing = [tool for tool in tools if not shutil.which(tool)]
    if missing:
        sys.exit(f"{os.path.basename(sys.argv[0])}: this needs {' and '.join(missing)}; nothing is written or compared")


def without_layout(data: bytes) -> str:
    """Bytes are compared as they are; Rattle files without white space and without a comma before a closing bracket,
    since `rt fmt` lays them out."""
    return re.sub(r",([\])}])", r"\1", re.sub(r"\s+", "", data.decode()))


def is_current(path: str, data: bytes) -> bool:
    try:
        with open(path, "rb") as file:
            found = file.read()
    except OSError:
        return False
    return without_layout(found) == without_layout(data) if path.endswith(".rt") else found == data


def write_or_check(files: Mapping[str, str | bytes], is_check: bool) -> None:
    """Writes the files, whose paths are those from the top of the repository, or compares them and ends with a
    count."""
    tally = harness.Tally()
    for name, text in files.items():
        path, data = os.path.join(TOP, name), text.encode() if isinstance(text, str) else text
        if is_check:
            tally.check(is_current(path, data), f"{name} is not what its generator writes")
        else:
            os.makedirs(os.path.dirname(path), exist_ok=True)
            with open(path, "wb") as file:
                file.write(data)
            print(f"wrote {name}")
    if is_check:
        tally.end()
