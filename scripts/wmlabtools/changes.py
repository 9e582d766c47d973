"""CONTRIBUTING's table of changes against the tree: each row has a probe, a word that stands for what is changed, and
names all files in which the probe is found."""
import fnmatch
import re
import subprocess
from dataclasses import dataclass

from wmlabtools import TOP

PAGE = "CONTRIBUTING.md"
HEADING = "## To change X, touch Y"
# Files that every change touches as the change comes by, and that a row need not name.
EVERYWHERE = ["crates/*/proofs/*", "edits/*", "tests/rows/*", "docs/*", "CHANGELOG.md", "CONTRIBUTING.md"]


@dataclass(frozen=True)
class Row:
    """A row of the table: what is changed, the probe, and the patterns of the files to touch."""

    change: str
    probe: str
    patterns: list[str]


def rows() -> list[Row]:
    """The rows of the table. A cell names files by patterns in backticks, below `crates/` if they begin with `wm_`."""
    with open(f"{TOP}/{PAGE}", encoding="utf-8") as file:
        text = file.read()
    section = text.split(HEADING, 1)[1].split("\n## ", 1)[0]
    found = []
    for line in section.splitlines():
        cells = [cell.strip() for cell in line.strip().strip("|").split(" | ")]
        if len(cells) != 3 or not cells[1].startswith("`"):
            continue
        words = re.findall(r"`([^`]+)`", cells[2])
        patterns = [f"crates/{word}" if word.startswith("wm_") else word for word in words]
        found.append(Row(cells[0], cells[1].strip("`"), patterns))
    return found


def files_with(probe: str) -> list[str]:
    """The files of the repository in which the probe is a word of its own."""
    words = ["git", "grep", "-lwF", "--untracked", "-e", probe]
    ran = subprocess.run(words, cwd=TOP, capture_output=True, text=True, check=False)
    return ran.stdout.splitlines()


def matches(name: str, pattern: str) -> bool:
    """Whether a file is named by a pattern: itself, a folder that it is in, or a file without its ending."""
    return any(fnmatch.fnmatch(name, each) for each in (pattern, f"{pattern}/*", f"{pattern}.*"))


def faults() -> list[str]:
    """What the table leaves out, or names in vain."""
    found = rows()
    if not found:
        return [f"{PAGE} has no rows with probes"]
    lines = []
    for row in found:
        files = files_with(row.probe)
        if not files:
            lines.append(f"{row.change}: {row.probe} is found nowhere")
        named = row.patterns + EVERYWHERE
        for name in files:
            if not any(matches(name, pattern) for pattern in named):
                lines.append(f"{row.change}: {name} has {row.probe}, and the row doesn't name it")
        tree = subprocess.run(["git", "ls-files"], cwd=TOP, capture_output=True, text=True, check=True)
        for pattern in row.patterns:
            if not any(matches(name, pattern) for name in tree.stdout.splitlines()):
                lines.append(f"{row.change}: {pattern} is no file")
    return lines
