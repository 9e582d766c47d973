"""Names and paths that a page cites in `code`: each has to be one of the crates' definitions and sources, or there."""
import os
import re
from collections.abc import Collection, Iterator

from . import TOP

# Pages that speak of the crates alone, and pages that speak of scripts and recorders too.
OF_CRATES = ("docs/dev/CONTRACTS.md", "docs/DEFINITIONS.md", "docs/MODEL.md")
OF_ALL = ("docs/dev/ARCHITECTURE.md", "docs/dev/DECISIONS.md")
# Words of the toolchain, of other tools and of papers, and the beginnings of names.
ELSEWHERE = {"Activation", "MAX_", "Serialize", "e400", "find_map", "plant", "rf_k", "tot", "wm_"}
WORD = re.compile(r"[A-Za-z_][A-Za-z0-9_]*")
CODE = re.compile(r"`([^`\n]+)`")
CODE_IN_FILE = re.compile(r"`([^`\n]+)` in `([^`\n]+)`")
COMMENTS = {".rt": r"//.*", ".antt": r"--.*", ".py": r"#.*", ".sh": r"#.*"}


def files_below(folder: str) -> Iterator[str]:
    for below, folders, names in os.walk(f"{TOP}/{folder}"):
        folders[:] = [name for name in folders if name not in ("out", "target", "node_modules", "__pycache__")]
        yield from (os.path.join(below, name) for name in names)


def words_of(path: str) -> set[str]:
    """The words of a file, without those of its comments."""
    try:
        with open(path, encoding="utf-8") as file:
            text = file.read()
    except UnicodeDecodeError:
        return set()
    comment = COMMENTS.get(os.path.splitext(path)[1])
    return set(WORD.findall(re.sub(comment, "", text) if comment else text))


def words_below(*folders: str, endings: tuple[str, ...] | None = None) -> set[str]:
    """The words of the files below these folders, and of their names."""
    words: set[str] = set()
    for folder in folders:
        for path in files_below(folder):
            words |= set(WORD.findall(os.path.relpath(path, TOP)))
            if endings is None or path.endswith(endings):
                words |= words_of(path)
    return words


def known_words() -> tuple[set[str], set[str]]:
    """The words of the crates; and those with the words of everything else that a page may speak of."""
    crates = words_below("crates", "docs", "examples", endings=(".rt", ".antt")) | words_of(f"{TOP}/crates.txt")
    crates |= ELSEWHERE | words_of(f"{TOP}/HANDLES") | set(WORD.findall(" ".join(os.listdir(TOP))))
    crates |= words_of(f"{TOP}/litmus/verdicts.txt")
    tools = ("scripts", "bench", "campaign", "engines", "library", "litmus", ".ci", "tests", "edits", "types")
    endings = (".py", ".sh", ".mjs", ".d.ts", ".rs", ".c", ".h", ".txt", "run", "fast")
    return crates, crates | words_below(*tools, endings=endings)


def path_of(cited: str) -> str | None:
    """The file or folder that a cited path names: from the top or from crates/, with or without the ending of a
    definition or a source; None if there is none."""
    for folder in (TOP, f"{TOP}/crates"):
        for ending in ("", ".antt", ".rt"):
            path = os.path.join(folder, cited.rstrip("/") + ending)
            if os.path.exists(path):
                return path
    return None


def is_path(code: str) -> bool:
    return re.fullmatch(r"(wm\w*|crates|scripts|docs|bench|edits|tests)(/[\w.-]+)+/?", code) is not None


def faults_of_line(line: str, known: Collection[str]) -> Iterator[str]:
    """What a line cites that is not there."""
    for code in CODE.findall(line):
        missing = [word for word in WORD.findall(code) if word not in known]
        if is_path(code):
            if not path_of(code):
                yield f"there is no {code}"
        elif missing:
            yield f"nothing is called {', '.join(missing)}: `{code}`"
    for code, cited in CODE_IN_FILE.findall(line):
        path = path_of(cited)
        if path and os.path.isfile(path):
            absent = [word for word in WORD.findall(code) if word not in words_of(path)]
            if absent:
                yield f"{cited} has no {', '.join(absent)}"


def faults_of(page: str, known: Collection[str]) -> Iterator[str]:
    """What a page cites that is not there, outside of its blocks of code."""
    with open(f"{TOP}/{page}", encoding="utf-8") as file:
        lines = file.read().split("\n")
    is_block = False
    for number, line in enumerate(lines, 1):
        is_block ^= line.startswith("```")
        if not is_block:
            yield from (f"line {number}: {fault}" for fault in faults_of_line(line, known))


def faults() -> dict[str, list[str]]:
    """Each page with what it cites that is not there."""
    crates, everything = known_words()
    return {page: list(faults_of(page, crates if page in OF_CRATES else everything)) for page in OF_CRATES + OF_ALL}
