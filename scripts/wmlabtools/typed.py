"""What mypy finds in the Python files and tsc in the JavaScript files: one run of each, as pyproject.toml and
tsconfig.json have it. Both answer the faults of each file by its name; those of no file are under an empty name."""
import os
import re
import subprocess
import tempfile
from collections import defaultdict
from collections.abc import Iterable, Sequence

from . import TOP

PACKAGES = ("scripts/wmlabtools", "campaign/wmlabcampaign", "litmus/litmustools")
Faults = dict[str, list[str]]

MYPY_LINE = re.compile(r"(?P<file>[^:]+):(?P<fault>\d+: .*)")
TSC_LINE = re.compile(r"(?P<file>[^(]+)\((?P<fault>\d+,\d+\): .*)")


def faults_in(lines: Iterable[str], form: re.Pattern[str], names: dict[str, str]) -> Faults:
    """The faults of some lines, by the names that files have there."""
    found: Faults = defaultdict(list)
    name = ""
    for line in lines:
        match = form.fullmatch(line)
        name = names.get(match["file"], "") if match else name
        found[name].append(match["fault"] if match and name else line)
    return found


def links(names: Sequence[str], room: str) -> dict[str, str]:
    """The paths by which mypy is given files. It takes modules alone, each name once, and scripts may have no ending,
    and the same name in two folders. So it is given links to them, as `litmus/run.py`."""
    paths = {}
    for name in names:
        if name.startswith(PACKAGES):
            paths[f"{TOP}/{name}"] = name
            continue
        link = f"{room}/{name.removesuffix('.py').replace('-', '_')}.py"
        os.makedirs(os.path.dirname(link), exist_ok=True)
        os.symlink(f"{TOP}/{name}", link)
        paths[link] = name
    return paths


def mypy_faults(names: Sequence[str]) -> Faults:
    """What mypy finds in Python files. What it knows of them is kept, if the clone can be written to."""
    kept = f"{TOP}/.mypy_cache" if os.access(TOP, os.W_OK) else os.devnull
    with tempfile.TemporaryDirectory() as room:
        paths = links(names, room)
        words = ["mypy", "--config-file", f"{TOP}/pyproject.toml", "--cache-dir", kept, "--show-absolute-path"]
        words += ["--explicit-package-bases", "--no-error-summary", "--no-color-output", *paths]
        ran = subprocess.run(words, cwd=room, capture_output=True, text=True, check=False)
    if not ran.returncode:
        return {}
    known = {**{f"{TOP}/{name}": name for name in names}, **paths}
    lines = ran.stdout.splitlines() + ran.stderr.splitlines()
    return faults_in(lines or [f"it ended with status {ran.returncode}"], MYPY_LINE, known)


def tsc_faults(names: Sequence[str]) -> Faults:
    """What tsc finds in JavaScript files, among them that it does not look at one."""
    words = ["tsc", "--project", f"{TOP}/tsconfig.json", "--pretty", "false", "--listFiles"]
    ran = subprocess.run(words, cwd=TOP, capture_output=True, text=True, check=False)
    printed = (ran.stdout + ran.stderr).splitlines()
    files = {line for line in printed if os.path.isabs(line) and os.path.isfile(line)}
    found = faults_in((line for line in printed if line not in files), TSC_LINE, {name: name for name in names})
    for name in names:
        if f"{TOP}/{name}" not in files:
            found[name].append("tsconfig.json does not include it")
    if ran.returncode and not found:
        found[""].append(f"it ended with status {ran.returncode}")
    return found
