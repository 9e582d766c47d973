#!/usr/bin/env python3
"""Lints the scripts: Python with pyflakes and mypy, JavaScript with tsc, shell with shellcheck; a line of Python or
shell has at most 120 columns. Lints the crates and pages: a line of a clause has at most 140 characters, each name that
a page on the crates cites is one of theirs, each library that crates.txt lists is named by its crate, each name that a
file imports in braces by that file, and a paragraph of a page has at most 60 words and a table cell 40. A page has
at most the words of `scripts/wmlabtools/lengths.py`. The last line is `N passed, N failed`.

    scripts/lint.py        it needs Debian's pyflakes3, mypy, node-typescript and shellcheck; what is missing is named
                           and not counted
"""
import argparse
import json
import os
import shutil
import subprocess
import tomllib
from collections.abc import Callable, Sequence

from wmlabtools import TOP, changes, cited, clauses, harness, imports, lengths, paragraphs, prover, typed

COLUMNS = 120
ENDINGS = {".py": "python", ".sh": "sh", ".mjs": "js"}
STARTS_NODE = b"':' //;"


def tracked() -> list[str]:
    """The files of the repository, also those that are not committed yet; during a merge git lists some thrice."""
    words = ["git", "ls-files", "-z", "--cached", "--others", "--exclude-standard"]
    ran = subprocess.run(words, cwd=TOP, capture_output=True, text=True, check=True)
    return sorted({name for name in ran.stdout.split("\0") if name and os.path.isfile(f"{TOP}/{name}")})


def language_of(name: str) -> str | None:
    """`python`, `sh`, `js` or nothing, by the ending or the first lines. A command in JavaScript begins as a script for
    sh that starts node."""
    ending = os.path.splitext(name)[1]
    if ending in ENDINGS:
        return ENDINGS[ending]
    if "." in os.path.basename(name).lstrip("."):
        return None
    with open(f"{TOP}/{name}", "rb") as file:
        first, second = file.readline(80), file.readline(80)
    if not first.startswith(b"#!") or second.startswith(STARTS_NODE):
        return None
    return "python" if b"python" in first else "sh" if b"sh" in first else None


def long_lines(name: str) -> list[int]:
    with open(f"{TOP}/{name}", encoding="utf-8") as file:
        return [number for number, line in enumerate(file, 1) if len(line.rstrip("\n")) > COLUMNS]


def faults_of_each(tool: Sequence[str], names: Sequence[str]) -> typed.Faults:
    """What a tool finds that takes a file, by a run for each, as many at the same time as there are processors."""

    def linted(name: str) -> subprocess.CompletedProcess[str]:
        words = [*tool, name]
        return subprocess.run(
            words, cwd=TOP, stdout=subprocess.PIPE, stderr=subprocess.STDOUT, text=True, check=False
        )

    runs = zip(names, harness.at_once(linted, names))
    return {name: ran.stdout.splitlines() or ["it failed"] for name, ran in runs if ran.returncode}


TOOLS: tuple[tuple[str, str, Callable[[Sequence[str]], typed.Faults]], ...] = (
    ("pyflakes3", "python", lambda names: faults_of_each(["pyflakes3"], names)),
    ("mypy", "python", typed.mypy_faults),
    ("shellcheck", "sh", lambda names: faults_of_each(["shellcheck", "-x"], names)),
    ("tsc", "js", typed.tsc_faults),
)


def lint_scripts(tally: harness.Tally) -> None:
    """Each file by the tools of its language. What a tool finds outside of the files is a fault too."""
    languages = {name: language_of(name) for name in tracked()}
    for tool, language, faults_of in TOOLS:
        names = [name for name, found in languages.items() if found == language]
        if not shutil.which(tool):
            print(f"{tool} is not there: {len(names)} files are not looked at by it")
            continue
        faults = faults_of(names)
        for name in names:
            tally.check(not faults.get(name), f"{tool} {name}", "\n".join(faults.get(name, [])))
        tally.check(not faults.get(""), tool, "\n".join(faults.get("", [])))
    for name in languages:
        if languages[name] in ("python", "sh"):
            wide = long_lines(name)
            tally.check(not wide, f"{name} has lines of more than {COLUMNS} columns", wide)


def lint_crates(tally: harness.Tally) -> None:
    count, wide = clauses.wide_lines()
    tally.check(count > 0, "the crates have clauses")
    tally.check(not wide, f"clauses have lines of more than {clauses.COLUMNS} characters", "\n".join(wide))
    for page, faults in cited.faults().items():
        tally.check(not faults, f"{page} cites what is not there", "\n".join(faults))
    for crate, used in prover.dependencies().items():
        named = cited.words_below(f"crates/{crate}", endings=(".rt", ".antt"))
        unnamed = [library for library in used if library not in named]
        tally.check(not unnamed, f"crates.txt lists for {crate} what it doesn't name", " ".join(unnamed))
        unused = imports.unused(crate)
        tally.check(not unused, f"{crate} imports what it doesn't name", "\n".join(unused))


def lint_changes(tally: harness.Tally) -> None:
    lines = changes.faults()
    tally.check(not lines, f"{changes.PAGE} has a table that is not complete", "\n".join(lines))


def lint_pages(tally: harness.Tally, names: Sequence[str]) -> None:
    for name in names:
        long_ones = paragraphs.long_ones(name)
        tally.check(not long_ones, f"{name} has paragraphs or cells that are too long", "\n".join(long_ones))
    too_long = list(lengths.faults(names))
    tally.check(not too_long, "pages have more words than they may", "\n".join(too_long))


def lint_links(tally: harness.Tally) -> None:
    """The prover takes no copy of a repository that has a symbolic link."""
    links = [name for name in tracked() if os.path.islink(f"{TOP}/{name}")]
    tally.check(not links, "the repository has symbolic links", " ".join(links))


def lint_versions(tally: harness.Tally) -> None:
    """The packages have the version of the program."""
    with open(f"{TOP}/scripts/version.txt", encoding="utf-8") as file:
        version = file.readline().split()[1]
    with open(f"{TOP}/pyproject.toml", "rb") as file:
        found = {"pyproject.toml": tomllib.load(file)["project"]["version"]}
    with open(f"{TOP}/package.json", "rb") as file:
        found["package.json"] = json.load(file)["version"]
    for name, other in found.items():
        tally.check(other == version, f"{name} has the version of scripts/version.txt, {version}", other)


def main() -> None:
    layout = argparse.RawDescriptionHelpFormatter
    argparse.ArgumentParser(description=__doc__, formatter_class=layout).parse_args()
    tally = harness.Tally()
    lint_crates(tally)
    lint_changes(tally)
    lint_versions(tally)
    lint_links(tally)
    lint_pages(tally, [name for name in tracked() if name.endswith(".md")])
    lint_scripts(tally)
    tally.end()


if __name__ == "__main__":
    harness.run_script(main)
