"""Copies of the program with bugs that are planted in it, built without proof. Each bug has a switch or is alone."""
import os
import shutil
import subprocess
from collections.abc import Collection

from . import TOP, edits

# An edit of the gate has this word as the condition of its bug: whether its switch is on. It becomes `true` if the bug
# is built alone.
SWITCH = "IS_PLANTED"
# The crate that has the number of the bug whose switch is on; and the number for none. In the program's bytes it is
# found once, and a copy of the program has another number there.
SWITCHES = "wm_access"
NONE_IS_ON = 0x5D8E_F1C3_97A2_64B9


def copy_sources(folder: str) -> None:
    """Copies to a folder what a quick build reads."""
    for name in ("crates.txt", "HANDLES", "wmlab"):
        shutil.copy(f"{TOP}/{name}", folder)
    for name in ("crates", "examples", "scripts"):
        shutil.copytree(f"{TOP}/{name}", f"{folder}/{name}", ignore=shutil.ignore_patterns("out", "__pycache__"))


def plant(edit: str, folder: str, is_on: str) -> None:
    """Applies a planted bug to the copy, with a condition as its switch."""
    switched = f"{folder}/{os.path.basename(edit)}"
    with open(switched, "w", encoding="utf-8") as file:
        file.write(edits.text_of(f"{TOP}/{edit}").replace(SWITCH, is_on))
    for path, text in edits.applied(edit, folder, switched).items():
        with open(path, "w", encoding="utf-8") as file:
            file.write(text)


def quick_program(folder: str, niceness: int) -> str | None:
    """The program of the copy, or nothing if it is not built."""
    words = ["nice", "-n", str(niceness), f"{folder}/wmlab", "--which"]
    ran = subprocess.run(words, stdout=subprocess.PIPE, text=True, check=False)
    return ran.stdout.strip() if ran.returncode == 0 else None


def built(edit: str, folder: str, niceness: int = 0) -> str | None:
    """The program of a copy with the edit alone, or nothing if it is not built."""
    copy_sources(folder)
    plant(edit, folder, "true")
    return quick_program(folder, niceness)


def let_use_switches(folder: str, crates: Collection[str]) -> None:
    """Has these crates of the copy use the crate of the switches, if they don't."""
    with open(f"{folder}/crates.txt", encoding="utf-8") as file:
        lines = file.read().splitlines()
    with open(f"{folder}/crates.txt", "w", encoding="utf-8") as file:
        for line in lines:
            head, _, used = line.partition(":")
            is_meant = head.split(" ")[0] in crates and SWITCHES not in used.split()
            file.write(f"{line} {SWITCHES}\n" if is_meant else f"{line}\n")


def add_switch(folder: str) -> None:
    """Adds the number of the bug whose switch is on to the copy."""
    with open(f"{folder}/crates/{SWITCHES}/src/lib.rt", "a", encoding="utf-8") as file:
        file.write(f"\n/// Which planted bug is on.\npub fn planted_bug() -> u64 {{\n    {NONE_IS_ON}\n}}\n")


def copy_with(program: bytes, number: int, folder: str) -> str:
    """A copy of the program in which this bug is on, or none is on if it is `NONE_IS_ON`."""
    path = f"{folder}/planted-{number}"
    with open(path, "wb") as file:
        file.write(program.replace(NONE_IS_ON.to_bytes(8, "little"), number.to_bytes(8, "little")))
    os.chmod(path, 0o755)
    return path
