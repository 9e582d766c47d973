"""The prover on one crate, over the libraries that `rt ci` left in crates/*/out/rlib."""
import os
import shutil
import sys
from collections.abc import Mapping, Sequence

from . import TOP


def dependencies() -> dict[str, list[str]]:
    """The libraries that each crate uses, as crates.txt has them."""
    found = {}
    with open(f"{TOP}/crates.txt", encoding="utf-8") as file:
        for line in file:
            if ":" in line and not line.startswith("#"):
                name, used = line.split(":", 1)
                found[name.split()[0]] = used.split()
    return found


def below(crate: str, used: Mapping[str, Sequence[str]]) -> list[str]:
    """The crates that a crate uses, directly or not, each once."""
    found: list[str] = []
    for name in used[crate]:
        for each in [*(below(name, used) if name in used else []), name]:
            if each in used and each not in found:
                found.append(each)
    return found


def kit() -> str:
    """The folder of the toolchain."""
    command = shutil.which("rt")
    if not command:
        sys.exit("this needs the Rattle toolchain (the command rt)")
    return os.path.dirname(os.path.dirname(os.path.realpath(command)))


def check_words(crate: str, *more: str) -> list[str]:
    """The command that checks a crate in its folder."""
    used, place = dependencies(), kit()
    if crate not in used:
        sys.exit(f"crates.txt has no crate {crate}")
    stands_on = below(crate, used)
    rlib = {name: f"{TOP}/crates/{name}/out/rlib" for name in stands_on}
    missing = [name for name, path in rlib.items() if not os.path.isdir(path)]
    if missing:
        sys.exit(f"{' '.join(missing)}: no library there; run `rt ci` first, or `rt lib` in crates/{crate}")
    root = "src/main.rt" if os.path.isfile(f"{TOP}/crates/{crate}/src/main.rt") else "src/lib.rt"
    words = [f"{place}/bin/rattle", "check", "--crate-name", crate, root]
    words += ["--extern", f"std={place}/rlibs/std.rlib", "-L", f"dependency={place}/rlibs"]
    for name in used[crate]:
        path = f"{rlib[name]}/{name}.rlib" if name in rlib else f"{place}/rlibs/{name}.rlib"
        words += ["--extern", f"{name}={path}"]
    for path in rlib.values():
        words += ["-L", f"dependency={path}"]
    words += ["--antt-project", f"{place}/rattle/logic/antt-project.json", "--logic-built", f"{place}/logic_built"]
    return [*words, "--links", f"{crate}=", "--jobs", "1", *more]
