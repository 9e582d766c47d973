#!/usr/bin/env python3
"""Assembles the modules whose text is beside them, NAME.wat to NAME.wasm, in the examples and the recorders, by wabt's
wat2wasm. A text that is not valid begins with a comment that says so, with the word --no-check.

    scripts/assemble.py [--check]        it needs wat2wasm (Debian's wabt)

--check asks whether the modules are current, and writes nothing. The last line is `N passed, N failed`.
"""
import glob
import os

from wmlabtools import TOP, generated, wabt

FOLDERS = ("examples", "engines/testing", "engines/lowering/programs")


def assembled(path: str) -> bytes:
    """The bytes of the module that a file has the text of."""
    with open(path, encoding="utf-8") as file:
        text = file.read()
    unchecked = ["--no-check"] if "--no-check" in text.partition("\n")[0] else []
    return wabt.assembled(text, *unchecked)


def main() -> None:
    options = generated.words_of(__doc__)
    generated.need("wat2wasm")
    texts = [path for folder in FOLDERS for path in sorted(glob.glob(f"{TOP}/{folder}/*.wat"))]
    modules = {os.path.relpath(path, TOP).removesuffix(".wat") + ".wasm": assembled(path) for path in texts}
    generated.write_or_check(modules, options.check)


if __name__ == "__main__":
    main()
