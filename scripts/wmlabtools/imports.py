"""What the files of the crates import in braces and then don't name. The compiler doesn't report it of a `ghost use`.

A trait that is imported for its methods alone is named nowhere else, so it has an import of its own, without braces.
"""
import glob
import re
from collections.abc import Collection

from . import TOP

# An import: the names in braces, if there are several.
IMPORT = re.compile(
    r"^[ \t]*(?P<public>pub(?:\([a-z]+\))? )?(?:ghost )?use [^{};\n]*(?:\{(?P<names>[^{}]*)\})?;?$", re.MULTILINE
)


def is_named(name: str, text: str, words: Collection[str]) -> bool:
    """Whether a text with these words has a name, or the first part of an operator, as `◌≡◌`."""
    word = name.strip("◌").split("◌")[0]
    if re.fullmatch(r"\w+", word):
        return word in words
    before = r"(?<!\w)" if re.match(r"\w", word) else ""
    after = r"(?!\w)" if re.search(r"\w$", word) else ""
    return re.search(before + re.escape(word) + after, text) is not None


def unused(crate: str) -> list[str]:
    """Each name that a file of a crate imports in braces and doesn't name again, with its file."""
    top = f"{TOP}/crates/{crate}"
    found: list[str] = []
    files = glob.glob("src/**/*.rt", root_dir=top, recursive=True)
    files += glob.glob("specs/**/*.antt", root_dir=top, recursive=True)
    files += glob.glob("proofs/**/*.antt", root_dir=top, recursive=True)
    for path in sorted(files):
        with open(f"{top}/{path}", encoding="utf-8") as file:
            text = file.read()
        rest = IMPORT.sub("", text)
        words = set(re.findall(r"\w+", rest))
        for several in IMPORT.finditer(text):
            if several["names"] is not None and several["public"] is None:
                names = [name.strip().split(" as ")[-1] for name in several["names"].split(",") if name.strip()]
                found += [f"{path}: {name}" for name in names if name != "self" and not is_named(name, rest, words)]
    return found
