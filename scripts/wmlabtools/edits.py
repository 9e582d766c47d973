"""The format of the must-fail edits: lines `file: PATH`, `old: TEXT`, `new: TEXT`; each old text is in its file
exactly once, after the changes before it."""
import glob
import os
from collections.abc import Collection, Mapping

from . import TOP


def all_edits(crates: Collection[str] = ()) -> list[str]:
    """The paths of all edits, or of those of some crates, from the top of the repository."""
    found = glob.glob(f"{TOP}/edits/*/*.edit")
    names = sorted(os.path.relpath(path, TOP) for path in found)
    return [name for name in names if not crates or name.split("/")[1] in crates]


def gate_edits() -> dict[str, str]:
    """The edits that the gate tries, as `edits/gate.txt` lists them, CRATE/NAME.edit a line, each with the function on
    which alone it is tried, or nothing."""
    with open(f"{TOP}/edits/gate.txt", encoding="utf-8") as file:
        lines = [line.strip() for line in file if line.strip() and not line.startswith("#")]
    return {f"edits/{name}": function for name, _, function in (line.partition(": ") for line in lines)}


def text_of(path: str) -> str:
    if not os.path.isfile(path):
        return ""
    with open(path, encoding="utf-8") as file:
        return file.read()


def changed_files(
    edit: str, top: str = TOP, path_of_edit: str | None = None, changed_before: Mapping[str, str] | None = None
) -> dict[str, str] | str:
    """The files that an edit changes, each with its new text; or a sentence that says why it cannot be applied. `top`
    is the repository that is changed; `changed_before` has the files that other edits changed, which are kept."""
    crate = os.path.join(top, "crates", os.path.basename(os.path.dirname(edit)))
    texts = {os.path.relpath(path, crate): text for path, text in (changed_before or {}).items()}
    path, old, changes = "", "", 0
    for line in text_of(path_of_edit or os.path.join(top, edit)).split("\n"):
        if line.startswith("file: "):
            path = line.removeprefix("file: ").strip()
            texts.setdefault(path, text_of(os.path.join(crate, path)))
        elif line.startswith("old: "):
            old = line.removeprefix("old: ")
        elif line.startswith("new:"):
            count = texts.get(path, "").count(old)
            if not old or count != 1:
                return f"its old text is in {path} {count} times, not once"
            texts[path] = texts[path].replace(old, line.removeprefix("new:").removeprefix(" "))
            changes += 1
    if not changes:
        return "it changes nothing"
    return {os.path.join(crate, path): text for path, text in texts.items()}


def applied(
    edit: str, top: str = TOP, path_of_edit: str | None = None, changed_before: Mapping[str, str] | None = None
) -> dict[str, str]:
    """The files that an edit changes, which has to be one that can be applied."""
    changed = changed_files(edit, top, path_of_edit, changed_before)
    if isinstance(changed, str):
        raise ValueError(f"{edit}: {changed}")
    return changed
