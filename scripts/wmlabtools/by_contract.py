"""Taking the functions of a copied crate by their contracts: a function loses its body, and its proof becomes a hole,
as `rattle check --allow-holes` passes it. So what it calls need not be proved."""
import glob
import os
import re
import shutil
from collections.abc import Collection, Mapping

from . import changed_function

# The files of a function's proof, which is in a folder of its own.
FILES = ("Invariants.antt", "Answers.antt", "Proof.antt")
HOLE = """use Rattle.{crate}.proofs.{path}.Statement.{{statement}}

pub {name}_spec : {{M : Type 1}} → statement M
{name}_spec = ?
"""


def folders_of_proofs(top: str) -> list[str]:
    """The folders of functions, from the crate's own, that have files of a proof."""
    paths = [path for name in FILES for path in glob.glob(f"{top}/proofs/**/{name}", recursive=True)]
    return sorted({os.path.relpath(os.path.dirname(path), top) for path in paths})


def function_of_folder(folder: str) -> str:
    return folder.removeprefix("proofs/").replace("/", "::")


def without_body(text: str, head: int) -> str | None:
    """A text in which the function whose head begins at this offset has no body, as `rt fmt` lays it out; or None, if
    it does not end as expected."""
    rest = text[head:]
    indent = " " * (len(rest) - len(rest.lstrip(" ")))
    lines = rest.split("\n")
    if "{" in lines[0][:-1]:
        return None
    begins = [number for number, line in enumerate(lines) if line == f"{indent}{{" or is_head(line)]
    ends = [number for number, line in enumerate(lines) if line == f"{indent}}}" and begins and number > begins[0]]
    if not ends:
        return None
    kept = [*lines[: begins[0] + 1], f"{indent}    unreachable!()", *lines[ends[0] :]]
    return text[:head] + "\n".join(kept)


def is_head(line: str) -> bool:
    """Whether a line ends a function's head that has no clauses."""
    return line.endswith(" {") and not re.match(r" *(ensures|requires|ghost)\b", line)


def owner_of(function: str) -> str:
    """The function that a closure is written in, as `a::f` of `a::fn::f::map`; or the function, if it is no closure."""
    module, is_closure, path = function.partition("::fn::")
    return f"{module}::{path.rpartition('::')[0]}" if is_closure else function


class ByContract:
    """A copied crate whose functions are taken by their contracts, but for some."""

    def __init__(self, crate: str, original: str, room: str) -> None:
        self.crate, self.original, self.room = crate, original, room
        folders = folders_of_proofs(original)
        # Functions that call one another have one proof, in a folder whose name begins with a +. They are left.
        self.cycles = {function_of_folder(os.path.dirname(folder)) for folder in folders if "+" in folder}
        self.folders = {function_of_folder(folder): folder for folder in folders if "+" not in folder}
        self.functions: set[str] = set()
        for path, text in changed_function.sources_of(crate).items():
            self.functions.update(changed_function.functions_in(crate, text, path))

    def leave(self, functions: Collection[str], changed: Mapping[str, str]) -> None:
        """Leaves these functions as they are, over the changed texts of some files of the original; each other one is
        taken by its contract."""
        for function, folder in self.folders.items():
            if owner_of(function) in functions:
                self.give_proof(folder)
                continue
            self.take_proof(folder)
            if owner_of(function) == function:
                self.leave_hole(function)
        for path, text in {**changed_function.sources_of(self.crate), **changed}.items():
            with open(f"{self.room}/{path}", "w", encoding="utf-8") as file:
                file.write(self.without_bodies(functions, path, text))

    def without_bodies(self, functions: Collection[str], path: str, text: str) -> str:
        """The text of a file in which other functions than these have no bodies, and holes as their proofs. What an
        edit adds is left."""
        heads = changed_function.functions_in(self.crate, text, path)
        for function, head in sorted(heads.items(), key=lambda each: -each[1]):
            if function in functions:
                self.take_hole(function)
                continue
            is_known = function in self.functions and not self.is_unnamed(function, text, head)
            shorter = without_body(text, head) if is_known and not self.may_be_in_cycle(function) else None
            if shorter:
                text = shorter
                self.leave_hole(function)
        return text

    def may_be_in_cycle(self, function: str) -> bool:
        return function not in self.folders and function.rpartition("::")[0] in self.cycles

    def is_unnamed(self, function: str, text: str, head: int) -> bool:
        """Whether a function's name is not certain: a trait with arguments has them in the name."""
        return function not in self.folders and changed_function.is_of_trait(text, head)

    def give_proof(self, folder: str) -> None:
        for name in FILES:
            if os.path.isfile(f"{self.original}/{folder}/{name}"):
                shutil.copy(f"{self.original}/{folder}/{name}", f"{self.room}/{folder}")
            elif os.path.isfile(f"{self.room}/{folder}/{name}"):
                os.remove(f"{self.room}/{folder}/{name}")

    def take_proof(self, folder: str) -> None:
        for name in FILES:
            if os.path.isfile(f"{self.room}/{folder}/{name}"):
                os.remove(f"{self.room}/{folder}/{name}")

    def hole_of(self, function: str) -> str:
        return f"{self.room}/proofs/{function.replace('::', '/')}/Proof.antt"

    def leave_hole(self, function: str) -> None:
        hole = HOLE.format(crate=self.crate, path=function.replace("::", "."), name=function.split("::")[-1])
        os.makedirs(os.path.dirname(self.hole_of(function)), exist_ok=True)
        with open(self.hole_of(function), "w", encoding="utf-8") as file:
            file.write(hole)

    def take_hole(self, function: str) -> None:
        """Takes the hole of a function away that has no files of a proof."""
        if function not in self.folders and os.path.isfile(self.hole_of(function)):
            os.remove(self.hole_of(function))
