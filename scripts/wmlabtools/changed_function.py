"""The functions that a must-fail edit changes, as the prover names them: `module::function`, `module::Type::function`,
or `module::TypeTrait::function` in an `impl` of a trait."""
import difflib
import glob
import os
import re
from collections.abc import Iterator

from . import TOP, edits

FUNCTION = re.compile(r"(?m)^(?P<indent> {0,4})(?:pub(?:\([a-z]+\))? )?(?:extern .C. )?fn (?P<name>\w+)")
IMPL = re.compile(r"(?m)^impl\b(?P<head>[^{;]*)\{$")
CONSTANT = re.compile(r"(?m)^(?:pub(?:\([a-z]+\))? )?const (\w+)")
# The end of an `impl` or a function at the left edge.
END = re.compile(r"(?m)^\}")


def parts_of(head: str) -> tuple[list[str], list[str]]:
    """The parts of a text outside of < and >, and those between them; the > of an arrow is no bracket."""
    outside, depth = [""], 0
    inside: list[str] = []
    for before, character in zip(" " + head, head):
        if character == "<":
            depth += 1
            if depth == 1:
                inside.append("")
                continue
        elif character == ">" and before != "-":
            depth -= 1
            if depth == 0:
                outside.append("")
                continue
        if depth:
            inside[-1] += character
        else:
            outside[-1] += character
    return outside, inside


def last_name(path: str) -> str:
    return path.strip(" &").split("::")[-1]


def owner_of(head: str) -> str:
    """The prover's name for what an `impl` is of: `Type`, `TypeTrait`, or `TypeTraitArgument`."""
    outside, inside = parts_of(head)
    if head.startswith("<"):
        outside, inside = outside[1:], inside[1:]
    of_trait, is_trait, of_type = "<>".join(outside).split(" where")[0].rpartition(" for ")
    name = last_name(of_type.split("<>")[0])
    if not is_trait:
        return name
    arguments = inside[0] if "<>" in of_trait and not inside[0].startswith("'") else ""
    return name + last_name(of_trait.split("<>")[0]) + last_name(arguments)


def module_of(path: str) -> list[str]:
    parts = path.removeprefix("src/").removesuffix(".rt").split("/")
    return [] if parts in (["lib"], ["main"]) else parts


def sources_of(crate: str) -> dict[str, str]:
    """The sources of a crate, each with its path from `src/` on."""
    files = sorted(glob.glob(f"{TOP}/crates/{crate}/src/**/*.rt", recursive=True))
    return {file[file.index("/src/") + 1 :]: edits.text_of(file) for file in files}


def module_of_type(crate: str, name: str, path: str) -> list[str]:
    """The module that declares a type, or that of this file if none of the crate does."""
    declares = re.compile(rf"(?m)^(?:pub(?:\([a-z]+\))? )?(?:struct|enum) {re.escape(name)}\b")
    declared = [module_of(each) for each, text in sources_of(crate).items() if declares.search(text)]
    return declared[0] if len(declared) == 1 else module_of(path)


def function_at(crate: str, text: str, path: str, offset: int) -> str | None:
    """The function of a file that has this offset in it, or None if there is none."""
    module, start = module_of(path), 0
    owner: list[str] = []
    for found in IMPL.finditer(text, 0, offset):
        end = END.search(text, found.end())
        if not end or end.start() >= offset:
            owner, start = [owner_of(found["head"])], found.end()
            module = module_of_type(crate, owner[0], path)
    indent = "    " if owner else ""
    heads = [each for each in FUNCTION.finditer(text, start, offset) if each["indent"] == indent]
    if not heads or re.search(rf"(?m)^{indent}\}}", text[heads[-1].end() : offset]):
        return None
    return "::".join([*module, *owner, heads[-1]["name"]])


def functions_in(crate: str, text: str, path: str) -> dict[str, int]:
    """The functions of a file's text, each with the offset of its head."""
    heads = {}
    for found in FUNCTION.finditer(text):
        function = function_at(crate, text, path, found.end())
        # A method that a trait declares, or a function within another one, has no name of its own.
        if function and function.split("::")[-1] == found["name"]:
            heads[function] = found.start()
    return heads


def is_of_trait(text: str, offset: int) -> bool:
    """Whether this offset is in an `impl` of a trait."""
    impls = [found for found in IMPL.finditer(text, 0, offset) if not END.search(text, found.end(), offset)]
    return bool(impls) and " for " in impls[-1]["head"]


def functions_that_name(crate: str, word: str) -> list[str]:
    """The functions of a crate that have a word in them."""
    functions = []
    for path, text in sources_of(crate).items():
        for found in re.finditer(rf"\b{word}\b", text):
            functions.append(function_at(crate, text, path, found.start()))
    return [function for function in dict.fromkeys(functions) if function]


def functions_of_file(crate: str, path: str, text: str) -> list[str]:
    """The function in which a file's new text first differs; or if that is a constant, the functions that name it."""
    before, inside = edits.text_of(path), path[path.index("/src/") + 1 :]
    offset = len(os.path.commonprefix([before, text]))
    function = function_at(crate, before, inside, offset)
    if function:
        return [function]
    constants = CONSTANT.findall(before[:offset])
    return functions_that_name(crate, constants[-1]) if constants else []


def changed_functions(edit: str) -> list[str]:
    """The functions that an edit changes, or that name a constant that it changes."""
    crate = edit.split("/")[1]
    changed = edits.applied(edit).items()
    return [function for path, text in changed for function in functions_of_file(crate, path, text)]


def changed_lines(before: str, text: str) -> Iterator[int]:
    """The offsets at which the lines that differ begin, after their indentation."""
    lines = before.split("\n")
    starts = [0]
    for line in lines:
        starts.append(starts[-1] + len(line) + 1)
    matcher = difflib.SequenceMatcher(None, lines, text.split("\n"), autojunk=False)
    for tag, first, last, _, _ in matcher.get_opcodes():
        if tag != "equal":
            for number in range(first, min(max(last, first + 1), len(lines))):
                yield starts[number] + len(lines[number]) - len(lines[number].lstrip())


def bodies_changed(edit: str) -> set[str] | None:
    """The functions whose bodies an edit changes, or None if it changes anything else."""
    crate = edit.split("/")[1]
    functions: set[str] = set()
    for path, text in edits.applied(edit).items():
        before, inside = edits.text_of(path), path[path.index("/src/") + 1 :]
        if re.findall(r"\bfn \w+", before) != re.findall(r"\bfn \w+", text):
            return None
        for offset in changed_lines(before, text):
            function = function_at(crate, before, inside, offset)
            if function is None:
                return None
            functions.add(function)
    return functions
