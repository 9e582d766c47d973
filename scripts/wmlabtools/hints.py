"""What an installed launcher writes beside a program's answers: hints at files and starts, and descriptions of
commands. The launcher of a clone has the same parts."""
import glob
import os
import re
import shutil

from . import TOP, harness

LAUNCHER = ("output", "words", "help", "hints", "stream", "answer")
EXAMPLES = f"{TOP}/examples"
TEXT = "wmlab: MODULE is in the text format. Make a binary one of it: wat2wasm --enable-threads"
SWAPPED = "wmlab: MODULE is a log and DOC is a module. Expected: wmlab"
EXPORTED = "wmlab: exported are, with the types of their arguments:"
NO_LINE = "wmlab: no line is a document. A log has to be on one line: wmlab migrate DOC"
# Words, below the examples, and a line on standard error that they have.
HINTS: tuple[tuple[list[str], str], ...] = (
    (["check", "ring.wat", "store-buffering.json"], f"{TEXT} ring.wat -o ring.wasm"),
    (["explain", "ring.wat", "store-buffering.json"], f"{TEXT} ring.wat -o ring.wasm"),
    (["run", "ring.wat", "1", "a"], f"{TEXT} ring.wat -o ring.wasm"),
    (
        ["run", "floats.wasm", "1", "a"],
        "wmlab: The module can't be decoded at byte 29 of 36. The module uses f32 or f64 in function 0, which isn't"
        " supported. Use i32 or i64.",
    ),
    (["check", "store-buffering.json", "ring.wasm"], f"{SWAPPED} check MODULE DOC"),
    (["witness", "store-buffering.json", "ring.wasm", "7"], f"{SWAPPED} witness MODULE DOC NODES"),
    (["check", "traps.json", "traps.json"], "wmlab: MODULE begins as a log does. Expected: wmlab check MODULE DOC"),
    (["rules", "ring.wasm"], "wmlab: DOC is a module. Expected: wmlab rules DOC"),
    (["migrate", "ring.wat"], "wmlab: DOC is a module. Expected: wmlab migrate DOC"),
    (["run", "store-buffering.wasm", "1", "a", "q"], "wmlab: START 2 is 'q': the module exports nothing of this name"),
    (["run", "ring.wasm", "1", "a\nb"], "wmlab: START 1 is 'a?b': the module exports nothing of this name"),
    (
        ["drive", "spin-lock.wasm", "0", "work"],
        "wmlab: START 1 is 'work': it has 0 arguments, and the function 1 parameter",
    ),
    (
        ["trace", "spin-lock.wasm", "0", "work:1:2"],
        "wmlab: START 1 is 'work:1:2': it has 2 arguments, and the function 1 parameter",
    ),
    (
        ["explore", "spin-lock.wasm", "9", "work:4294967296"],
        "wmlab: START 1 is 'work:4294967296': an argument is above 4294967295, and its parameter is an i32",
    ),
    (["explain", "store-buffering.wasm", "value-not-written.json"], f"{EXPORTED} a, b"),
    (["witnesses", "lock-free-stack.wasm", "9", "pop2", "push2"], f"{EXPORTED} push2:i32, pop2"),
)
# Words of which nothing more is known.
WITHOUT: tuple[list[str], ...] = (
    ["check", "ring.wasm", "-"],
    ["rules", "-"],
    ["explain", "store-buffering.wasm", "value-of-another-module.json"],
)


def installed(folder: str, program: str) -> str:
    """The launcher of a package that has the program."""
    share = f"{folder}/share/wmlab/launcher"
    os.makedirs(f"{folder}/bin")
    os.makedirs(f"{folder}/lib/wmlab")
    shutil.copytree(f"{TOP}/scripts/help", f"{share}/help")
    for name in (*LAUNCHER, "describe.awk", "exports.awk"):
        shutil.copy(f"{TOP}/scripts/launcher/{name if '.' in name else f'{name}.sh'}", share)
    for name in ("help.txt", "version.txt"):
        shutil.copy(f"{TOP}/scripts/{name}", share)
    shutil.copy(f"{TOP}/packaging/wmlab", f"{folder}/bin")
    shutil.copy(program, f"{folder}/lib/wmlab/wmlab")
    return f"{folder}/bin/wmlab"


def check_hints(tally: harness.Tally, launcher: str, program: str) -> None:
    """Refused files and starts: the program's answer, and the hint."""
    for words, line in HINTS:
        out, err, status = harness.run(launcher, words, cwd=EXAMPLES)
        answer = harness.run(program, words, cwd=EXAMPLES)
        is_right = (out, status) == (answer.printed, answer.status) and status and line in err.splitlines()
        tally.check(is_right, f"a hint at {words}", (out, err, status))
    for words in WITHOUT:
        got = harness.run(launcher, words, cwd=EXAMPLES)
        tally.check(not got.errors and got.status in (1, 2), f"no hint at {words}", got)
    with open(f"{EXAMPLES}/store-buffering.json", encoding="utf-8") as file:
        lines = file.read().replace("],", "],\n")
    for given, hint in ((lines, f"{NO_LINE}\n"), (f"{lines}\n{lines.replace(chr(10), '')}\n", "")):
        got = harness.run(launcher, ["stream", "store-buffering.wasm"], cwd=EXAMPLES, input=given.encode())
        tally.check((got[1], got[2]) == (hint, 2), "a document on several lines of a stream", got)


def transcript_of(description: str) -> tuple[list[str], str]:
    """The words of the example of a description, and what the example shows of the answer."""
    lines = re.findall(r"^    (.*)$", description.split("EXAMPLE\n")[1].split("\nEXIT STATUS")[0], re.MULTILINE)
    command = lines[0].removeprefix("$ wmlab ")
    return command.replace("'", "").split(), "".join(f"{line}\n" for line in lines[1:])


def check_descriptions(tally: harness.Tally, launcher: str, program: str) -> None:
    """Each command of the usage has a description. An example that shows an answer is run."""
    with open(f"{TOP}/scripts/help.txt", encoding="utf-8") as file:
        listed = file.read().split("COMMANDS\n")[1].split("\nARGUMENTS")[0]
    commands = re.findall(r"^    ([a-z]+)(.*?)  +[a-z]", listed, re.MULTILINE)
    texts = {os.path.basename(path)[:-4] for path in glob.glob(f"{TOP}/scripts/help/*.txt")}
    tally.check(texts == {name for name, _ in commands}, "each command has a description", texts)
    with open(f"{TOP}/docs/REFERENCE.md", encoding="utf-8") as file:
        page = file.read()
    with open(f"{TOP}/scripts/help/limits", encoding="utf-8") as file:
        unknown = [number for number in re.findall(r"\d[\d,]*", file.read()) if number not in page]
    tally.check(not unknown, "the limits of scripts/help are those of docs/REFERENCE.md", unknown)
    for name, words in commands:
        described, err, status = harness.run(launcher, ["help", name])
        is_right = status == 0 and not err and described.startswith(f"USAGE\n    wmlab {name}{words.rstrip()}\n")
        tally.check(is_right and "\n    3    out of memory" in described, f"help {name}", (described, err, status))
        for asking in ([name, "--help"], [name, "-h"]):
            got = harness.run(launcher, asking)
            tally.check(got == (described, "", 0), f"{asking} is as help {name}", got)
        example, shown = transcript_of(described)
        if shown:
            got = harness.run(program, example, cwd=EXAMPLES)
            is_listed = re.search(rf"^    {got[2]}    ", described, re.MULTILINE)
            tally.check(got[0] == shown and is_listed, f"the example of help {name}", got)
