#!/usr/bin/env python3
"""Tests the library for C: builds it, and compares its answers with those of `wmlab verify` on the examples, from C
under the address sanitizer on one thread and on four, from Python, and in a harness for a fuzzer.

    library/test.py [--wmlab PATH]

It needs rt, a C compiler (CC, or cc), and the proved crates below crates/wm_library, as `rt ci` leaves them. The last
line is `N passed, N failed`.
"""
import glob
import os
import shutil
import signal
import subprocess
import sys
import tempfile

sys.path.insert(0, os.path.join(os.path.dirname(os.path.abspath(__file__)), "../scripts"))

from wmlabtools import TOP, harness, wasm

OPTIONS = harness.arguments(__doc__).parse_args()
WMLAB = harness.program_of(OPTIONS)
TALLY = harness.Tally()
COMPILER = os.environ.get("CC", "cc")
LOGS = sorted(glob.glob(f"{TOP}/examples/*.json"))
MODULES = [f"{TOP}/examples/{name}.wasm" for name in ("store-buffering", "every-trap", "floats", "mixed-widths")]


def run(*words, timeout=300, **options):
    """The lines that a command prints, and its status."""
    ran = subprocess.run(words, check=False, capture_output=True, text=True, timeout=timeout, **options)
    return ran.stdout.splitlines(), ran.stderr, ran.returncode


def wanted(module):
    """The status and the line of `wmlab verify` for each log."""
    lines = []
    for log in LOGS:
        printed, _, status = harness.run(WMLAB, ["verify", module, log])
        lines.append(f"{status} {printed.rstrip()}")
    return lines


def compile_test(room):
    """The test in C, under the address sanitizer."""
    program = f"{room}/test"
    command = [COMPILER, "-std=c11", "-Wall", "-Wextra", "-Werror", "-g", "-fsanitize=address", f"-I{room}"]
    made = run(*command, f"{TOP}/library/test.c", f"{room}/libwmlab.a", "-lm", "-lpthread", "-o", program)
    TALLY.check(made[2] == 0, "library/test.c does not compile", made)
    return program


def check_answers(room):
    """The answers from C and from Python are those of the program."""
    program = compile_test(room)
    for module in MODULES:
        answers = wanted(module)
        from_c = run(program, module, *LOGS)
        TALLY.check(from_c == (answers, "", 0), f"answers over {module} from C", from_c)
        from_python = run(
            sys.executable, f"{TOP}/examples/c-library/verify.py", f"{room}/libwmlab.so", module, *LOGS
        )
        status = 1 if any(answer.startswith("1") for answer in answers) else max(int(answer[0]) for answer in answers)
        TALLY.check(from_python == (answers, "", status), f"answers over {module} from Python", from_python)


def check_usage(room):
    """Too few words are no verdict."""
    script = f"{TOP}/examples/c-library/verify.py"
    few: tuple[list[str], ...] = ([], [f"{room}/libwmlab.so", MODULES[0]])
    for words in few:
        got = run(sys.executable, script, *words)
        TALLY.check((got[0], got[2]) == ([], 2) and "LOG.." in got[1], f"verify.py with {len(words)} words", got)


def check_harness(room):
    """The harness of a fuzzer passes what is allowed or refused, and aborts at a log that is broken."""
    driver = f"{room}/driver.c"
    with open(driver, "w") as file:
        file.write(
            "#include <stdint.h>\n#include <stdio.h>\n"
            "int LLVMFuzzerTestOneInput(const uint8_t *data, size_t size);\n"
            "int main(void) { static uint8_t log[65536]; size_t size = fread(log, 1, sizeof log, stdin);\n"
            "return LLVMFuzzerTestOneInput(log, size); }\n"
        )
    program = f"{room}/fuzz"
    sources = [driver, f"{TOP}/examples/c-library/fuzz.c", f"{room}/libwmlab.a"]
    made = run(COMPILER, "-O1", f"-I{room}", *sources, "-lm", "-o", program)
    TALLY.check(made[2] == 0, "examples/c-library/fuzz.c does not compile", made)
    environment = {**os.environ, "MODULE": f"{TOP}/examples/store-buffering.wasm"}
    for log, passes in (("store-buffering", True), ("too-few-writers", True), ("value-of-another-module", False)):
        with open(f"{TOP}/examples/{log}.json") as file:
            ran = run(program, env=environment, stdin=file)
        TALLY.check((ran[2] == 0) == passes, f"the harness on {log}", ran)
    check_modules_of_harness(room, program)


def check_modules_of_harness(room, program):
    """A harness without a module, or over one that is refused, ends with status 2; of a long one it reads all bytes."""
    with open(f"{TOP}/examples/store-buffering.wasm", "rb") as file:
        module = file.read() + wasm.section(0, wasm.sized(b"padding") + bytes(100_000))
    for name, data in (("long", module), ("cut", module[:-1]), ("past-limit", module + bytes(wasm.MODULE_BYTES))):
        with open(f"{room}/{name}.wasm", "wb") as file:
            file.write(data)
    modules = {"long.wasm": -signal.SIGABRT, "cut.wasm": 2, "past-limit.wasm": 2, "no-such-file": 2}
    for name, status in modules.items():
        with open(f"{TOP}/examples/value-of-another-module.json") as file:
            ran = run(program, env={**os.environ, "MODULE": f"{room}/{name}"}, stdin=file)
        TALLY.check(ran[2] == status, f"the harness over {name}", ran)
    without = {name: value for name, value in os.environ.items() if name != "MODULE"}
    TALLY.check(run(program, env=without, stdin=subprocess.DEVNULL)[2] == 2, "the harness without a module")


def check_unwritable_clone():
    """A clone that cannot be written has to be copied. Root can write everywhere, so another user asks."""
    with tempfile.TemporaryDirectory() as room:
        clone = f"{room}/clone"
        os.makedirs(f"{clone}/crates/wm_library")
        os.makedirs(f"{clone}/library")
        shutil.copy(f"{TOP}/library/build", f"{clone}/library")
        os.chmod(f"{clone}/crates/wm_library", 0o555)
        os.chmod(room, 0o777)
        got = run(f"{clone}/library/build", f"{room}/out", user=NOBODY if os.geteuid() == 0 else None)
        TALLY.check(got[2] == 2 and "build in a copy" in got[1], "library/build in an unwritable clone", got)


NOBODY = 65534

with tempfile.TemporaryDirectory() as folder:
    # The gate builds the program again at the same time.
    built = run(f"{TOP}/library/build", folder, timeout=900)
    TALLY.check(built[2] == 0 and os.path.getsize(f"{folder}/libwmlab.a") > 0, "library/build", built)
    if built[2] == 0:
        check_answers(folder)
        check_usage(folder)
        check_harness(folder)
check_unwritable_clone()
TALLY.end()
