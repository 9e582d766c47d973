"""What the commands of litmus/ share: their words, and how they end."""
import argparse
import os
import signal
import sys
from collections.abc import Callable

from wmlabtools import harness

from .accesses import BadCycle
from .judges import Failed, missing_command
from .names import cycle_named, named
from .tests import LitmusTest, test_of


def arguments(description: str | None) -> argparse.ArgumentParser:
    """A parser of the words of a command that asks the program."""
    return harness.arguments(description)


def program_of(options: argparse.Namespace) -> str:
    """The program that the options name, or the one that ./wmlab runs; it has to have the commands that judge."""
    if options.wmlab and not (os.path.isfile(options.wmlab) and os.access(options.wmlab, os.X_OK)):
        raise Failed(f"{options.wmlab}: this is not a program; name one by --wmlab PATH")
    program = harness.program_of(options)
    missing = missing_command(program)
    if missing:
        raise Failed(f"{program}: this program has no command {missing}")
    return program


def positive(word: str) -> int:
    """An integer of at least 1."""
    if not word.isdecimal() or int(word) < 1:
        raise argparse.ArgumentTypeError(f"{word}: expected an integer of at least 1")
    return int(word)


def test_named(text: str) -> LitmusTest:
    """The test of a name, or of the text of a cycle."""
    name, form = named(cycle_named(text))
    return test_of(form, name)


def folder_for(path: str) -> str:
    """A folder to write to."""
    os.makedirs(path, exist_ok=True)
    return path


def write(path: str, data: bytes | str) -> None:
    with open(path, "wb") as file:
        file.write(data if isinstance(data, bytes) else data.encode())


def ending(main: Callable[[], int]) -> None:
    """Runs a command. A mistake of its user, or a program that fails, is one line and status 2; Ctrl-C and SIGTERM are
    130."""
    signal.signal(signal.SIGTERM, signal.default_int_handler)
    try:
        sys.exit(main())
    except (BadCycle, Failed) as error:
        fault = str(error)
    except OSError as error:
        fault = f"{error.filename or 'output'}: {error.strerror}"
    except KeyboardInterrupt:
        sys.exit(130)
    print(f"{os.path.basename(sys.argv[0])}: {fault}", file=sys.stderr)
    sys.exit(2)
