"""Tables in documents that a command measures and writes: between `<!-- COMMAND -->` and `<!-- end of COMMAND -->`."""
import os
import sys

from . import TOP


def write_measured(document: str, command: str, text: str) -> None:
    """Replaces what a document has between the two marks of a command."""
    path, begin, end = os.path.join(TOP, document), f"<!-- {command} -->\n", f"<!-- end of {command} -->\n"
    with open(path, encoding="utf-8") as file:
        whole = file.read()
    if whole.count(begin) != 1 or whole.count(end) != 1:
        sys.exit(f"{document} has no place marked by {begin.strip()} and {end.strip()}")
    before, _, rest = whole.partition(begin)
    with open(path, "w", encoding="utf-8") as file:
        file.write(f"{before}{begin}{text.strip()}\n{end}{rest.partition(end)[2]}")
    print(f"wrote the tables of {document}")
