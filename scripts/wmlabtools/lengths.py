"""How many words each page may have. A page that needs more gives up something else first: manuals are read whole."""
from collections.abc import Iterable, Iterator

from . import TOP

# Pages that a command writes.
GENERATED = ("docs/dev/WORST.md", "docs/GALLERY.md")
MOST = {
    "CHANGELOG.md": 1000,
    "CONTRIBUTING.md": 1200,
    "README.md": 2000,
    "docs/CAMPAIGNS.md": 1800,
    "docs/DEFINITIONS.md": 5_150,
    "docs/EXPLANATIONS.md": 4000,
    "docs/EXPLORE.md": 900,
    "docs/FOUND.md": 300,
    "docs/LAWS.md": 1200,
    "docs/LIBRARY.md": 400,
    "docs/LITMUS.md": 1700,
    "docs/LOG_FORMAT.md": 600,
    "docs/LOWERING.md": 1700,
    "docs/MODEL.md": 1300,
    "docs/PROGRAMS.md": 900,
    "docs/RECORDERS.md": 1200,
    "docs/RECORDING.md": 1800,
    "docs/REFERENCE.md": 1800,
    "docs/USAGE.md": 2500,
    "docs/WITNESS.md": 500,
    "docs/dev/ARCHITECTURE.md": 4_170,
    "docs/dev/CONTRACTS.md": 4500,
    "docs/dev/DECISIONS.md": 6000,
    "docs/dev/PERFORMANCE.md": 2600,
    "edits/README.md": 700,
    "engines/README.md": 800,
    "examples/README.md": 2200,
    "litmus/README.md": 2000,
    "tests/README.md": 1600,
}
# Of all pages but the generated ones.
MOST_OF_ALL = 55000


def length_of(name: str) -> int:
    """The words of a page, as `wc -w` counts them."""
    with open(f"{TOP}/{name}", encoding="utf-8") as file:
        return len(file.read().split())


def faults(names: Iterable[str]) -> Iterator[str]:
    """The pages that are too long or have no limit, a limit without a page, and their sum if it is too long."""
    lengths = {name: length_of(name) for name in names if name not in GENERATED}
    for name, length in lengths.items():
        if name not in MOST:
            yield f"{name} has no limit of words in scripts/wmlabtools/lengths.py"
        elif length > MOST[name]:
            yield f"{name} has {length:,} words, at most {MOST[name]:,}"
    yield from (f"there is no {name}, which has a limit of words" for name in MOST if name not in lengths)
    total = sum(lengths.values())
    if total > MOST_OF_ALL:
        yield f"the pages have {total:,} words, at most {MOST_OF_ALL:,}"
