"""Tests of the gallery's column of what `explore` lists, and of the columns of engines behind it."""
from collections.abc import Mapping

from wmlabtools.harness import Tally

from . import columns, page
from .gallery import Collected, Row, Seen
from .tests import LitmusTest

# What `explore` lists of some tests' outcomes.
EXPLORED = {"SB": "listed", "SB+sc": "no", "LB": "left out"}
# A thread that reads 1 from the other one, and then writes it.
THREAD = '["t",[],["cut"],0,[["r","un",0,4,1,[[{0},1],[{0},1],[{0},1],[{0},1]]],["w","un",0,4,1]]]'
CYCLE = f'["wasm-litmus-log",2,[{THREAD.format(1)},{THREAD.format(0)}],[]]'
CAUSAL = '["wasm-litmus-log",2,[["t",[],["cut"],0,[["w","un",0,4,1]]]],[]]'
# A log, whether the outcome is permitted, whether it is listed, and a part of the find if that is one.
LISTED = (
    (CAUSAL, True, True, None),
    (CYCLE, True, False, None),
    (CAUSAL, True, False, "explore does not list the cycle's outcome, which a causal execution has"),
    (CAUSAL, False, False, None),
    (CAUSAL, False, True, "explore lists the cycle's outcome, which is not permitted"),
    (CAUSAL, True, None, None),
)


def test_explored_cells(tally: Tally, text: str) -> None:
    """A page tells what `explore` lists of each of these tests."""
    rows = [columns.cells_of(line) for line in text.splitlines() if line.startswith("| `")]
    found = {cells[0].strip("`"): cells[4] for cells in rows if "=" in cells[1]}
    tally.check(found == EXPLORED, "the gallery has what explore lists", found)


def test_listed(tally: Tally, tests: Mapping[str, LitmusTest]) -> None:
    """What `explore` lists although it is not permitted is a find, and so is a causal outcome that it does not list."""
    for log, is_permitted, is_listed, sentence in LISTED:
        finds = Row(tests["SB"], "", is_permitted, log=log, is_listed=is_listed).finds
        holds = len(finds) == 1 and sentence in finds[0] if sentence else not finds
        tally.check(holds, f"a find of explore: permitted {is_permitted}, listed {is_listed}", finds)


def test_columns(tally: Tally, tests: Mapping[str, LitmusTest]) -> None:
    """The engines' columns of a page are replaced. The others stay, also in a page without what `explore` lists."""

    def found(engine: str, times: int) -> Collected:
        seen = Seen({tests["SB"].outcome: times}, {})
        row = Row(tests["SB"], "", True, is_listed=True, engines={engine: seen})
        return Collected("", "", 1, 1, {engine: engine}, rows=[row])

    text = page.markdown(found("node", 3))
    for shows, before, last in (
        ("with", text, "| listed | 7 |"),
        ("without", text.replace(" | Explore |", " |").replace("| listed |", "|"), "| no | 7 |"),
    ):
        after = columns.replaced(before, found("firefox", 7), "today").splitlines()
        rows = [line for line in after if line.startswith("| `SB` | y=0")]
        heads = [line for line in after if line.startswith("| Test | Outcome |")]
        holds = len(rows) == 1 and rows[0].endswith(last) and heads[0].endswith(" | firefox |")
        tally.check(holds, f"columns of engines in a page {shows} what explore lists", (rows, heads))
