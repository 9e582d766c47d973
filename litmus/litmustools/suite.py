"""The suite: which tests there are, each once."""
from collections.abc import Iterator, Sequence
from itertools import product

from .accesses import BadCycle, access_of
from .cycles import Cycle
from .names import SHAPES, named, shape_of
from .tests import LitmusTest, test_of

TWO_THREADS = ("SB", "MP", "LB", "S", "R", "2+2W")
CAUSALITY = ("WRC", "RWC", "WWC", "WRR+2W", "WRW+WR", "WRW+2W")
THREE_THREADS = ("ISA2", "W+RWC", *(f"Z6.{k}" for k in range(6)), "3.SB", "3.LB", "3.2W")
INDEPENDENT = ("IRIW", "IRRWIW", "IRWIW")
FOUR_THREADS = ("4.SB", "4.LB", "W+RW+RW+RR", "W+RW+RR+WR", "W+RR+WW+RR", "W+RR+WR+WR")
COHERENCE = ("CoRR", "CoRW2", "CoWR", "CoWW", "CoRW1", "CoWR0")
INTERNAL = tuple(name for name in SHAPES if "rfi" in name or "coi" in name or "fri" in name or "pos" in name)
ORDERS = ("un", "sc")

# What the first and the later accesses of location x are, in tests with mixed sizes.
MIXED = (
    ("4", "2"),
    ("4", "2@2"),
    ("4", "1@3"),
    ("2@2", "4"),
    ("1@1", "4"),
    ("8", "4@4"),
    ("4@4", "8"),
    ("2", "2@1"),
    ("4", "4@2"),
    ("8", "8@4"),
)


def with_words(shape: str, words: Sequence[str]) -> Cycle | None:
    """The cycle of a shape with these accesses; None if they do not fit, as an atomic access that is not aligned."""
    edges = shape_of(SHAPES[shape]).edges
    try:
        return Cycle(edges, tuple(access_of(word) for word in words))
    except BadCycle:
        return None


def each_access(shape: str, orders: Sequence[str] = ORDERS) -> list[Cycle | None]:
    """Each choice for each access."""
    count = len(SHAPES[shape].split())
    return [with_words(shape, words) for words in product(orders, repeat=count)]


def by_group(shape: str, group_of: Sequence[int], orders: Sequence[str] = ORDERS) -> list[Cycle | None]:
    """Each choice for groups of accesses: `group_of` has the group of each access."""
    groups = sorted(set(group_of))
    return [
        with_words(shape, [chosen[groups.index(group)] for group in group_of])
        for chosen in product(orders, repeat=len(groups))
    ]


def by_thread(shape: str, orders: Sequence[str] = ORDERS) -> list[Cycle | None]:
    threads = shape_of(SHAPES[shape]).threads()
    group_of = {k: thread for thread, accesses in enumerate(threads) for k in accesses}
    return by_group(shape, [group_of[k] for k in sorted(group_of)], orders)


def by_location(shape: str, orders: Sequence[str] = ORDERS) -> list[Cycle | None]:
    return by_group(shape, shape_of(SHAPES[shape]).locations(), orders)


def of_width(shape: str) -> list[Cycle | None]:
    """All accesses of 1, 2 or 8 bytes."""
    count = len(SHAPES[shape].split())
    return [with_words(shape, [f"{order}{width}"] * count) for order in ORDERS for width in (1, 2, 8)]


def range_word(order: str, place: str) -> str:
    """The word of an access: `place` is a width with or without an offset."""
    return order + (place[1:] if place[0] == "4" else place)


def mixed(shape: str) -> list[Cycle | None]:
    """The accesses of location x with different ranges; those of other locations plain, atomic, or atomic alone."""
    at = shape_of(SHAPES[shape]).locations()
    found = []
    for (first, later), (here, elsewhere) in product(MIXED, (("un", "un"), ("un", "sc"), ("sc", "sc"))):
        words: list[str] = []
        is_first = True
        for location in at:
            words.append(elsewhere if location else range_word(here, first if is_first else later))
            is_first = is_first and location != 0
        found.append(with_words(shape, words))
    return found


def updates(shape: str) -> list[Cycle | None]:
    """Exchanges: for all accesses, for those of one location, and of other widths."""
    count, at = len(SHAPES[shape].split()), shape_of(SHAPES[shape]).locations()
    found = [with_words(shape, [f"rmw{width}"] * count) for width in ("", "1", "2", "8")]
    for order in ORDERS:
        found += [with_words(shape, ["rmw" if location == which else order for location in at]) for which in set(at)]
    return found


def lost_updates() -> list[Cycle | None]:
    """Two updates of one location, and an update beside a write."""
    words = [[f"rmw{width}"] * 2 for width in ("", "1", "2", "8")]
    words += [["rmw", "rmw2@2"], ["rmw8", "rmw@4"], ["rmw2", "rmw"]]
    found = [with_words("X+X", each) for each in words]
    return found + [with_words("X+W", ["rmw", order]) for order in ("un", "sc", "rmw")]


def cycles() -> Iterator[Cycle | None]:
    """Every cycle of the suite, some more than once."""
    for shape in (*TWO_THREADS, *COHERENCE, "WRC", "RWC"):
        yield from each_access(shape)
    for shape in (*CAUSALITY, *THREE_THREADS, *INDEPENDENT):
        yield from by_location(shape)
    for shape in (*CAUSALITY, *THREE_THREADS, "IRIW", "IRRWIW"):
        yield from by_thread(shape)
    for shape in FOUR_THREADS:
        yield from by_group(shape, [0] * len(SHAPES[shape].split()))
    for shape in (*TWO_THREADS, "CoRR", "IRIW"):
        yield from of_width(shape)
    for shape in ("SB", "MP", "LB", "CoRR", "CoRW2"):
        yield from mixed(shape)
    for shape in ("SB", "MP", "LB", "IRIW"):
        yield from updates(shape)
    yield from lost_updates()
    for shape in INTERNAL:
        yield from by_group(shape, [0] * len(SHAPES[shape].split()))
        yield from by_location(shape)


def suite() -> dict[str, LitmusTest]:
    """The tests of the suite by their names."""
    found: dict[str, LitmusTest] = {}
    seen: set[Cycle] = set()
    for cycle in cycles():
        if cycle is None or cycle.canonical in seen:
            continue
        seen.add(cycle.canonical)
        name, form = named(cycle)
        if name in found:
            raise BadCycle(f"{form.text}: the name {name} is taken by {found[name].cycle.text}")
        found[name] = test_of(form, name)
    return found


# The readable selection that litmus/tests has.
COMMITTED = """
SB SB+sc SB+un+sc SB+un-sc+sc-un SB+rmw SB+un8 SB+sc8 SB+sc-sc@4+sc8-sc SB+un+un-un@2
MP MP+sc MP+un-sc+sc-un MP+sc-un+un-sc MP+un-rmw+rmw-un MP+un8 MP+un-sc+sc-un@2
LB LB+sc LB+rmw S S+sc S+un-sc+sc-un R R+sc 2+2W 2+2W+sc
WRC WRC+sc WRC+un+un-sc+sc-un RWC RWC+sc WWC WWC+sc WRR+2W WRW+WR
ISA2 ISA2+sc ISA2+un-sc+sc+sc-un W+RWC W+RWC+sc Z6.0 Z6.3 Z6.4+sc
3.SB 3.SB+sc 3.LB IRIW IRIW+sc
CoRR CoRR+sc CoRR+sc+sc2@2 CoWW CoRW1 CoRW2 CoRW2+sc CoWR CoWR0
X+X+rmw X+W+rmw+un SB+rfi-pod+rfi-pod
""".split()


def committed(tests: dict[str, LitmusTest]) -> list[str]:
    """The names of the selection, each of which is in the suite."""
    missing = [name for name in COMMITTED if name not in tests]
    if missing:
        raise BadCycle(f"not in the suite: {' '.join(missing)}")
    return COMMITTED
