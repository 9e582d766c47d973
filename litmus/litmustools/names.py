"""The names of cycles: that of the shape, then the accesses of each thread."""
from .accesses import PLAIN, Access, BadCycle, access_of
from .cycles import Cycle, check_joints, cycle_of, edge_of

# The shapes that the field has names for, and those of this suite with internal edges or updates.
SHAPES = {
    "SB": "PodWR Fre PodWR Fre",
    "MP": "PodWW Rfe PodRR Fre",
    "LB": "PodRW Rfe PodRW Rfe",
    "S": "PodWW Rfe PodRW Coe",
    "R": "PodWW Coe PodWR Fre",
    "2+2W": "PodWW Coe PodWW Coe",
    "WRC": "Rfe PodRW Rfe PodRR Fre",
    "WWC": "Rfe PodRW Rfe PodRW Coe",
    "RWC": "Rfe PodRR Fre PodWR Fre",
    "WRR+2W": "Rfe PodRR Fre PodWW Coe",
    "WRW+WR": "Rfe PodRW Coe PodWR Fre",
    "WRW+2W": "Rfe PodRW Coe PodWW Coe",
    "ISA2": "PodWW Rfe PodRW Rfe PodRR Fre",
    "W+RWC": "PodWW Rfe PodRR Fre PodWR Fre",
    "Z6.0": "PodWW Rfe PodRW Coe PodWR Fre",
    "Z6.1": "PodWW Coe PodWW Rfe PodRW Coe",
    "Z6.2": "PodWW Rfe PodRW Rfe PodRW Coe",
    "Z6.3": "PodWW Coe PodWW Rfe PodRR Fre",
    "Z6.4": "PodWW Coe PodWR Fre PodWR Fre",
    "Z6.5": "PodWW Coe PodWW Coe PodWR Fre",
    "3.SB": "PodWR Fre PodWR Fre PodWR Fre",
    "3.LB": "PodRW Rfe PodRW Rfe PodRW Rfe",
    "3.2W": "PodWW Coe PodWW Coe PodWW Coe",
    "IRIW": "Rfe PodRR Fre Rfe PodRR Fre",
    "IRRWIW": "Rfe PodRR Fre Rfe PodRW Coe",
    "IRWIW": "Rfe PodRW Coe Rfe PodRW Coe",
    "4.SB": "PodWR Fre PodWR Fre PodWR Fre PodWR Fre",
    "4.LB": "PodRW Rfe PodRW Rfe PodRW Rfe PodRW Rfe",
    "W+RW+RW+RR": "Rfe PodRW Rfe PodRW Rfe PodRR Fre",
    "W+RW+RR+WR": "Rfe PodRW Rfe PodRR Fre PodWR Fre",
    "W+RR+WW+RR": "Rfe PodRR Fre PodWW Rfe PodRR Fre",
    "W+RR+WR+WR": "Rfe PodRR Fre PodWR Fre PodWR Fre",
    "CoRR": "Rfe PosRR Fre",
    "CoRW2": "Rfe PosRW Coe",
    "CoWR": "PosWR Fre Coe",
    "CoWW": "PosWW Coi",
    "CoRW1": "PosRW Rfi",
    "CoWR0": "PosWR Fri",
    "X+X": "Fre Fre",
    "X+W": "Fre Coe",
    "SB+rfi-pod+pod": "Rfi PodRR Fre PodWR Fre",
    "SB+rfi-pod+rfi-pod": "Rfi PodRR Fre Rfi PodRR Fre",
    "MP+pod+pos-pod": "PodWW Rfe PosRR PodRR Fre",
    "MP+pod+pod-rfi-pod": "PodWW Rfe PodRW Rfi PodRR Fre",
    "MP+pod-coi+pod": "PodWW Coi Rfe PodRR Fre",
    "MP+pos-pod+pod": "PosWW PodWW Rfe PodRR Fre",
    "LB+pod-rfi-pod+pod": "PodRW Rfi PodRW Rfe PodRW Rfe",
    "LB+pod-fri+pod": "PodRR Fri Rfe PodRW Rfe",
    "LB+pod-coi+pod": "PodRW Coi Rfe PodRW Rfe",
    "S+pod+pod-fri": "PodWW Rfe PodRR Fri Coe",
    "R+pod+rfi-pod": "PodWW Coe Rfi PodRR Fre",
    "2+2W+pod+pod-coi": "PodWW Coe PodWW Coi Coe",
}
RANK = {"un": 0, "sc": 1, "rmw": 2}


def rank(cycle: Cycle) -> list[tuple[int, int, int]]:
    return [(RANK[access.order], access.width, access.offset) for access in cycle.accesses]


def displayed(cycle: Cycle) -> tuple[str, Cycle]:
    """The name of a cycle's shape, and the form of the cycle that begins as this shape does."""
    forms = [cycle.rotated(k) for k in cycle.beginnings]
    for name, shape in SHAPES.items():
        if matching := [form for form in forms if form.shape == shape]:
            return name, min(matching, key=rank)
    form = cycle.canonical
    pieces = ["".join(form.direction(k).replace("RW", "X") for k in accesses) for accesses in form.threads()]
    return "+".join(pieces), form


def suffix(cycle: Cycle) -> str:
    """The accesses of each thread, as a name has them."""
    threads = []
    for accesses in cycle.threads():
        words = [cycle.accesses[k].word for k in accesses]
        threads.append(words[0] if len(set(words)) == 1 else "-".join(words))
    if len(set(threads)) == 1 and "-" not in threads[0]:
        return "" if threads[0] == PLAIN.word else f"+{threads[0]}"
    return "".join(f"+{thread}" for thread in threads)


def named(cycle: Cycle) -> tuple[str, Cycle]:
    """The name of a cycle, and its displayed form."""
    name, form = displayed(cycle)
    return name + suffix(form), form


def accesses_of(shape: Cycle, words: list[str]) -> tuple[Access, ...]:
    """The accesses that the end of a name gives to the threads of a shape."""
    sizes = [len(accesses) for accesses in shape.threads()]
    if len(words) == 1:
        words *= len(sizes)
    if len(words) != len(sizes):
        raise BadCycle(f"accesses for {len(words)} threads; the shape has {len(sizes)}")
    found: list[Access] = []
    for text, size in zip(words, sizes):
        each = text.split("-")
        if len(each) not in (1, size):
            raise BadCycle(f"{text}: {len(each)} accesses; the thread has {size}")
        found += [access_of(word) for word in each] * (size if len(each) == 1 else 1)
    return tuple(found)


def shape_of(text: str) -> Cycle:
    """The edges of a shape, with accesses that fit any of them."""
    edges = text.split()
    return cycle_of(f"{text} : {' '.join(['rmw'] * len(edges))}")


def names_test(text: str) -> bool:
    """Whether a word is meant as a test: edges, or a name that begins with that of a shape."""
    edges = text.partition(":")[0].split()
    if len(edges) < 2:
        return any(text == name or text.startswith(f"{name}+") for name in SHAPES)
    try:
        return all(map(edge_of, edges))
    except BadCycle:
        return False


def cycle_named(text: str) -> Cycle:
    """The cycle that a name or the text of a cycle spells."""
    if " " in text.strip():
        return cycle_of(text)
    for name in sorted(SHAPES, key=len, reverse=True):
        if text == name or text.startswith(f"{name}+"):
            shape, words = shape_of(SHAPES[name]), text[len(name) + 1 :].split("+")
            cycle = Cycle(shape.edges, accesses_of(shape, words if words != [""] else [PLAIN.word]))
            check_joints(cycle)
            return cycle
    given = repr(text) if text.strip() else "an empty name"
    raise BadCycle(f"{given}: no shape has this name; litmus/README.md lists them, or write a cycle in quotes")
