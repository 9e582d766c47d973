"""Lays out a picture of an execution, so that no label is on an edge, a node or another label, and no edge on a node.

Each thread is a column of nodes. An arrow between two columns is straight if no node is in its way, and otherwise goes
by the space between two rows. A label takes the first place beside its arrow that is free; if some label has none, the
columns and rows are moved apart. Lengths are in pixels, y grows downwards.
"""
import itertools
from collections.abc import Iterable, Iterator, Sequence
from dataclasses import dataclass, field

Point = tuple[float, float]
Name = tuple[int, ...]

CHARACTER, SMALL = 7.9, 6.7
LINE, MARGIN, PADDING = 17.0, 20.0, 10.0
LABEL_HEIGHT = 15.0
GAP_X, GAP_Y = 110.0, 44.0
# How far a label is from other arrows, if there is such a place.
APART = 10.0
# How far apart the columns and rows are moved for labels without a place, and how often.
WIDER, MOST_TRIES = 1.25, 12
CLEARANCE = 2.0


@dataclass(frozen=True)
class Box:
    """A rectangle by its left upper corner."""

    x: float
    y: float
    width: float
    height: float

    @property
    def right(self) -> float:
        return self.x + self.width

    @property
    def bottom(self) -> float:
        return self.y + self.height

    @property
    def middle(self) -> Point:
        return self.x + self.width / 2, self.y + self.height / 2

    def grown(self, by: float) -> "Box":
        return Box(self.x - by, self.y - by, self.width + 2 * by, self.height + 2 * by)

    def meets(self, other: "Box") -> bool:
        is_beside = self.right <= other.x or other.right <= self.x
        return not is_beside and self.y < other.bottom and other.y < self.bottom

    def is_on(self, one: Point, other: Point) -> bool:
        """Whether a part of a line between two points is in the box (Liang and Barsky)."""
        first, last = 0.0, 1.0
        for start, end, low, high in (
            (one[0], other[0], self.x, self.right),
            (one[1], other[1], self.y, self.bottom),
        ):
            step = end - start
            if step == 0:
                if not low < start < high:
                    return False
                continue
            near, far = sorted(((low - start) / step, (high - start) / step))
            first, last = max(first, near), min(last, far)
        return first < last


@dataclass(frozen=True)
class Node:
    """An event: its lines of text, of which all but the first are small."""

    name: Name
    lines: tuple[str, ...]

    @property
    def width(self) -> float:
        small = max((len(line) * SMALL for line in self.lines[1:]), default=0.0)
        return max(len(self.lines[0]) * CHARACTER, small) + 2 * PADDING

    @property
    def height(self) -> float:
        return len(self.lines) * LINE + PADDING


@dataclass(frozen=True)
class Arrow:
    """An edge with its label, which may be empty."""

    source: Name
    target: Name
    label: str


@dataclass
class Layout:
    """Where everything is: the nodes, the points of each arrow, and the labels of those that have one."""

    nodes: dict[Name, Box] = field(default_factory=dict)
    titles: list[Box] = field(default_factory=list)
    routes: list[list[Point]] = field(default_factory=list)
    labels: list[Box | None] = field(default_factory=list)

    @property
    def boxes(self) -> list[Box]:
        return [*self.nodes.values(), *self.titles, *filter(None, self.labels)]

    @property
    def right(self) -> float:
        return max([box.right for box in self.boxes] + [x for route in self.routes for x, _ in route])

    @property
    def bottom(self) -> float:
        return max([box.bottom for box in self.boxes] + [y for route in self.routes for _, y in route])

    def is_apart(self, box: Box, number: int) -> bool:
        """Whether the label of an arrow is so far from other arrows and labels that it can't be taken for theirs."""
        wide = box.grown(APART)
        others = [route for place, route in enumerate(self.routes) if place != number]
        labels = [label for place, label in enumerate(self.labels) if label and place != number]
        is_alone = not any(wide.is_on(*line) for route in others for line in itertools.pairwise(route))
        return is_alone and not any(map(wide.meets, labels))

    def faults(self) -> list[str]:
        """Labels that are on an edge, a node or a label, and edges that are on nodes of others."""
        found = []
        labels = [label for label in self.labels if label]
        for number, label in enumerate(labels):
            if any(label.is_on(*line) for route in self.routes for line in itertools.pairwise(route)):
                found.append(f"label {number} is on an edge")
            others = [*self.nodes.values(), *self.titles, *labels[number + 1 :]]
            if any(map(label.meets, others)):
                found.append(f"label {number} is on a node or a label")
        for number, route in enumerate(self.routes):
            lines = list(itertools.pairwise(route))
            if any(box.is_on(*line) for box in self.nodes.values() for line in lines):
                found.append(f"edge {number} is on a node")
        return found


def width_of(label: str) -> float:
    return len(label) * CHARACTER + 4


class Columns:
    """The columns of a picture, with the space between them and between their rows."""

    def __init__(self, threads: Sequence[Sequence[Node]], titles: Sequence[str], top: float, scale: float) -> None:
        self.gap_x, self.gap_y = GAP_X * scale, GAP_Y * scale
        widths = [
            max([len(title) * CHARACTER, *(node.width for node in nodes)]) for title, nodes in zip(titles, threads)
        ]
        self.lefts = [MARGIN + self.gap_x / 2 + sum(widths[:k]) + k * self.gap_x for k in range(len(widths))]
        self.rights = [left + width for left, width in zip(self.lefts, widths)]
        self.height = max((node.height for nodes in threads for node in nodes), default=0.0)
        self.first = top + LINE + self.gap_y * 0.7
        self.column: dict[Name, int] = {}
        self.layout = Layout()
        for number, (nodes, title) in enumerate(zip(threads, titles)):
            self.layout.titles.append(Box(self.lefts[number], top, len(title) * CHARACTER, LINE))
            for row, node in enumerate(nodes):
                self.column[node.name] = number
                y = self.first + row * (self.height + self.gap_y)
                self.layout.nodes[node.name] = Box(self.lefts[number], y, widths[number], node.height)

    def side_of(self, name: Name, other: Name) -> int:
        """Whether an arrow between two nodes is at the right (1) or the left (-1) of the first one."""
        return 1 if self.column[other] >= self.column[name] else -1

    def is_downwards(self, arrow: Arrow) -> bool:
        """Whether an arrow leads from an event to the next one of its thread, and needs no label."""
        source, target = arrow.source, arrow.target
        return not arrow.label and source[0] == target[0] and source[1] + 1 == target[1]

    def anchors(self, arrows: Sequence[Arrow]) -> dict[tuple[int, Name], Point]:
        """Where each arrow meets its nodes, so that several at one side are apart."""
        at: dict[tuple[Name, int], list[tuple[float, int]]] = {}
        for number, arrow in enumerate(arrows):
            for name, other in ((arrow.source, arrow.target), (arrow.target, arrow.source)):
                if not self.is_downwards(arrow):
                    place = self.layout.nodes[other].middle[1]
                    at.setdefault((name, self.side_of(name, other)), []).append((place, number))
        found = {}
        for (name, side), ends in at.items():
            box = self.layout.nodes[name]
            for place, (_, number) in enumerate(sorted(ends), 1):
                x = box.right if side > 0 else box.x
                found[number, name] = x, box.y + box.height * place / (len(ends) + 1)
        return found

    def lane(self, one: float, other: float, count: int) -> float:
        """The y of the space between two rows, or before the first or after the last, that is nearest to both."""
        step, rows = self.height + self.gap_y, max(len(list(nodes)) for nodes in self.rows())
        lanes = [self.first - self.gap_y * (0.5 if row else 0.3) + row * step for row in range(rows + 1)]
        return min(lanes, key=lambda y: abs(y - one) + abs(y - other)) + (count % 3 - 1) * self.gap_y / 6

    def rows(self) -> Iterator[Iterable[Name]]:
        for number in range(len(self.lefts)):
            yield [name for name, column in self.column.items() if column == number]

    def route(self, arrow: Arrow, start: Point, end: Point, count: int) -> list[Point]:
        """The points of an arrow between nodes that are not one below the other."""
        one, other = self.column[arrow.source], self.column[arrow.target]
        if one == other:
            x = self.rights[one] + self.gap_x * (0.2 + 0.12 * (count % 4))
            return [start, (x, start[1]), (x, end[1]), end]
        nodes = [box.grown(3) for name, box in self.layout.nodes.items() if name not in (arrow.source, arrow.target)]
        if not any(box.is_on(start, end) for box in nodes):
            return [start, end]
        way = 1 if other > one else -1
        near = self.gap_x * (0.25 + 0.12 * (count % 3)) * way
        first = (self.rights[one] if way > 0 else self.lefts[one]) + near
        last = (self.lefts[other] if way > 0 else self.rights[other]) - near
        lane = self.lane(start[1], end[1], count)
        return [start, (first, start[1]), (first, lane), (last, lane), (last, end[1]), end]

    def draw(self, arrows: Sequence[Arrow]) -> None:
        """Places the arrows."""
        anchors = self.anchors(arrows)
        for number, arrow in enumerate(arrows):
            if self.is_downwards(arrow):
                above, below = self.layout.nodes[arrow.source], self.layout.nodes[arrow.target]
                x = above.middle[0]
                self.layout.routes.append([(x, above.bottom), (x, below.y)])
            else:
                start, end = anchors[number, arrow.source], anchors[number, arrow.target]
                self.layout.routes.append(self.route(arrow, start, end, number))

    def place_labels(self, arrows: Sequence[Arrow]) -> bool:
        """Places the labels. Answers whether each has a place."""
        lines = [line for route in self.layout.routes for line in itertools.pairwise(route)]
        taken = [*self.layout.nodes.values(), *self.layout.titles]
        for number, (arrow, route) in enumerate(zip(arrows, self.layout.routes)):
            if not arrow.label:
                self.layout.labels.append(None)
                continue
            free = [box for box in places(route, width_of(arrow.label)) if is_free(box, lines, taken)]
            if not free:
                return False
            box = next((box for box in free if self.layout.is_apart(box, number)), free[0])
            self.layout.labels.append(box)
            taken.append(box)
        return True


def is_free(box: Box, lines: Sequence[tuple[Point, Point]], taken: Sequence[Box]) -> bool:
    wide = box.grown(CLEARANCE)
    return box.x > 0 and not any(map(wide.meets, taken)) and not any(wide.is_on(*line) for line in lines)


def length_of(line: tuple[Point, Point]) -> float:
    (x1, y1), (x2, y2) = line
    return abs(x2 - x1) + abs(y2 - y1)


def places(route: Sequence[Point], width: float) -> Iterator[Box]:
    """The places of a label beside an arrow, the better ones first: the middles of its parts, the longest first."""
    parts = sorted(itertools.pairwise(route), key=length_of, reverse=True)
    for share in (0.5, 0.4, 0.6, 0.3, 0.7, 0.2, 0.8, 0.1, 0.9):
        for (x1, y1), (x2, y2) in parts:
            x, y = x1 + (x2 - x1) * share, y1 + (y2 - y1) * share
            for far in (1.0, 1.6):
                for dx, dy in ((0, -1), (0, 1), (1, -1), (-1, -1), (1, 1), (-1, 1), (1, 0), (-1, 0)):
                    left = x - width / 2 + dx * (width / 2 + 3 * far)
                    top = y - LABEL_HEIGHT / 2 + dy * (LABEL_HEIGHT / 2 + 3 * far)
                    yield Box(left, top, width, LABEL_HEIGHT)


def laid_out(threads: Sequence[Sequence[Node]], titles: Sequence[str], arrows: Sequence[Arrow], top: float) -> Layout:
    """The layout of a picture whose columns begin at `top`."""
    scale = 1.0
    for _ in range(MOST_TRIES):
        columns = Columns(threads, titles, top, scale)
        columns.draw(arrows)
        if columns.place_labels(arrows) and not columns.layout.faults():
            return columns.layout
        scale *= WIDER
    raise ValueError("no layout was found in which each label has a place")
