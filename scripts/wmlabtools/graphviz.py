"""Where Graphviz puts the labels of a picture, and what they lie on."""
import itertools
import json
import subprocess
from collections.abc import Iterable, Iterator, Sequence
from dataclasses import dataclass
from typing import Any

from .layout import Box, Point

Item = dict[str, Any]

# A curve between two of its points is taken as this number of segments.
SEGMENTS = 20
# How far a letter reaches above and below its line, in parts of the size of the font.
ABOVE, BELOW = 0.65, 0.2
# A line that ends at a label touches its box.
TOUCH = 1.0
TEXTS = ("_ldraw_", "_tldraw_", "_hldraw_", "_xldraw_")


@dataclass(frozen=True)
class Text:
    """A text and where it is."""

    text: str
    box: Box


def texts_of(items: Iterable[Item]) -> Iterator[Text]:
    """The texts of nodes, edges or columns."""
    for item in items:
        size = 0.0
        for each in (draw for key in TEXTS for draw in item.get(key, [])):
            if each["op"] == "F":
                size = each["size"]
            elif each["op"] == "T":
                (x, y), width = each["pt"], each["width"]
                left = {"l": x, "c": x - width / 2, "r": x - width}[each["align"]]
                box = Box(left, y - BELOW * size, width, (ABOVE + BELOW) * size)
                yield Text(each["text"], box.grown(-TOUCH))


def curve_of(points: Sequence[Point]) -> Iterator[Point]:
    """Points of a curve, which is given by points of its own and two between each two of them (Bézier)."""
    for first in range(0, len(points) - 3, 3):
        for step in range(SEGMENTS + 1):
            t = step / SEGMENTS
            weights = (1 - t) ** 3, 3 * t * (1 - t) ** 2, 3 * t * t * (1 - t), t**3
            pairs = [*zip(weights, points[first : first + 4], strict=True)]
            yield sum(weight * x for weight, (x, _) in pairs), sum(weight * y for weight, (_, y) in pairs)


def strokes_of(items: Iterable[Item]) -> Iterator[list[Point]]:
    """The lines of edges and the borders of nodes, each as points that are joined one after the other."""
    for item in items:
        for each in item.get("_draw_", []):
            points = [(x, y) for x, y in each.get("points", [])]
            if each["op"] in "bB":
                yield [*curve_of(points)]
            elif each["op"] in "pP":
                yield [*points, *points[:1]]


def label_faults(graph: str) -> list[str]:
    """Which labels of a picture's lines are on something, in sentences; or that Graphviz doesn't draw it."""
    ran = subprocess.run(["dot", "-Tjson"], input=graph, capture_output=True, text=True, check=False)
    # It warns of fonts, too, which is no fault.
    if ran.returncode or "Error" in ran.stderr:
        return [f"dot says: {(ran.stderr or 'nothing').splitlines()[0]}"]
    drawn = json.loads(ran.stdout)
    shown = [item for item in (*drawn["objects"], *drawn.get("edges", [])) if item.get("style") != "invis"]
    # A label of a line is a node without a border, or the edge's own.
    labels = [*texts_of(item for item in shown if item.get("shape") == "plain" or "head" in item)]
    others = [*texts_of(item for item in shown if item.get("shape") != "plain" and "head" not in item)]
    strokes = [*strokes_of(shown)]
    faults = []
    for label in labels:
        if any(label.box.is_on(*ends) for stroke in strokes for ends in itertools.pairwise(stroke)):
            faults.append(f"{label.text!r} is on a line or a border")
        if any(other is not label and label.box.meets(other.box) for other in (*labels, *others)):
            faults.append(f"{label.text!r} is on another text")
    return faults
