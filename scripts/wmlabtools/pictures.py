"""Pictures of small executions, as SVG: what `wmlab graph` shows of a log, with names of locations, a title in words
and a legend."""
import html
import itertools
import re
from collections.abc import Iterator, Mapping, Sequence
from dataclasses import dataclass
from typing import Any

from .executions import Edge, Event, Execution, Name
from .layout import CHARACTER, LINE, MARGIN, Arrow, Box, Layout, Node, Point, laid_out, width_of

# More events than a reader can follow; `wmlab graph` chooses some of them.
MOST_EVENTS = 40
# A name is of the bytes from its address on, up to the next name.
LOCATION_BYTES = 16

RED = "#c00000"
COLORS = {"sb": "#777777", "rf": "#006400", "sw": "#0000d0", "fr": "#7a1fa2", "co": "#8b4513"}
MEANINGS = {
    "sb": "program order",
    "rf": "rf: the second event reads from the first",
    "sw": "rf, sw: it also synchronizes with it",
    "fr": "fr: the first event reads from before the second, a write",
    "co": "co: the second write overwrites the first",
}
RULES = {
    "V1": "a byte read is not the one written",
    "V2": "the order contradicts happens-before",
    "V3": "coherence",
    "V4": "a torn value",
    "V5": "sequential consistency of atomics",
}
KINDS = {"w": "W", "r": "R", "x": "U"}
QUOTED = r'"((?:[^"\\]|\\.)*)"'
DRAWN_NODE = re.compile(rf"^ +e(\d+)_(\d+) \[label={QUOTED}(.*)\];$", re.MULTILINE)
# A line is drawn over a node with its label.
LABEL_NAME = r"e(\d+)_(\d+)_to_e(\d+)_(\d+)"
DRAWN_LABEL = re.compile(rf"{LABEL_NAME} \[label={QUOTED}(.*)\];")
WIDE_LINE = re.compile(rf" -> {LABEL_NAME} \[.*penwidth=2.*\];$", re.MULTILINE)
DRAWN_THREAD = re.compile(rf'^    label={QUOTED};$', re.MULTILINE)
DRAWN_TITLE = re.compile(rf"^  label={QUOTED};$", re.MULTILINE)


class NotDrawn(Exception):
    """Why there is no picture of a log, in a sentence."""


@dataclass(frozen=True)
class Shown:
    """What `wmlab graph` shows of a log: its title, the threads, the instructions of events, what is at fault, and
    which arrows are wide: those of a cycle, and the red ones."""

    verdict: str
    threads: list[str]
    places: dict[Name, str]
    faulty: set[Name]
    edges: list[Edge]
    red: set[tuple[Name, Name]]
    wide: set[tuple[Name, Name]]


def unquoted(label: str) -> str:
    """A text of Graphviz's language without its backslashes."""
    return re.sub(r"\\(.)", r"\1", label)


def ends_of(numbers: Sequence[str]) -> tuple[Name, Name]:
    """The two events whose threads and numbers these are."""
    source_thread, source_number, target_thread, target_number = map(int, numbers)
    return (source_thread, source_number), (target_thread, target_number)


def shown_by(graph: str) -> Shown:
    """What a graph of `wmlab graph` has."""
    title = DRAWN_TITLE.search(graph)
    if not title:
        raise NotDrawn(graph.split("\n")[0] or "wmlab graph printed nothing")
    places: dict[Name, str] = {}
    faulty: set[Name] = set()
    for thread, number, label, more in DRAWN_NODE.findall(graph):
        name: Name = (int(thread), int(number))
        places[name] = unquoted(label.partition("\\n")[2])
        if 'color="red"' in more:
            faulty.add(name)
    edges: list[Edge] = []
    red: set[tuple[Name, Name]] = set()
    for *numbers, label, more in DRAWN_LABEL.findall(graph):
        source, target = ends_of(numbers)
        kinds = [word.split(" ")[0] for word in label.split(", ")]
        edges += [Edge(source, target, kind) for kind in kinds if kind in ("fr", "co")]
        if 'fontcolor="red"' in more:
            red.add((source, target))
    wide = {ends_of(numbers) for numbers in WIDE_LINE.findall(graph)}
    return Shown(unquoted(title[1]), [*map(unquoted, DRAWN_THREAD.findall(graph))], places, faulty, edges, red, wide)


def title_of(verdict: str) -> str:
    """A verdict in words."""
    if verdict.startswith("allowed"):
        return "Allowed by the memory model"
    found = re.match(r"broken (V\d) case (\d) at (\S+)", verdict)
    if not found:
        raise NotDrawn(f"the log is not one of the module's run: {verdict}; wmlab graph draws it")
    return f"Not allowed: {RULES[found[1]]} (rule {found[1]}, case {found[2]}, at event {found[3]})"


# ---- the texts


def location_text(event: Event, names: Mapping[int, str]) -> str:
    """Where an event is: by the name of its location, or its first and last address."""
    below = [address for address in names if address <= event.address < address + LOCATION_BYTES]
    if not below:
        return f"[{event.bytes[0]}..{event.bytes[-1]}]"
    first = max(below)
    offset = f"+{event.address - first}" if event.address > first else ""
    return f"{names[first]}{offset}{'' if event.width == 4 else f' ({event.width} bytes)'}"


def event_text(event: Event, place: int, names: Mapping[int, str]) -> str:
    """An event in a line, with its place in the order."""
    thread, number = event.name
    read = f" = {event.value}" if event.reads else ""
    written = f" := {event.written}" if event.writes else ""
    initial = ""
    if event.writers and not any(event.writers):
        initial = " (initial)"
    elif not all(event.writers):
        initial = " (partly initial)"
    order = "sc" if event.is_atomic else ""
    where = location_text(event, names)
    return f"#{place} {thread}.{number}: {KINDS[event.kind]}{order} {where}{read}{initial}{written}"


def bytes_text(execution: Execution, edge: Edge) -> str:
    """Which bytes a read takes from a writer, if there are several writers."""
    writers = execution.events[edge.target].writers
    if len(set(writers)) < 2:
        return ""
    numbers = [number for number, writer in enumerate(writers) if writer == edge.source]
    runs = itertools.groupby(enumerate(numbers), lambda pair: pair[1] - pair[0])
    parts = [[number for _, number in run] for _, run in runs]
    return " " + ", ".join(str(part[0]) if len(part) == 1 else f"{part[0]}..{part[-1]}" for part in parts)


# ---- the edges


@dataclass(frozen=True)
class Drawn:
    """An edge with its colour and its width: wide ones are of the cycle or at fault."""

    edge: Edge
    label: str
    style: str
    is_red: bool
    is_wide: bool


def drawn_edges(execution: Execution, shown: Shown) -> list[Drawn]:
    """The edges of the picture, those of the initial memory left out: what they say is at the reads."""
    found = []
    for edge in (*execution.program_order(), *execution.reads_from(), *shown.edges):
        style = "sw" if execution.synchronizes(edge) else edge.kind
        label = {"sb": "", "sw": "rf, sw"}.get(style, edge.kind)
        if edge.kind == "rf":
            label += bytes_text(execution, edge)
        ends = edge.source, edge.target
        found.append(Drawn(edge, label, style, ends in shown.red and edge.kind in ("sb", "rf"), ends in shown.wide))
    return found


# ---- SVG


def text(x: float, y: float, line: str, more: str = "") -> str:
    return f'<text x="{x:.1f}" y="{y:.1f}"{more}>{html.escape(line, quote=False)}</text>'


def path(points: Sequence[Point], color: str, more: str) -> str:
    way = " L".join(f"{x:.1f},{y:.1f}" for x, y in points)
    return f'<path d="M{way}" fill="none" stroke="{color}" marker-end="url(#{marker(color)})"{more}/>'


def marker(color: str) -> str:
    return f"arrow-{color[1:]}"


def markers() -> Iterator[str]:
    for color in (*COLORS.values(), RED):
        yield (
            f'<marker id="{marker(color)}" viewBox="0 0 10 10" refX="9" refY="5" markerWidth="9" markerHeight="9" '
            f'markerUnits="userSpaceOnUse" orient="auto"><path d="M0,1 L10,5 L0,9 z" fill="{color}"/></marker>'
        )


def line_style(drawn: Drawn) -> str:
    dash = ' stroke-dasharray="6 3"' if drawn.style in ("fr", "co") else ""
    return f'{dash} stroke-width="{2 if drawn.is_wide else 1}"'


def node_parts(box: Box, node: Node, event: Event, color: str) -> Iterator[str]:
    for inset in (0.0, 3.0) if event.is_atomic else (0.0,):
        inner = box.grown(-inset)
        yield (
            f'<rect x="{inner.x:.1f}" y="{inner.y:.1f}" width="{inner.width:.1f}" height="{inner.height:.1f}" '
            f'fill="none" stroke="{color}"/>'
        )
    for number, line in enumerate(node.lines):
        small = ' font-size="11"' if number else ""
        yield text(box.x + 10, box.y + 18 + number * LINE, line, f'{small} fill="{color}"')


def legend_lines(edges: Sequence[Drawn], execution: Execution, shown: Shown) -> Iterator[tuple[str, str, str]]:
    """What is explained below the picture: a colour, the style of a line, and words."""
    for style, meaning in MEANINGS.items():
        if any(each.style == style for each in edges):
            yield COLORS[style], ' stroke-dasharray="6 3"' if style in ("fr", "co") else "", meaning
    if any(each.is_red for each in edges):
        yield RED, ' stroke-width="2"', "happens-before that the violation rests on"
    if any(each.is_wide and not each.is_red for each in edges):
        yield "#000000", ' stroke-width="2"', "wide arrows are a cycle: no order of all accesses has these values"
    if shown.faulty:
        yield "", "", "red events: those of the violation"
    atomic = "; two borders: an atomic access (sc)" if any(each.is_atomic for each in execution.events.values()) else ""
    yield "", "", f"#N: the place in the log's order; T.N: event N of thread T{atomic}"


def legend(lines: Sequence[tuple[str, str, str]], top: float) -> Iterator[str]:
    for number, (color, style, words) in enumerate(lines):
        y = top + number * LINE
        if color:
            yield f'<path d="M{MARGIN},{y - 4:.1f} L{MARGIN + 36},{y - 4:.1f}" stroke="{color}"{style}/>'
        yield text(MARGIN + 46, y, words, ' font-size="12"')


def svg(width: float, height: float, title: str, parts: Sequence[str]) -> str:
    return "\n".join(
        [
            f'<svg xmlns="http://www.w3.org/2000/svg" width="{width:.0f}" height="{height:.0f}" '
            f'viewBox="0 0 {width:.0f} {height:.0f}" font-family="monospace" font-size="13" role="img">',
            f"<title>{html.escape(title, quote=False)}</title>",
            f"<defs>{''.join(markers())}</defs>",
            '<rect width="100%" height="100%" fill="#ffffff"/>',
            *parts,
            "</svg>",
            "",
        ]
    )


@dataclass(frozen=True)
class Picture:
    """A picture, with the layout and the edges that it shows."""

    svg: str
    layout: Layout
    edges: list[Drawn]


def drawn(document: Sequence[Any], graph: str, names: Mapping[int, str], title: str = "") -> Picture:
    """The picture of a log in version 2, from what `wmlab graph` prints of it. `names` has the names of addresses."""
    shown, execution = shown_by(graph), Execution(document)
    heading = f"{title}. {title_of(shown.verdict)}" if title else title_of(shown.verdict)
    if not 0 < len(execution.events) <= MOST_EVENTS:
        count = len(execution.events)
        raise NotDrawn(f"the log has {count} events; this draws 1 to {MOST_EVENTS}, and wmlab graph some of more")
    nodes = [[node_of(event, execution, shown, names) for event in thread] for thread in execution.threads]
    edges = drawn_edges(execution, shown)
    arrows = [Arrow(each.edge.source, each.edge.target, each.label) for each in edges]
    top = MARGIN + LINE + 14
    layout = laid_out(nodes, shown.threads, arrows, top)
    lines = list(legend_lines(edges, execution, shown))
    parts = [text(MARGIN, MARGIN + 8, heading, ' font-weight="bold"')]
    bold = ' font-weight="bold" fill="#444444"'
    parts += [text(box.x, box.y + 13, line, bold) for box, line in zip(layout.titles, shown.threads)]
    for each, route, label in zip(edges, layout.routes, layout.labels):
        color = RED if each.is_red else COLORS[each.style]
        parts.append(path(route, color, line_style(each)))
        if label:
            parts.append(text(label.x + 2, label.y + 12, each.label, f' fill="{color}"'))
    for node in itertools.chain(*nodes):
        color = RED if node.name in shown.faulty else "#000000"
        parts += node_parts(layout.nodes[node.name], node, execution.events[node.name], color)
    below = layout.bottom + 34
    parts += legend(lines, below)
    wide = max([len(heading) * (CHARACTER + 0.3), *(46 + width_of(words) for *_, words in lines)])
    width = max(layout.right, wide + MARGIN) + MARGIN
    return Picture(svg(width, below + len(lines) * LINE, heading, parts), layout, edges)


def node_of(event: Event, execution: Execution, shown: Shown, names: Mapping[int, str]) -> Node:
    first = event_text(event, execution.places.get(event.name, 0), names)
    place = shown.places.get(event.name, "")
    return Node(event.name, (first, place) if place else (first,))
