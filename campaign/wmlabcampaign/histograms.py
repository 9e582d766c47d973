"""The histograms of litmus tests, added up over machines: for each version of an engine a page and lines of JSON."""
import html
import json
import os
import re
from typing import Any

from .folder import Folder, write_whole

STYLE = """
:root { color-scheme: light dark; --line: #8886; --bar: #4a7ebb; --bad: #c03030; }
body { font: 16px/1.5 system-ui, sans-serif; margin: 0 auto; max-width: 70rem; padding: 1rem; }
table { border-collapse: collapse; width: 100%; } td, th { padding: .1rem .6rem; text-align: left; }
td.count { text-align: right; } .bad { color: var(--bad); font-weight: 600; } summary { cursor: pointer; }
.bar div { background: var(--bar); height: 1rem; min-width: 1px; } .bar { width: 40%; }
"""

Row = dict[str, Any]


def key_of(state: Row) -> str:
    return json.dumps(state["values"], sort_keys=True)


def added(one: Row, other: Row) -> Row:
    """A test's histogram of two runs."""
    states = {key_of(state): dict(state) for state in one["states"]}
    for state in other["states"]:
        mine = states.setdefault(key_of(state), {**state, "count": 0})
        mine["count"] += state["count"]
    whole = {**one, "states": sorted(states.values(), key=lambda state: (-state["count"], key_of(state)))}
    for name in ("iterations", "seconds", "positive", "negative", "others"):
        whole[name] = one[name] + other[name]
    return whole


def state_text(state: Row) -> str:
    return " ".join(f"{name}={value};" for name, value in state["values"].items())


def state_row(row: Row, state: Row) -> str:
    share = 100 * state["count"] / row["iterations"]
    mark = "*" if state["starred"] else ""
    verdict = "" if state["verdict"] == "permitted" else f'<span class="bad">{html.escape(state["verdict"])}</span>'
    return (
        f'<tr><td>{mark}<td><code>{html.escape(state_text(state))}</code><td class="count">{state["count"]:,}'
        f'<td class="bar"><div style="width:{share:.2f}%"></div><td>{verdict}</tr>'
    )


def test_part(row: Row) -> str:
    seen = [state["values"] for state in row["states"]]
    unseen = sum(values not in seen for values in row["permitted"])
    least = "" if row.get("complete", True) else "at least "
    is_bad = any(state["verdict"] != "permitted" for state in row["states"])
    head = f'{row["name"]}: {row["positive"]:,} of {row["iterations"]:,}'
    return (
        f'<details{" open" if is_bad else ""}><summary><code>{html.escape(head)}</code></summary>'
        f'<p>{html.escape(row["origin"])}; {html.escape(row["condition"] or "no condition")}; '
        f'{least}{unseen} more outcomes are permitted and were not seen.</p>'
        f'<table>{"".join(state_row(row, state) for state in row["states"])}</table></details>'
    )


def page_of(engine: str, rows: list[Row]) -> str:
    iterations = sum(row["iterations"] for row in rows)
    seen = sum(row["positive"] > 0 for row in rows)
    bad = sum(any(state["verdict"] != "permitted" for state in row["states"]) for row in rows)
    return (
        f'<!doctype html><html lang="en"><meta charset="utf-8"><title>{html.escape(engine)}</title>'
        f"<style>{STYLE}</style>"
        f"<body><h1>{html.escape(engine)}</h1><p>{len(rows)} litmus tests, {iterations:,} iterations. The condition's "
        f"states were seen in {seen} tests; outcomes that are not permitted in {bad}. A star marks the condition's "
        f"states.</p>{''.join(map(test_part, rows))}</body></html>\n"
    )


class Histograms:
    """The tests of a campaign, by engine."""

    def __init__(self) -> None:
        self.engines: dict[str, dict[str, Row]] = {}

    def add(self, rows: list[Row]) -> None:
        for row in rows:
            engine = f"{row['engine']}, wrong on purpose: {row['wrong']}" if row["wrong"] else row["engine"]
            tests = self.engines.setdefault(engine, {})
            before = tests.get(row["name"])
            tests[row["name"]] = added(before, row) if before else row

    def write(self, folder: Folder) -> list[str]:
        """Writes a page and the lines of each engine. Answers the paths of the pages."""
        paths = []
        for engine, tests in sorted(self.engines.items()):
            stem = re.sub(r"[^\w.]+", "-", engine).strip("-")
            rows = list(tests.values())
            os.makedirs(folder.place("litmus"), exist_ok=True)
            lines = "".join(json.dumps(row) + "\n" for row in rows)
            write_whole(folder.place("litmus", f"{stem}.jsonl"), lines.encode())
            write_whole(folder.place("litmus", f"{stem}.html"), page_of(engine, rows).encode())
            paths.append(folder.place("litmus", f"{stem}.html"))
        return paths
