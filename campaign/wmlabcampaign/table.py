"""The counts of a campaign, by module and by kind of answer."""
from collections import Counter
from collections.abc import Iterable, Iterator, Mapping

from .faults import ALLOWED, BROKEN, REFUSED

HEAD = ("module", "logs", "allowed", "broken", "refused")


class Table:
    """Counts of answers. A kind is `allowed`, or begins with `broken` or `refused`."""

    def __init__(self, modules: Iterable[str]) -> None:
        self.counts: dict[str, Counter[str]] = {module: Counter() for module in modules}

    def add(self, module: str, counts: Mapping[str, int]) -> None:
        self.counts[module].update(counts)

    def total(self, verdict: str = "") -> int:
        return sum(total_of(counts, verdict) for counts in self.counts.values())

    @property
    def status(self) -> int:
        """By the answers: broken before refused; a module without a log was not judged."""
        if self.total("broken"):
            return BROKEN
        is_judged = all(self.counts.values()) and self.counts
        return ALLOWED if is_judged and not self.total("refused") else REFUSED

    def without_documents(self) -> Iterator[str]:
        """The modules of which no line was a document, as if a document were on several lines."""
        for module, counts in self.counts.items():
            unread = sum(count for kind, count in counts.items() if kind.startswith("refused document "))
            if counts["refused document NotJson"] and 1 < unread == sum(counts.values()):
                yield module

    def lines(self) -> Iterator[str]:
        rows: list[tuple[str, ...]] = [HEAD]
        for module, counts in self.counts.items():
            rows.append((module, *(f"{total_of(counts, verdict):,}" for verdict in ("", *HEAD[2:]))))
        width = [max(len(row[place]) for row in rows) for place in range(len(HEAD))]
        for row in rows:
            yield "  ".join([row[0].ljust(width[0]), *(cell.rjust(size) for cell, size in zip(row[1:], width[1:]))])
            others: Mapping[str, int] = self.counts.get(row[0], {})
            for kind, count in sorted(others.items(), key=lambda item: (-item[1], item[0])):
                if kind != "allowed":
                    yield f"{count:>10,}  {kind}"


def total_of(counts: Mapping[str, int], verdict: str) -> int:
    return sum(count for kind, count in counts.items() if kind.split(" ")[0] == verdict or not verdict)
