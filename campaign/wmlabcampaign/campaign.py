"""One campaign: its batches in waves, their results, and the table."""
from __future__ import annotations

import sys
from collections.abc import Callable, Iterator, Sequence
from typing import TYPE_CHECKING

from .batches import Batch, batches_of
from .faults import FAILED, Fault
from .folder import Finished, Folder
from .histograms import Histograms
from .plan import Part
from .table import Table

# These need Dask, which is imported when a campaign runs.
if TYPE_CHECKING:
    from distributed import Future

    from .cluster import Cluster

# The batches that the scheduler has at once, so that its memory and ours stay bounded.
WAVE_BATCHES = 1_000
WAVE_BYTES = 64 * 2**20
MOST_FAILURES_SHOWN = 10


class Wave:
    """Batches that are sent and not finished. Batches of the same name are one piece of work."""

    def __init__(self) -> None:
        self.batches: dict[str, list[Batch]] = {}
        self.futures: dict[Future, str] = {}
        self.bytes = 0

    def add(self, batch: Batch, submit: Callable[[Batch], Future]) -> None:
        if batch.name not in self.batches:
            self.futures[submit(batch)] = batch.name
            self.bytes += len(getattr(batch, "packed_lines", b""))
        self.batches.setdefault(batch.name, []).append(batch)

    def take(self, future: Future) -> list[Batch]:
        return self.batches.pop(self.futures.pop(future))

    @property
    def is_full(self) -> bool:
        return len(self.batches) >= WAVE_BATCHES or self.bytes >= WAVE_BYTES


class Campaign:
    """Counts each batch once, by its number, from the one result of its name."""

    def __init__(self, parts: Sequence[Part], folder: Folder, most_logs: int) -> None:
        self.parts, self.folder, self.most_logs = parts, folder, most_logs
        self.table = Table(dict.fromkeys(part.module.path for part in parts))
        self.kept: set[str] = set()
        self.judged: set[str] = set()
        self.failures: list[Batch] = []
        self.batches = self.finished = self.from_before = 0
        self.is_cut = False
        self.tests = Histograms()

    def numbered_batches(self) -> Iterator[Batch]:
        for part in self.parts:
            first = self.batches + 1
            for batch in batches_of(part, self.most_logs, first):
                self.batches = batch.number
                yield batch
            if self.batches < first:
                print(f"campaign: no logs: {' '.join(part.places)}", file=sys.stderr)
        self.is_cut = True

    def count(self, batch: Batch, result: Finished) -> None:
        self.tests.add(result.get("histograms", []))
        self.table.add(batch.module.path, result["counts"])
        self.kept.update(result["kept"])
        self.finished += 1

    def take_results(self, wave: Wave, cluster: Cluster, is_waited_for: bool) -> None:
        for future in cluster.completed(list(wave.futures), is_waited_for):
            result, batches = cluster.result_of(future), wave.take(future)
            if "failure" in result:
                self.fail(batches, result["failure"])
                continue
            written = self.folder.finish(batches[0], result)
            self.judged.add(batches[0].name)
            for batch in batches:
                self.count(batch, written)

    def fail(self, batches: list[Batch], reason: str) -> None:
        self.failures += batches
        if len(self.failures) <= MOST_FAILURES_SHOWN:
            batch = batches[0]
            print(f"campaign: batch {batch.number} ({batch.origin(0)}) failed: {reason}", file=sys.stderr)

    def finish_wave(self, wave: Wave, cluster: Cluster) -> None:
        with cluster.progress(list(wave.futures)):
            self.take_results(wave, cluster, is_waited_for=True)

    def run(self, cluster: Cluster) -> None:
        wave = Wave()
        for batch in self.numbered_batches():
            written = self.folder.finished(batch)
            if written:
                self.count(batch, written)
                self.from_before += batch.name not in self.judged
                continue
            wave.add(batch, cluster.submit)
            if wave.is_full:
                self.finish_wave(wave, cluster)
                wave = Wave()
            else:
                self.take_results(wave, cluster, is_waited_for=False)
        self.finish_wave(wave, cluster)

    @property
    def status(self) -> int:
        return FAILED if self.failures else self.table.status

    def text(self) -> str:
        """The table, and below it how far the campaign is and what is kept."""
        lines = list(self.table.lines())
        of = f" of {self.batches:,}" if self.is_cut else ", and there are more"
        before = f", {self.from_before:,} of them by an earlier run" if self.from_before else ""
        lines.append(f"batches finished: {self.finished:,}{of}{before}")
        for module in self.table.without_documents():
            lines.append(f"no line for {module} is a document: a log has to be on one line, as wmlab migrate prints it")
        if self.failures:
            lines.append(f"batches that failed and are not counted: {len(self.failures):,}; --resume tries them again")
        if self.kept:
            count = len(self.kept)
            logs = "1 log with its explanation" if count == 1 else f"{count:,} logs with their explanations"
            lines.append(f"kept: {logs} in {self.folder.place('kept')}")
        return "\n".join(lines) + "\n"

    def report(self) -> None:
        """Prints the table and writes it beside the results."""
        text = self.text()
        try:
            for path in self.tests.write(self.folder):
                text += f"histograms: {path}\n"
        except Fault as fault:
            print(f"campaign: {fault}", file=sys.stderr)
        sys.stdout.write(text)
        sys.stdout.flush()
        try:
            self.folder.write_table(text)
        except Fault as fault:
            print(f"campaign: {fault}", file=sys.stderr)
