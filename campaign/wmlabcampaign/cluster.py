"""The cluster: Dask's own scheduler and workers, here or elsewhere."""
import argparse
import asyncio
import contextlib
import logging
import os
import signal
import sys
import warnings
from collections.abc import Callable, Iterable, Iterator
from concurrent.futures import CancelledError

from . import worker
from .batches import Batch, LitmusBatch, LogBatch, RoundBatch
from .faults import Fault
from .program import Materials
from .worker import Failure, Result

# Read by Dask when it is imported, here and in the processes of a local cluster.
os.environ.setdefault("DASK_LOGGING__DISTRIBUTED", "critical")

try:
    import cloudpickle
    from distributed import Client, Future, LocalCluster, as_completed
    from distributed.diagnostics.progressbar import TextProgressBar
except ImportError as error:
    raise Fault(f"Dask is missing ({error}): install Debian's package python3-distributed") from error

DASHBOARD = "127.0.0.1:8787"
SECONDS_TO_HEAR = 1


class SchedulerLost(Fault):
    """The scheduler was closed, or cannot be reached any more."""

    def __init__(self) -> None:
        super().__init__("the scheduler was closed, or cannot be reached any more")


def quiet() -> None:
    """Leaves out what Dask says of the ends of connections: what a campaign loses is reported by itself."""
    for name in list(logging.root.manager.loggerDict):
        if name.split(".")[0] in ("distributed", "tornado", "asyncio"):
            logging.getLogger(name).setLevel(logging.CRITICAL)
    # The materials go to the workers by way of the scheduler, so that they outlive each worker; the port of the
    # dashboard is printed anyway.
    warnings.filterwarnings("ignore", message="Large object of size|Port .* is already in use", append=False)


@contextlib.contextmanager
def ignored_interrupts() -> Iterator[None]:
    """Processes that are started here do not see the Ctrl-C of the terminal."""
    before = signal.signal(signal.SIGINT, signal.SIG_IGN)
    try:
        yield
    finally:
        signal.signal(signal.SIGINT, before)


class Cluster:
    """Sends batches to the workers, and yields their results."""

    def __init__(self, client: Client, materials: Materials, most_kept: int) -> None:
        self.client, self.most_kept, self.name = client, most_kept, materials.name[:16]
        self.workers = set(client.scheduler_info()["workers"])
        key = f"materials-{materials.name}"
        self.materials = client.submit(worker.materials_of, materials.packed, key=key)

    def submit(self, batch: Batch) -> Future:
        """A batch has the same key in each campaign that would get the same result."""
        task: Callable[..., Result | Failure]
        work: tuple[object, ...]
        if isinstance(batch, LogBatch):
            task, work = worker.logs_result, (batch.packed_lines,)
        elif isinstance(batch, LitmusBatch):
            task, work = worker.tests_result, (batch.words(), batch.logs)
        elif isinstance(batch, RoundBatch):
            task, work = worker.rounds_result, (batch.words(), batch.logs)
        else:
            raise TypeError(f"{type(batch).__name__} is no batch that a worker does")
        key = f"{task.__name__}-{batch.name}-{self.name}-{self.most_kept}"
        try:
            return self.client.submit(task, self.materials, batch.module.name, *work, self.most_kept, key=key)
        except Exception as error:  # Dask raises no other class here
            if self.client.status == "running":
                raise
            raise SchedulerLost from error

    def completed(self, futures: list[Future], is_waited_for: bool) -> Iterable[Future]:
        """The futures that have ended; if they are waited for, all of them, as they end."""
        if not is_waited_for:
            return [future for future in futures if future.done()]
        ended: Iterable[Future] = as_completed(futures)
        return ended

    def result_of(self, future: Future) -> Result | Failure:
        try:
            if future.status == "finished":
                result: Result | Failure = future.result()
                return result
            if future.status == "error":
                return {"failure": f"Dask gave it up: {future.exception()!r}"}
        except (CancelledError, OSError) as error:
            raise SchedulerLost from error
        raise SchedulerLost

    def report_lost(self) -> None:
        """How many of the first workers are not there any more."""
        lost = self.workers - set(self.client.scheduler_info()["workers"])
        if lost:
            print(f"campaign: workers that were lost: {len(lost)}; others had their batches", file=sys.stderr)

    @contextlib.contextmanager
    def progress(self, futures: list[Future]) -> Iterator[None]:
        """Dask's bar, on a terminal."""
        if not futures or not sys.stderr.isatty():
            yield
            return
        with contextlib.redirect_stdout(sys.stderr):
            bar = TextProgressBar(futures, start=False, loop=self.client.loop)
            listening = asyncio.run_coroutine_threadsafe(bar.listen(), self.client.loop.asyncio_loop)
            try:
                yield
            finally:
                # It draws until it has heard of the end.
                with contextlib.suppress(CancelledError, OSError):
                    listening.result(timeout=SECONDS_TO_HEAR)
                listening.cancel()
        print(file=sys.stderr)


@contextlib.contextmanager
def connected(options: argparse.Namespace) -> Iterator[Client]:
    """A client of the scheduler that is named, or of a local cluster."""
    cloudpickle.register_pickle_by_value(worker)
    quiet()
    with contextlib.ExitStack() as stack:
        try:
            with ignored_interrupts():
                client = stack.enter_context(client_of(options, stack))
        except (OSError, ValueError, RuntimeError) as error:
            place = options.scheduler or "a local cluster"
            raise Fault(f"cannot connect to {place}: {error}") from error
        announce(client)
        yield client


def client_of(options: argparse.Namespace, stack: contextlib.ExitStack) -> Client:
    if options.scheduler:
        return Client(options.scheduler)
    cluster = LocalCluster(
        n_workers=options.workers,
        threads_per_worker=1,
        processes=True,
        dashboard_address=DASHBOARD,
        silence_logs=logging.CRITICAL,
    )
    return Client(stack.enter_context(cluster))


def announce(client: Client) -> None:
    count = len(client.scheduler_info()["workers"])
    waits = "" if count else "; the batches wait for one"
    print(f"campaign: workers: {count}; dashboard: {client.dashboard_link}{waits}", file=sys.stderr)
