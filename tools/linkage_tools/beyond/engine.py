"""The engine: Dask's scheduler and workers, on this machine or by the address of a scheduler. It plans, tries again and shows progress."""

import contextlib
import sys
import threading
from collections.abc import Callable, Iterator
from pathlib import Path
from typing import Any

import dask
import distributed
from distributed.scheduler import KilledWorker

from ..tables import Fault
from .jobs import Alone
from .runs import Ended

PATIENCE = {"distributed.comm.timeouts.connect": "300s", "distributed.comm.timeouts.tcp": "300s"}  # on a machine that is busy
RETRIES = 2  # of a task whose program was killed or wanted memory; a task whose worker died is done again by the scheduler
AT_ONCE = 20_000  # tasks that the scheduler is given together


@contextlib.contextmanager
def engine(workers: int, scheduler: str | None, page: str | None, scratch: str) -> Iterator[distributed.Client]:
    """A client of the scheduler at an address or of a scheduler's file, else of one with workers of its own, one thread each.

    What the latter say to each other is ciphered by a key of this command's own, so nobody else of the machine can give them work.
    """
    with contextlib.ExitStack() as stack:
        stack.enter_context(dask.config.set(PATIENCE))
        if scheduler is None:
            how = {"n_workers": workers, "threads_per_worker": 1, "local_directory": scratch, "dashboard_address": page}
            cluster = stack.enter_context(distributed.LocalCluster(**how, security=True, silence_logs=50))
            yield stack.enter_context(distributed.Client(cluster))
        else:
            how = {"scheduler_file": scheduler} if Path(scheduler).is_file() else {"address": scheduler}
            try:
                client = stack.enter_context(distributed.Client(**how, timeout=30))
            except (OSError, ValueError) as lack:
                raise Fault(f"there is no scheduler at {scheduler}: {lack}") from lack
            yield client


def told(task: Callable[..., Any], *words: Any) -> Any:
    """What a task comes to; a fault is handed back, so that nothing tries it again."""
    try:
        return task(*words)
    except (Fault, Alone) as fault:
        return fault
    except OSError as lack:
        return Fault(f"{lack.filename or 'a file'}: {lack.strerror}: see to it, and start again")


def each(client: distributed.Client, task: Callable[..., Any], work: Any, items: list[tuple]) -> Iterator[tuple[int, Any]]:
    """The number of each item of a list and what the task over it comes to, as they end. Fault: the first; the others are given up."""
    for number, found in outcomes(client, task, work, items):
        if isinstance(found, Exception):
            raise found
        yield number, found


def all_of(client: distributed.Client, task: Callable[..., Any], work: Any, items: list[tuple]) -> list[Any]:
    """What the task over each item of a list comes to, when all have ended. Fault: that of the first item that has one."""
    found = [outcome for _, outcome in sorted(outcomes(client, task, work, items), key=lambda it: it[0])]
    for outcome in found:
        if isinstance(outcome, Exception):
            raise outcome
    return found


def outcomes(client: distributed.Client, task: Callable[..., Any], work: Any, items: list[tuple]) -> Iterator[tuple[int, Any]]:
    """As `each`, with a fault in the place of what a task comes to. Fault: the task cannot be done again and again."""
    for low in range(0, len(items), AT_ONCE):
        futures = [client.submit(told, task, work, *item, pure=False, retries=RETRIES) for item in items[low:low + AT_ONCE]]
        number = {future.key: at for at, future in enumerate(futures, low)}
        bar = shown(futures)
        try:
            for future, found in distributed.as_completed(futures, with_results=True):
                yield number[future.key], found
        except Ended as lack:
            raise Fault(f"{lack}, {RETRIES + 1} times") from lack
        except KilledWorker as lack:
            last = lack.last_worker.address
            raise Fault(f"workers died at one task again and again, the last was {last}: do they have memory enough?") from lack
        finally:
            client.cancel(futures)
            bar()


def shown(futures: list[distributed.Future]) -> Callable[[], None]:
    """Shows Dask's bar on a terminal, and gives what waits for its end."""
    if not sys.stderr.isatty():
        return lambda: None
    thread = threading.Thread(target=distributed.progress, args=(futures,), daemon=True)
    thread.start()
    return lambda: thread.join(1)
