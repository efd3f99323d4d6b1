"""The comparisons of hosts as tasks of dask.distributed, with workers of its own or of a cluster.

Only as many hosts are handed out as workers have threads. The scheduler gives a task up once four
workers have died that had it, also where it only waited there: so none waits at a worker.
"""

from __future__ import annotations

import contextlib
import importlib
import logging
import os
import tempfile
import time
from collections import deque
from collections.abc import Iterator
from dataclasses import dataclass, field
from pathlib import Path
from queue import Empty, SimpleQueue
from typing import Any

from tool.inputs import Fault

from .host import Host, Outcome, failed

LACKS = (
    "dask.distributed isn't installed for this Python (Debian: python3-distributed); "
    "docs/AN-AUDIT-LOG.md shows how GNU parallel does the same without it"
)
SHARE = str(Path(__file__).resolve().parents[1])
# So many seconds a scheduler, and then a worker, is waited for.
PATIENCE = 30
# How often it is looked whether there are workers still, in seconds.
PAUSE = 2.0


def distributed() -> Any:
    """dask.distributed."""
    try:
        module = importlib.import_module("distributed")
        importlib.import_module("cloudpickle").register_pickle_by_value(
            importlib.import_module(__name__)
        )
    except ImportError:
        raise Fault(LACKS) from None
    logging.getLogger("distributed").setLevel(logging.CRITICAL)
    return module


def on_worker(share: str, words: list[str]) -> Any:
    """The task. It is sent as it is, and takes the tools from where they lie on the worker."""
    import sys

    if share not in sys.path:
        sys.path.insert(0, share)
    host = __import__("auditd.host", fromlist=["outcome_of"])
    return host.outcome_of(words)


def processors() -> int:
    """How many workers run at once."""
    return len(os.sched_getaffinity(0))


@contextlib.contextmanager
def own_workers(count: int) -> Iterator[Any]:
    """A client with worker processes of its own, which end with it."""
    module = distributed()
    with tempfile.TemporaryDirectory(prefix="credtrace-fleet-") as folder:
        with module.LocalCluster(
            n_workers=count, threads_per_worker=1, processes=True, dashboard_address=None,
            local_directory=folder, memory_limit=None, silence_logs=logging.CRITICAL,
        ) as cluster, module.Client(cluster) as client:  # fmt: skip
            yield client


@contextlib.contextmanager
def cluster_at(address: str) -> Iterator[Any]:
    """A client of a scheduler that runs already."""
    module = distributed()
    try:
        client = module.Client(address, timeout=PATIENCE)
    except (OSError, ValueError) as fault:
        why = str(fault).partition("\n")[0]
        raise Fault(f"no scheduler answers at {address}: {why}") from None
    with client:
        try:
            client.wait_for_workers(1, timeout=PATIENCE)
        except Exception as fault:
            if isinstance(fault, (TimeoutError, module.TimeoutError, OSError)):
                raise Fault(f"the scheduler at {address} has no worker") from None
            raise
        yield client


@dataclass
class Running:
    """The hosts that workers have."""

    client: Any
    done: SimpleQueue[Any] = field(default_factory=SimpleQueue)
    hosts: dict[str, tuple[Any, Host]] = field(default_factory=dict)
    # When a worker was there last.
    seen: float = field(default_factory=time.monotonic)

    def room(self) -> int:
        """How many more the workers can take."""
        threads: int = sum(self.client.nthreads().values())
        if threads:
            self.seen = time.monotonic()
        return max(threads, 1) - len(self.hosts)

    def hand(self, host: Host) -> None:
        """Hands a host to a worker."""
        future = self.client.submit(on_worker, SHARE, list(host.words), pure=False)
        self.hosts[future.key] = future, host
        future.add_done_callback(self.done.put)

    def next(self) -> tuple[Host, Outcome] | None:
        """A host that is done; None where none was for a while."""
        try:
            found = self.done.get(timeout=PAUSE)
        except Empty:
            return None
        future, host = self.hosts.pop(found.key)
        try:
            return host, future.result()
        except Exception as fault:
            return host, failed(reason(fault))


def reason(fault: BaseException) -> str:
    """Why a host's task failed, in a line."""
    if type(fault).__name__ == "KilledWorker":
        return "each worker that compared it was killed, several one after another"
    said = str(fault).partition("\n")[0]
    return f"{type(fault).__name__}: {said}" if said else type(fault).__name__


def outcomes(client: Any, hosts: list[Host]) -> Iterator[tuple[Host, Outcome]]:
    """Each host with what came of it, as they come."""
    running, waiting = Running(client), deque(hosts)
    while waiting or running.hosts:
        try:
            for _ in range(min(running.room(), len(waiting))):
                running.hand(waiting[0])
                waiting.popleft()
        except (OSError, RuntimeError) as fault:
            why = f"the scheduler doesn't answer any more: {reason(fault)}"
            break
        found = running.next()
        if found is not None:
            yield found
        elif time.monotonic() - running.seen > PATIENCE:
            why = "no worker is left"
            break
    for host in [*(host for _, host in running.hosts.values()), *waiting]:
        yield host, failed(why)
