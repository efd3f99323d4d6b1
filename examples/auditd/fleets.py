"""Fleets: what share/credtrace-fleet says of many hosts, also where a worker is killed.

The tool is run as a user runs it, by a Python that has dask.distributed. Where there is none, that
is said.
"""

from __future__ import annotations

import importlib.util
import json
import os
import signal
import subprocess
import sys
import tempfile
import time
from collections.abc import Callable, Iterator
from dataclasses import dataclass
from pathlib import Path
from typing import Any

from larger import rounds

HERE = Path(__file__).resolve().parent
TOOL = HERE.parents[1] / "share" / "credtrace-fleet"
# The hosts of a small fleet, with the status of each.
FLEET = {"su/log": 0, "overwritten/log": 1, "begun": 0, "none/log": 2}
WORKERS, HOSTS, RECORDS = 4, 12, 6000

Run = Callable[..., tuple[int, str, str]]


def python() -> str | None:
    """A Python that has dask.distributed."""
    if importlib.util.find_spec("distributed"):
        return sys.executable
    asks = ["/usr/bin/python3", "-c", "import distributed"]
    try:
        done = subprocess.run(asks, capture_output=True, check=False)
    except OSError:
        return None
    return asks[0] if done.returncode == 0 else None


def lines_of(text: str) -> list[dict[str, Any]]:
    """What the tool wrote, a line each."""
    return [json.loads(line) for line in text.splitlines()]


def without_dask() -> str:
    """A Python that lacks it ends in a line and a status."""
    with tempfile.TemporaryDirectory() as folder:
        Path(folder, "distributed.py").write_text("raise ImportError\n", encoding="ascii")
        done = subprocess.run(
            [sys.executable, str(TOOL), str(HERE / "su" / "log")], capture_output=True, text=True,
            check=False, env=os.environ | {"PYTHONPATH": folder},
        )  # fmt: skip
    told = (done.returncode, done.stdout, done.stderr.count("\n"))
    assert told == (2, "", 1) and "python3-distributed" in done.stderr, f"{told} {done.stderr}"
    return "without dask.distributed credtrace-fleet ends in a line"


def processes(word: str) -> set[int]:
    """The processes that have this word in their environment."""
    found = set()
    for path in Path("/proc").glob("[0-9]*/environ"):
        try:
            if word.encode("ascii") in path.read_bytes():
                found.add(int(path.parent.name))
        except OSError:
            continue
    return found


def own_workers(interpreter: str) -> str:
    """A small fleet by workers of its own, of which none is left."""
    mark = f"CREDTRACE_FLEET_TRY={os.getpid()}"
    name, _, value = mark.partition("=")
    done = subprocess.run(
        [interpreter, str(TOOL), "--workers", "2", *(str(HERE / host) for host in FLEET)],
        capture_output=True, text=True, check=False, env=os.environ | {name: value},
    )  # fmt: skip
    left = processes(mark)
    assert not left, f"processes are left: {left}"
    found = lines_of(done.stdout)
    assert done.returncode == 1 and done.stderr == "", f"{done.returncode} {done.stderr}"
    statuses = {one["host"]: one["status"] for one in found if "status" in one}
    wanted = {str(HERE / host): status for host, status in FLEET.items()}
    assert statuses == wanted, f"{statuses}, and not {wanted}"
    fleet = found[-1]["fleet"]
    assert fleet["failed"] == [str(HERE / "none/log")], fleet
    assert fleet["classes"]["unexplained"] == 1 and fleet["hosts"] == len(FLEET), fleet
    return f"a fleet of {len(FLEET)} hosts is compared by two workers, and none is left"


@dataclass
class Cluster:
    """A scheduler, and workers, each a process of its own."""

    scheduler: subprocess.Popen[bytes]
    address: str
    workers: list[subprocess.Popen[bytes]]

    def end(self) -> None:
        """Ends them all."""
        for one in (*self.workers, self.scheduler):
            one.terminate()
        for one in (*self.workers, self.scheduler):
            one.wait()


def cluster(interpreter: str, place: Path) -> Cluster:
    """Begins one, whose scheduler writes its address into a file."""
    file, quiet = place / "scheduler.json", subprocess.DEVNULL
    module = [interpreter, "-m", "distributed.cli."]
    scheduler = subprocess.Popen(
        [*module[:2], f"{module[2]}dask_scheduler", "--port", "0", "--no-dashboard",
         "--scheduler-file", str(file)], cwd=place, stdout=quiet, stderr=quiet,
    )  # fmt: skip
    while not file.exists() or not file.read_text().strip():
        assert scheduler.poll() is None, "the scheduler doesn't begin"
        time.sleep(0.1)
    address = json.loads(file.read_text())["address"]
    workers = [
        subprocess.Popen(
            [*module[:2], f"{module[2]}dask_worker", address, "--no-nanny", "--nthreads", "1",
             "--no-dashboard", "--name", str(number)], cwd=place, stdout=quiet, stderr=quiet,
        ) for number in range(WORKERS)
    ]  # fmt: skip
    return Cluster(scheduler, address, workers)


def hosts(place: Path) -> Iterator[Path]:
    """Logs of some size, each host's another part of one."""
    records = list(rounds(HOSTS * RECORDS))
    for number in range(HOSTS):
        path = place / f"host-{number:02}.log"
        part = records[number * RECORDS : (number + 1) * RECORDS]
        path.write_text("\n".join([*part, ""]), encoding="latin-1")
        yield path


def killed(interpreter: str, alone: Callable[[Path], dict[str, Any]]) -> str:
    """A scheduler and four workers, one of which is killed in the middle: each host is told once,
    as it is told when it is compared alone."""
    with tempfile.TemporaryDirectory() as folder:
        place = Path(folder)
        paths = list(hosts(place))
        there = cluster(interpreter, place)
        try:
            words = [interpreter, str(TOOL), "--scheduler", there.address, *map(str, paths)]
            tool = subprocess.Popen(words, stdout=subprocess.PIPE, text=True)
            assert tool.stdout is not None
            lines = [tool.stdout.readline()]
            there.workers[0].send_signal(signal.SIGKILL)
            lines += tool.stdout.readlines()
            status = tool.wait()
            before = there.workers[0].wait()
        finally:
            there.end()
        found = lines_of("".join(lines))
        told = [one for one in found if "status" in one]
        assert before == -signal.SIGKILL and status in (0, 1), f"{before} {status}"
        assert sorted(one["host"] for one in told) == [str(path) for path in paths], told
        for one in told:
            wanted = alone(Path(one["host"]))
            assert one.get("summary") == wanted, f"{one}, and alone {wanted}"
        assert status == max(one["status"] for one in told), status
        fleet = found[-1]["fleet"]
    return (
        f"a scheduler with {WORKERS} workers, one of which is killed: {fleet['hosts']} hosts of "
        f"{RECORDS} records, {fleet['records']} records and {fleet['calls']} calls are told, each "
        "as it is alone"
    )


def check(run: Run, main: Callable[[list[str]], int], whole: bool) -> Iterator[str]:
    """What each check says."""
    yield without_dask()
    interpreter = python()
    if interpreter is None:
        yield "dask.distributed isn't installed: no fleet is compared"
        return
    yield own_workers(interpreter)

    def alone(log: Path) -> dict[str, Any]:
        _, text, _ = run(main, ["--json", str(log)])
        summary: dict[str, Any] = lines_of(text)[-1]["summary"]
        return summary

    if whole:
        yield killed(interpreter, alone)
