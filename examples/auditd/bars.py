"""The bars of the sweeps: stored numbers that may only get better."""

from __future__ import annotations

import os
import time
from collections.abc import Callable, Iterator
from functools import partial
from pathlib import Path

from sweeps import ATTACKS, Counts, attacks, lost, middle, read
from auditd.records import Event

HERE = Path(__file__).resolve().parent
LOGS = (
    "su", "sudo", "ping", "setpriv", "set-user-id", "nginx", "sshd", "cron", "signals", "threads",
    "python-threads", "nosuid", "strace", "filter",
)  # fmt: skip
# In .ci/run each sweep is of one place of so many.
STEP = 9
# Of these numbers more is better; of the others less is.
MORE = ("runs", "unexplained", "unexplained at that record")


Sweep = Callable[[dict[str, list[Event]], int], Counts]


def sweeps() -> dict[str, Sweep]:
    """The sweeps by their names."""
    found: dict[str, Sweep] = {f"attack, {name}": partial(attacks, name) for name in ATTACKS}
    return found | {"middle": middle, "lost": lost}


Bars = dict[tuple[str, str], int]


def read_bars(path: Path) -> Bars:
    """The stored numbers: a line for each sweep, step and number."""
    found: Bars = {}
    if path.exists():
        for line in path.read_text(encoding="ascii").splitlines():
            head, _, number = line.rpartition(": ")
            sweep, _, what = head.partition("; ")
            found[sweep, what] = int(number)
    return found


def worse(wanted: Bars, found: Bars) -> Iterator[str]:
    """The numbers that got worse."""
    for key in sorted({*wanted, *found}):
        number, now = wanted.get(key, 0), found.get(key, 0)
        if now < number if key[1] in MORE else now > number:
            yield f"{key[0]}; {key[1]}: {now}, and it was {number}"


def check(path: Path, whole: bool, writes: bool) -> Iterator[str]:
    """Sweeps, and compares with the bars."""
    step = 1 if whole else STEP
    logs = {name: read(HERE / name / "log") for name in LOGS}
    wanted, found = read_bars(path), Bars()
    for name, sweep in sweeps().items():
        began, used = time.monotonic(), sum(os.times()[:4])
        counts = sweep(logs, step)
        head = f"{name}, one place of {step}"
        for what, number in counts.numbers.items():
            found[head, what] = number
        told = ", ".join(f"{what}: {number}" for what, number in counts.numbers.items())
        yield (f"{head}: {told} ({time.monotonic() - began:.0f} s, "
               f"{sum(os.times()[:4]) - used:.0f} s of a processor)")  # fmt: skip
        yield from (f"    {one}" for one in counts.told)
    mine = {key: number for key, number in wanted.items() if key[0].endswith(f" of {step}")}
    if writes:
        text = "".join(f"{sweep}; {what}: {number}\n"
                       for (sweep, what), number in sorted((wanted | found).items()))  # fmt: skip
        path.write_text(text, encoding="ascii")
        return
    assert mine or whole, f"{path.name} has no bars"
    faults = list(worse(mine, found)) if mine else []
    assert not faults, "a sweep got worse: " + "; ".join(faults)
