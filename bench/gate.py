#!/usr/bin/env python3
"""Measures what each crate costs the checks: processor seconds of proof, tests and wrong bodies.

    bench/gate.py sample FOLDER FILE    notes in FILE what the processes of a running `rt ci` of
                                        FOLDER have taken, until no `rt ci` of FOLDER runs any more
    bench/gate.py table [--log LOG] FILE..
                                        writes a table of the crates, the sums and the longest
                                        chain of crates; of several runs each number is the greatest

LOG is what `rt ci` printed: a crate whose proof it found kept, or some of whose wrong bodies, has
no number from that run, and stands below the table.

Processes are looked at every 0.7 seconds, so the last moment of each is not counted. Wrong bodies
are tried in folders of their own, so those of all runs on the machine are counted. FILE has a line
for each crate, `CRATE KIND=SECONDS ..`; one that begins with a time of day is passed over. No part
of the checks.
"""

from __future__ import annotations

import argparse
import os
import re
import sys
import time
from collections import defaultdict
from dataclasses import dataclass
from pathlib import Path

TOP = Path(__file__).resolve().parent.parent
KINDS = ("proof", "tests", "edits")
# The name under which `rt` itself stands.
RT = "rt"
TICKS = os.sysconf("SC_CLK_TCK")
PAUSE = 0.7
HEAD = "| crate | proof | tests | wrong bodies |\n|---|---|---|---|\n"
# What `rt ci` says of what it needn't do again.
KEPT = re.compile(r"^rt: (\w+) is kept:", re.M)
TRIED = re.compile(r"^rt: (\w+): \d+ of its \d+ must-fail edits were tried by an earlier", re.M)

Times = dict[tuple[str, str], float]


@dataclass(frozen=True)
class Process:
    """A process of the system, as /proc shows it."""

    pid: str
    start: str
    words: list[str]
    folder: str
    seconds: float


def processes() -> list[Process]:
    """Those that can be looked at."""
    found = []
    for pid in filter(str.isdigit, os.listdir("/proc")):
        try:
            stat = Path("/proc", pid, "stat").read_text(encoding="utf-8", errors="replace")
            words = Path("/proc", pid, "cmdline").read_bytes().decode(errors="replace").split("\0")
            folder = os.readlink(f"/proc/{pid}/cwd")
        except OSError:
            continue
        # The name may have spaces and brackets. Fields 14, 15 and 22: user and system time, start.
        fields = stat[stat.rindex(")") + 2:].split()
        seconds = (int(fields[11]) + int(fields[12])) / TICKS
        found.append(Process(pid, fields[19], words, folder, seconds))
    return found


def is_run(process: Process, folder: str) -> bool:
    """Whether this is the `rt ci` of the folder."""
    names = [os.path.basename(word) for word in process.words]
    return "rt" in names[:2] and "ci" in process.words and process.folder.startswith(folder)


def part_of(process: Process, folder: str) -> tuple[str, str] | None:
    """The crate and the kind of work of a process of the run, if it is one."""
    if is_run(process, folder):
        return RT, RT
    if not any(name in os.path.basename(process.words[0]) for name in ("rattle", "clang")):
        return None
    if "--crate-name" in process.words[:-1]:
        crate = process.words[process.words.index("--crate-name") + 1]
    else:
        crate = os.path.basename(process.words[0])
    if "/rt-edit" in process.folder:
        return crate, "edits"
    if process.folder.startswith(folder):
        return crate, "tests" if "--test" in process.words else "proof"
    return None


def as_text(sums: Times) -> str:
    """The lines of a file of times."""
    lines = []
    for crate in sorted({crate for crate, _ in sums}):
        kinds = (kind for kind in (*KINDS, RT) if (crate, kind) in sums)
        lines.append(" ".join([crate, *(f"{kind}={sums[crate, kind]:.1f}" for kind in kinds)]))
    return "".join(f"{line}\n" for line in lines)


def sample(folder: str, file: Path) -> None:
    """Looks at the processes until the run has ended, and writes what they have taken."""
    taken: dict[tuple[str, str], tuple[tuple[str, str], float]] = {}
    runs = True
    while runs:
        runs = False
        for process in processes():
            runs = runs or is_run(process, folder)
            if (part := part_of(process, folder)) is not None:
                taken[process.pid, process.start] = part, process.seconds
        sums: Times = defaultdict(float)
        for part, seconds in taken.values():
            sums[part] += seconds
        file.write_text(as_text(sums), encoding="utf-8")
        time.sleep(PAUSE)


def read_times(files: list[Path]) -> Times:
    """What the files have, of each number the greatest."""
    times: Times = {}
    for path in files:
        for number, line in enumerate(path.read_text(encoding="utf-8").splitlines(), 1):
            if re.match(r"\d\d:\d\d:\d\d ", line):
                continue
            crate, *cells = line.split()
            found = [re.fullmatch(r"(\w+)=(\d+(?:\.\d+)?)", cell) for cell in cells]
            for it in found:
                if it is None:
                    sys.exit(f"{path}, line {number}: not CRATE KIND=SECONDS ..: {line}")
                part = crate, it[1]
                times[part] = max(times.get(part, 0.0), float(it[2]))
    return times


def read_crates() -> dict[str, list[str]]:
    """The crates of crates.txt, lowest first, each with those of them that it uses."""
    crates: dict[str, list[str]] = {}
    for line in (TOP / "crates.txt").read_text(encoding="utf-8").splitlines():
        if found := re.match(r"(\w+)[^:#]*:([^#]*)", line):
            crates[found[1]] = [name for name in found[2].split() if name in crates]
    return crates


def without_kept(times: Times, log: str) -> tuple[Times, list[str]]:
    """The times without those of what a run found kept, and what is told of that."""
    kept = {(crate, "proof") for crate in KEPT.findall(log)}
    kept |= {(crate, "edits") for crate in TRIED.findall(log)}
    told = [f"{kind} of {crate}: kept, not measured" for crate, kind in sorted(kept)]
    return {part: seconds for part, seconds in times.items() if part not in kept}, told


def longest(crates: dict[str, list[str]], times: Times) -> tuple[float, list[str]]:
    """The chain of crates whose proofs, one after another, take the longest."""
    chains: dict[str, tuple[float, list[str]]] = {}
    for crate, below in crates.items():
        seconds, chain = max((chains[name] for name in below), default=(0.0, []))
        chains[crate] = seconds + times.get((crate, "proof"), 0.0), [*chain, crate]
    return max(chains.values())


def table(crates: dict[str, list[str]], times: Times) -> str:
    """The table."""
    rows = []
    for crate in crates:
        cells = [f"{times[crate, kind]:.0f}" if (crate, kind) in times else "" for kind in KINDS]
        rows.append(f"| `{crate}` | {' | '.join(cells)} |\n")
    return HEAD + "".join(rows)


def sums(crates: dict[str, list[str]], times: Times) -> str:
    """The sums in minutes, and the longest chain."""
    every = {kind: sum(times.get((crate, kind), 0.0) for crate in crates) for kind in KINDS}
    every[RT] = times.get((RT, RT), times.get((RT, "python"), 0.0))
    told = ", ".join(f"{kind} {seconds / 60:.0f}" for kind, seconds in every.items())
    seconds, chain = longest(crates, times)
    return (
        f"Minutes: {told}; all {sum(every.values()) / 60:.0f}\n"
        f"Longest chain, {seconds:.0f} seconds: {' '.join(chain)}\n"
    )


def given() -> argparse.Namespace:
    """The words of the command line."""
    parser = argparse.ArgumentParser(description="Measures what each crate costs the checks.")
    commands = parser.add_subparsers(dest="command", required=True)
    sampler = commands.add_parser("sample", help="note what a running rt ci takes")
    sampler.add_argument("folder", help="where it runs")
    sampler.add_argument("file", type=Path, help="where the times are written")
    tables = commands.add_parser("table", help="write the table")
    tables.add_argument("--log", type=Path, help="what rt ci printed")
    tables.add_argument("files", type=Path, nargs="+", metavar="FILE", help="times")
    return parser.parse_args()


def main() -> None:
    """Samples, or writes the table."""
    words = given()
    if words.command == "sample":
        try:
            sample(os.path.realpath(words.folder), words.file)
        except KeyboardInterrupt:
            pass
        return
    times, told, crates = read_times(words.files), list[str](), read_crates()
    if words.log:
        times, told = without_kept(times, words.log.read_text(encoding="utf-8", errors="replace"))
    print(table(crates, times))
    print(sums(crates, times), end="")
    print("".join(f"{line}\n" for line in told), end="")


if __name__ == "__main__":
    try:
        main()
    except (OSError, UnicodeDecodeError) as fault:
        sys.exit(f"bench/gate.py: {fault}")
