"""systemd, as PID 1 of namespaces of its own: units are started by a target that wants them."""

from __future__ import annotations

import os
import re
import shutil
import subprocess
import time
from collections.abc import Iterator
from dataclasses import dataclass
from pathlib import Path

from declared.checks.services import SYSTEMD, write
from declared.checks.stored import Case, Truth, truth_of

from .place import HERE, Place

# systemd tells no more than 200 lines in five seconds.
AT_ONCE = 100
PREFIX = "/units/bin/"
FOLDERS = ("proc", "sys", "dev", "run", "tmp", "etc", "var", "usr", "root", "home",
           "mnt")


@dataclass(frozen=True)
class Manager:
    """The folders of units and of what they write, and a folder of a cgroup2 tree."""

    place: Path
    units: Path
    out: Path
    cgroup: Path


def manager(place: Place, cgroups: Path) -> Manager:
    """Makes the folders, with the programs in them."""
    found = Manager(place.folder, place.folder / "systemd/units", place.folder / "out",
                    cgroups / "declared")  # fmt: skip
    for folder in (found.units, found.out):
        shutil.rmtree(folder, ignore_errors=True)
        folder.mkdir(parents=True)
    place.programs(found.units / "bin", prefix=PREFIX)
    root = found.units / "rootdir"
    place.programs(root / "units/bin", prefix=PREFIX)
    for name in FOLDERS:
        (root / name).mkdir()
    found.cgroup.mkdir(exist_ok=True)
    return found


def enter(cgroup: Path) -> None:
    """The child goes into the cgroup, and leaves the processor to others."""
    os.nice(10)
    (cgroup / "cgroup.procs").write_text(str(os.getpid()), encoding="ascii")


def start(it: Manager, names: list[str]) -> str:
    """Starts systemd for these units, and waits; its log."""
    end = it.out / "end"
    end.unlink(missing_ok=True)
    plain = "[Unit]\nDefaultDependencies=no\n"
    wants = " ".join(names)
    last = f"{plain}After={wants}\n[Service]\nType=oneshot\nExecStart=/bin/touch /out/end\n"
    (it.units / "end.service").write_text(last, encoding="ascii")
    (it.units / "trial.target").write_text(f"{plain}Wants={wants} end.service\n", encoding="ascii")
    options = "--fork --pid --mount --uts --ipc --cgroup --kill-child".split()
    folders = [str(path) for path in (it.place, it.units, it.out)]
    words = ["unshare", *options, "sh", str(HERE / "pid1.sh"), *folders]
    with open(it.out / "log", "wb") as log:
        child = subprocess.Popen(words, stdin=subprocess.DEVNULL, stdout=log,
                                 stderr=subprocess.STDOUT,
                                 preexec_fn=lambda: enter(it.cgroup))  # fmt: skip
        ends = time.monotonic() + 60 + len(names) / 4
        while time.monotonic() < ends and not end.exists() and child.poll() is None:
            time.sleep(0.2)
        time.sleep(0.5)
        child.kill()
        child.wait()
    time.sleep(0.3)
    return (it.out / "kmsg").read_text(encoding="utf-8", errors="replace")


def truth(it: Manager, name: str, log: str) -> Truth:
    """What a unit's program said, and how systemd says that it ended."""
    path = it.out / f"{name}.txt"
    told = path.read_text(encoding="utf-8") if path.exists() else ""
    unit = re.escape(f"{name}.service")
    ended = re.search(rf"{unit}: \w+ process exited, code=(\w+), status=(\S+)", log)
    status = "" if not ended or ended[2].startswith("0/") else ended[2]
    lines = [line.split("]: ", 1)[-1] for line in log.splitlines()
             if re.search(rf"\b{unit}\b", line) and re.match(r"<[0-5]>", line)]  # fmt: skip
    return truth_of(told, status, "; ".join(lines)[:200])


def record(it: Manager, cases: list[Case]) -> Iterator[Case]:
    """The cases with their truths."""
    log = ""
    names = [case.declared.get("name", f"x{case.number}") for case in cases]
    for name, case in zip(names, cases, strict=True):
        write(case, name, it.units)
        with open(it.units / f"{name}.service", "a", encoding="utf-8") as unit:
            unit.write(f"StandardOutput=file:/out/{name}.txt\n")
    for first in range(0, len(names), AT_ONCE):
        log += start(it, [f"{name}.service" for name in names[first : first + AT_ONCE]])
    for name, case in zip(names, cases, strict=True):
        yield Case(case.number, case.kind, case.declared, {SYSTEMD: truth(it, name, log)})
