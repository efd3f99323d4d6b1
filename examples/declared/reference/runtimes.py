"""runc and crun: each case is run as a container."""

from __future__ import annotations

import subprocess
from dataclasses import dataclass
from pathlib import Path

from declared.checks import configs
from declared.checks.stored import Case, Truth, truth_of

from .place import Place, mapped_base

SECONDS = 30
MESSAGE = 160
# crun is run where cgroup2 alone is mounted.
ALONE = "umount -l /sys/fs/cgroup; mount -t cgroup2 none /sys/fs/cgroup; exec \"$@\""


@dataclass(frozen=True)
class Roots:
    """The roots of containers: of those without a user namespace, and with one."""

    plain: Path
    mapped: Path


def roots(place: Place) -> Roots:
    """Makes both."""
    return Roots(place.rootfs("rootfs"), place.rootfs("rootfs-mapped", mapped_base()))


def command(runtime: str, bundle: Path, name: str) -> list[str]:
    """How a container is run."""
    if runtime == "runc":
        return ["runc", "run", "-b", str(bundle), name]
    crun = ["crun", "--cgroup-manager=disabled", "run", "-b", str(bundle), name]
    return ["unshare", "--mount", "sh", "-c", ALONE, "sh", *crun]


def run(place: Place, where: Roots, runtime: str, case: Case) -> Truth:
    """The truth of a case."""
    bundle = place.folder / f"bundle-{runtime}"
    bundle.mkdir(exist_ok=True)
    root = where.mapped if case.declared.get("mapped") else where.plain
    (bundle / "config.json").write_text(configs.text(case.declared, str(root)), encoding="utf-8")
    words = command(runtime, bundle, f"declared-{runtime}-{case.number}")
    try:
        done = subprocess.run(words, capture_output=True, text=True, timeout=SECONDS, check=False,
                              stdin=subprocess.DEVNULL)  # fmt: skip
    except subprocess.TimeoutExpired:
        return Truth(said="it took too long")
    said = done.stderr.strip().splitlines()
    return truth_of(done.stdout, said=said[-1][-MESSAGE:] if said else f"status {done.returncode}")


def record(place: Place, where: Roots, case: Case) -> Case:
    """A case with the truth of both."""
    truths = {it: run(place, where, it, case) for it in ("runc", "crun")}
    return Case(case.number, case.kind, case.declared, truths)
