"""docker and podman: each case is a line, over one image or its root."""

from __future__ import annotations

import subprocess
import time
from collections.abc import Iterator
from contextlib import contextmanager
from dataclasses import dataclass
from pathlib import Path

from declared.checks.stored import Case, Truth, truth_of

from .place import Place, make_users
from .runtimes import ALONE, MESSAGE

SECONDS = 60
IMAGE = "declared:1"
# In a PID and a mount namespace of its own, with no network.
DAEMON = """mount --make-rprivate / && mount -t proc proc /proc && mount -t tmpfs none /run &&
exec dockerd --iptables=false --bridge=none --ip-forward=false --ip-masq=false \
  --storage-driver=vfs --data-root="$1/data" --exec-root="$1/exec" --pidfile="$1/pid" \
  -H "unix://$1/sock" > "$1/log" 2>&1"""
# Raising limits asks for CAP_SYS_RESOURCE.
PODMAN = (
    "podman run --rm --cgroup-manager=cgroupfs --cgroups=disabled --network none "
    "--ulimit nofile=500:500 --ulimit nproc=500:500"
).split()  # fmt: skip


@dataclass(frozen=True)
class Engine:
    """How a line is run: the words before those of the case, and those behind."""

    before: list[str]
    behind: list[str]


@contextmanager
def docker(place: Place, root: Path) -> Iterator[Engine]:
    """A dockerd of its own, with the image."""
    folder = place.folder / "docker"
    folder.mkdir(exist_ok=True)
    words = ["unshare", "--fork", "--pid", "--mount", "--kill-child", "sh", "-c", DAEMON, "sh"]
    with subprocess.Popen([*words, str(folder)]) as daemon:
        try:
            client = ["docker", "-H", f"unix://{folder}/sock"]
            for _ in range(100):
                if subprocess.run([*client, "version"], capture_output=True).returncode == 0:
                    break
                time.sleep(0.3)
            # Without these attributes are lost.
            tar = ["tar", "--xattrs", "--xattrs-include=*", "--format=pax", "-c", "."]
            with subprocess.Popen(tar, cwd=root, stdout=subprocess.PIPE) as files:
                subprocess.run([*client, "import", "-", IMAGE], stdin=files.stdout, check=True)
            yield Engine([*client, "run", "--rm", "--network", "none"], [IMAGE])
        finally:
            # unshare itself passes over other signals.
            daemon.kill()


@contextmanager
def podman(_: Place, root: Path) -> Iterator[Engine]:
    """podman, over the root itself, where cgroup2 alone is mounted."""
    alone = ["unshare", "--mount", "sh", "-c", ALONE, "sh"]
    yield Engine([*alone, *PODMAN], ["--rootfs", str(root)])


def run(engine: Engine, case: Case) -> Truth:
    """The truth of a case."""
    words = [*engine.before, *case.declared["words"], *engine.behind, "/" + case.declared["file"]]
    try:
        done = subprocess.run(words, capture_output=True, text=True, timeout=SECONDS, check=False,
                              stdin=subprocess.DEVNULL)  # fmt: skip
    except subprocess.TimeoutExpired:
        return Truth(said="it took too long")
    lines = [line for line in done.stderr.splitlines() if "--help" not in line and line.strip()]
    return truth_of(done.stdout, said=lines[-1][-MESSAGE:] if lines else f"{done.returncode}")


def record(kind: str, place: Place, root: Path, cases: list[Case]) -> list[Case]:
    """The cases with their truths. podman adds users to the passwd of a root: each begins anew."""
    found = []
    with (docker if kind == "docker" else podman)(place, root) as engine:
        for it in cases:
            make_users(root)
            found.append(Case(it.number, it.kind, it.declared, {kind: run(engine, it)}))
    return found
