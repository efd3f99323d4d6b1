"""What a log begins with, from /proc: the credential of each thread, the folder and the root."""

from __future__ import annotations

import ctypes
import os
from dataclasses import dataclass
from pathlib import Path

from tool.inputs import Fault

PR_GET_SECUREBITS = 27

# The lines of /proc/PID/status that the command inherits; its pid isn't ours.
INHERITED = ("Uid:", "Gid:", "Groups:", "NoNewPrivs:", "Cap")


@dataclass(frozen=True)
class Beginning:
    """Where a log begins: the file or the folder of statuses, the folder, and the root."""

    start: Path
    status: str
    folder: str
    root: str


def read(path: str) -> str:
    """A text of /proc."""
    with open(path, encoding="latin-1") as file:
        return file.read()


def of_command(place: Path) -> Beginning:
    """What a command begins with that we execute: our own credential."""
    lines = read("/proc/self/status").split("\n")
    status = "".join(f"{line}\n" for line in lines if line.startswith(INHERITED))
    securebits = ctypes.CDLL(None, use_errno=True).prctl(PR_GET_SECUREBITS, 0, 0, 0, 0)
    status += f"Securebits: {securebits}\n" if securebits >= 0 else ""
    start = place / "start"
    start.write_text(status, encoding="latin-1")
    return Beginning(start, status, os.getcwd(), "/")


def of_process(place: Path, pid: int) -> Beginning:
    """What a process is that runs already, with each of its threads."""
    start = place / "start"
    own = f"/proc/{pid}"
    try:
        status = read(f"{own}/status")
        threads = sorted(os.listdir(f"{own}/task"), key=int)
        for thread in threads:
            (start / thread).mkdir(parents=True, exist_ok=True)
            text = read(f"{own}/task/{thread}/status")
            (start / thread / "status").write_text(text, encoding="latin-1")
    except OSError as fault:
        raise Fault(f"pid {pid}: {fault.strerror}") from None
    try:
        folder, root = os.readlink(f"{own}/cwd"), os.readlink(f"{own}/root")
    except OSError as fault:
        raise Fault(f"pid {pid} may not be traced: {fault.strerror} (ptrace(2))") from None
    return Beginning(start, status, folder, root)
