"""The program that the tools run."""

from __future__ import annotations

import os
import shutil
from pathlib import Path

# Where these tools lie: the repository, or the folder that bin/install has put them into.
TOP = Path(__file__).resolve().parents[2]


def program() -> str:
    """The program: CREDTRACE names another one than that beside these tools. Where it was installed
    unproved it has that in its name. Where the tools were copied alone a shell's path has it."""
    beside = TOP / "bin" / "credtrace"
    unproved = beside.with_name("credtrace-unproved")
    chosen = unproved if unproved.exists() and not beside.exists() else beside
    if not chosen.exists():
        chosen = Path(shutil.which("credtrace") or chosen)
    return os.environ.get("CREDTRACE") or str(chosen)


def cant_run(fault: OSError) -> str:
    """What is said where the program can't be run."""
    return f"{program()} can't be run: {fault.strerror} (CREDTRACE names another program)"
