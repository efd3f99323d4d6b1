"""The tools, run on stored logs, and how a check ends that finds something."""

from __future__ import annotations

import contextlib
import io
import sys
from collections.abc import Callable
from pathlib import Path
from typing import NoReturn

HERE = Path(__file__).resolve().parent


def run(main: Callable[[list[str]], int], words: list[str]) -> tuple[int, str, str]:
    """A command's status, and what it writes."""
    out, err = io.StringIO(), io.StringIO()
    with contextlib.redirect_stdout(out), contextlib.redirect_stderr(err):
        status = main(words)
    return status, out.getvalue(), err.getvalue()


def fail(what: str) -> NoReturn:
    """Ends with what is wrong."""
    print(f"examples/strace/check: {what}")
    sys.exit(1)


def folders() -> list[Path]:
    """The stored logs."""
    return sorted(path.parent for path in HERE.glob("*/log"))


def inputs(folder: Path) -> list[str]:
    """The options of a stored log."""
    words = folder / "words"
    more = words.read_text(encoding="ascii").split() if words.exists() else []
    more += ["--files", str(folder / "files"), "--start", str(folder / "start")]
    # What runs on this machine is nothing to a stored log.
    return [*more, "--proc", str(folder / "proc")]
