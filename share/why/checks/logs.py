"""credtrace-compare --why of the stored logs of strace: each refused call has its sentence."""

from __future__ import annotations

import contextlib
import io

from strace.compare import command

from ..program import TOP


def faults() -> list[str]:
    """Logs whose refusals aren't told, or are told as faults."""
    found = []
    for log in sorted((TOP / "examples" / "strace").glob("*/log")):
        words = log.parent / "words"
        given = ["--why", *(words.read_text("ascii").split() if words.exists() else [])]
        given += ["--files", f"{log.parent}/files", "--start", f"{log.parent}/start"]
        out, err = io.StringIO(), io.StringIO()
        with contextlib.redirect_stdout(out), contextlib.redirect_stderr(err):
            status = command.main([*given, str(log)])
        text = out.getvalue()
        stored = (log.parent / "comparison").read_text(encoding="latin-1")
        wanted = command.ENDS_BEFORE if "the script ends before it" in stored else command.AGREES
        if status != wanted or not text.endswith(stored) or "is a fault of" in text:
            found.append(f"credtrace-compare --why of {log.parent.name}: status {status}")
    return found
