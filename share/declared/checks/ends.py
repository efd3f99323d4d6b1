"""How the commands end: each is run in this process, as its command line."""

from __future__ import annotations

import contextlib
import io
import traceback
from collections.abc import Callable
from dataclasses import dataclass

Main = Callable[[list[str]], int]


@dataclass(frozen=True)
class End:
    """A status, and what was written."""

    status: int
    out: str
    error: str

    @property
    def is_line(self) -> bool:
        """Whether it is told in a line what was wrong."""
        return self.error.count("\n") == 1


def run(main: Main, words: list[str]) -> End:
    """Runs a command. A fault of it is its traceback."""
    out, error = io.StringIO(), io.StringIO()
    with contextlib.redirect_stdout(out), contextlib.redirect_stderr(error):
        try:
            status = main(words)
        except SystemExit as ended:
            status = ended.code if isinstance(ended.code, int) else 1
        except Exception:  # noqa: BLE001 - any other one is what is looked for
            return End(-1, out.getvalue(), traceback.format_exc())
    return End(int(status), out.getvalue(), error.getvalue())
