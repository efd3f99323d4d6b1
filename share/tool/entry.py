"""How the tools end: their streams, and the statuses of an interrupt and of a closed pipe."""

from __future__ import annotations

import contextlib
import errno
import fcntl
import io
import os
import sys
from collections.abc import Callable
from typing import Any, NoReturn

# As a shell tells the ends by SIGPIPE and by SIGINT; and as the program where writing fails.
BROKEN, INTERRUPTED, NOT_WRITTEN = 141, 130, 4


class ClosedStream(io.RawIOBase):
    """A standard stream that was closed before the tool began: what uses it fails."""

    _failed = False

    def readable(self) -> bool:
        """It fails as a read, and not as another stream."""
        return True

    def writable(self) -> bool:
        """The same of a write."""
        return True

    def readinto(self, _buffer: Any) -> int:
        """read(2) of a descriptor that isn't open."""
        raise OSError(errno.EBADF, "it is closed")

    def write(self, given: Any) -> int:
        """write(2) of one. What fails once isn't tried again when Python ends."""
        if self._failed:
            return len(given)
        self._failed = True
        raise OSError(errno.EBADF, "it is closed")


def keep_descriptors() -> None:
    """Opens what a closed standard descriptor is for the other way round: so no file that the tool
    opens, or has a program inherit, gets its number, and whoever uses it fails as before."""
    for number, way in ((0, os.O_WRONLY), (1, os.O_RDONLY), (2, os.O_RDONLY)):
        try:
            fcntl.fcntl(number, fcntl.F_GETFD)
        except OSError:
            found = os.open(os.devnull, way)
            if found != number:
                os.dup2(found, number)
                os.close(found)
            os.set_inheritable(number, True)


def is_written(number: int) -> bool:
    """Whether a descriptor is open for writing: a shell may leave another file in its place."""
    return fcntl.fcntl(number, fcntl.F_GETFL) & os.O_ACCMODE != os.O_RDONLY


def open_streams() -> None:
    """Puts something into the place of each standard stream that is closed."""
    keep_descriptors()
    if sys.stdin is None:
        sys.stdin = io.TextIOWrapper(io.BufferedReader(ClosedStream()))
    if sys.stdout is None:
        sys.stdout = io.TextIOWrapper(io.BufferedWriter(ClosedStream()))
    if sys.stderr is None or not is_written(2):
        # What is told of a run that nobody hears of is no reason to end it.
        sys.stderr = open(os.devnull, "w", encoding="latin-1")


def entry(main: Callable[[list[str]], int]) -> NoReturn:
    """Runs a command. Paths are written with the bytes that they have in the log."""
    open_streams()
    for stream in (sys.stdout, sys.stderr):
        if isinstance(stream, io.TextIOWrapper):
            stream.reconfigure(encoding="latin-1", errors="replace")
    try:
        try:
            status = main(sys.argv[1:])
        except SystemExit as end:
            # So argparse ends, which has written its help.
            status = end.code if isinstance(end.code, int) else 0
        sys.stdout.flush()
    except KeyboardInterrupt:
        status = INTERRUPTED
    except OSError as fault:
        # Whoever reads a pipe may end before we do.
        status = BROKEN if isinstance(fault, BrokenPipeError) else NOT_WRITTEN
        if status == NOT_WRITTEN:
            with contextlib.suppress(OSError):
                print(f"standard output: {fault.strerror}", file=sys.stderr)
        os.dup2(os.open(os.devnull, os.O_WRONLY), 1)
    try:
        sys.stderr.flush()
    except OSError:
        # Python tries what is left once more when it ends.
        os.dup2(os.open(os.devnull, os.O_WRONLY), 2)
    sys.exit(status)
