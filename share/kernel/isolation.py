"""Files that are made apart: in a mount namespace of its own, so that none is left behind, however
the command ends.
"""

from __future__ import annotations

import ctypes
import os
import shutil
import signal
import sys
import tempfile
from collections.abc import Callable
from typing import NoReturn

DIE_WITH_PARENT = 1
NEW_MOUNTS, NEW_USERS = 0x20000, 0x10000000
PRIVATE = 1 << 18 | 1 << 14
LIBC = ctypes.CDLL(None, use_errno=True)


class Fault(Exception):
    """Why nothing can be asked, in one line."""


def die_with_parent() -> None:
    """In a child: it ends where its parent does, however that ends."""
    LIBC.prctl(DIE_WITH_PARENT, signal.SIGKILL, 0, 0, 0)


def must(found: int, call: str, what: str) -> None:
    """What a call of libc returned."""
    if found:
        why = os.strerror(ctypes.get_errno())
        raise Fault(f"{call}: {why}: {what} isn't allowed here")


def mount(source: bytes, target: bytes, kind: bytes, flags: int) -> None:
    """mount(2)."""
    what = f"mount(2) of {os.fsdecode(target)}{' as a tmpfs' if kind else ', MS_PRIVATE'}"
    must(LIBC.mount(source, target, kind, flags, None), what, "mounting in a mount namespace")


def enter() -> None:
    """Into a mount namespace, and where that wants it into a user namespace."""
    user, group = os.geteuid(), os.getegid()
    if LIBC.unshare(NEW_MOUNTS):
        call = "unshare(2), CLONE_NEWNS, and with CLONE_NEWUSER"
        must(LIBC.unshare(NEW_MOUNTS | NEW_USERS), call, "a mount or user namespace")
        maps = ("uid_map", f"0 {user} 1"), ("gid_map", f"0 {group} 1")
        for name, text in (("setgroups", "deny"), *maps):
            with open(f"/proc/self/{name}", "w", encoding="ascii") as target:
                target.write(text)
    mount(b"none", b"/", b"", PRIVATE)


def place() -> str:
    """A folder that may be hidden meanwhile: nothing that is wanted stands in it."""
    wanted = [os.path.realpath(it) for it in (__file__, sys.executable, shutil.which("cc") or "/")]
    for folder in (tempfile.gettempdir(), "/mnt", "/media", "/srv", "/var/tmp"):
        inside = os.path.join(os.path.realpath(folder), "")
        if os.path.isdir(folder) and not any(it.startswith(inside) for it in wanted):
            return folder
    raise Fault("there is no folder in whose place files can be made apart")


def refused(fault: OSError) -> str:
    """What was refused: on a file, or by which function of Python."""
    frame = fault.__traceback__
    while frame is not None and frame.tb_next is not None:
        frame = frame.tb_next
    where = frame.tb_frame.f_code.co_name if frame else "?"
    return f"{fault.filename or f'a call of {where}()'}: {fault.strerror}"


def child(make: Callable[[str], bytes], to: int) -> NoReturn:
    """Makes the bytes, and writes them; or says why not."""
    status = 1
    try:
        for number in (signal.SIGTERM, signal.SIGHUP, signal.SIGINT):
            signal.signal(number, signal.SIG_DFL)
        die_with_parent()
        enter()
        folder = place()
        mount(b"none", os.fsencode(folder), b"tmpfs", 0)
        found, status = make(folder), 0
    except Fault as fault:
        found = str(fault).encode()
    except OSError as fault:
        found = f"{refused(fault)}: files can't be made apart".encode()
    with os.fdopen(to, "wb") as pipe:
        pipe.write(found)
    sys.stdout = sys.stderr = None  # type: ignore[assignment]
    os._exit(status)


def made_apart(make: Callable[[str], bytes]) -> bytes:
    """The bytes that are made in a folder, which nobody else sees."""
    read, write = os.pipe()
    pid = os.fork()
    if pid == 0:
        os.close(read)
        child(make, write)
    os.close(write)
    with os.fdopen(read, "rb") as pipe:
        found = pipe.read()
    _, status = os.waitpid(pid, 0)
    if status:
        raise Fault(found.decode("latin-1") or "the process that makes files apart was ended")
    return found
