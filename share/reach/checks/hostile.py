"""Inputs and words that are bad: a line on standard error, a status, and nothing else."""

from __future__ import annotations

import contextlib
import io
import os
import subprocess
import tempfile
from collections.abc import Iterator
from dataclasses import dataclass
from pathlib import Path

from ..command import main
from .scripts import EXAMPLES, REACH, TOP

TOOL, LISTER = TOP / "share" / "credtrace-reach", TOP / "share" / "credtrace-files"
BAD, NOT_ASKED = 2, 3
DROPPED = str(REACH / "dropped.trace")
UID = ["--task", "t1", "--uid", "0"]


@dataclass(frozen=True)
class Given:
    """What is wrong, and the words."""

    what: str
    words: list[str]
    status: int = BAD


class Maker:
    """Makes files in a folder."""

    def __init__(self, folder: Path) -> None:
        self.folder = folder

    def file(self, name: str, content: bytes) -> str:
        """A file with this content."""
        path = self.folder / name
        path.write_bytes(content)
        return str(path)


def scripts(make: Maker) -> Iterator[Given]:
    """Scripts that are bad, and tasks that can't be asked about."""
    first = b"init t1 p1 0 0 n0\n"
    many = b"".join(b"t1 fork t%d p%d\n" % (at, at) for at in range(2, 64))
    files = b"".join(b"file f%d reg 0 0 0755\n" % at for at in range(256))
    yield Given("a folder", [str(make.folder), *UID])
    yield Given("no file", [str(make.folder / "none"), *UID])
    yield Given("no text", [make.file("bytes", first + b"\xff\xfe\n"), *UID])
    yield Given("a zero byte", [make.file("zero", b"init t1 p1 0 0 n0\0\n"), *UID])
    yield Given("a megabyte and more", [make.file("large", b"#" * 80 + b"\n" * (1 << 20)), *UID])
    yield Given("no line", [make.file("empty", b""), *UID])
    yield Given("line 0", [DROPPED, "--line", "0", *UID])
    yield Given("no such line", [DROPPED, "--line", "99", *UID])
    yield Given("no such task", [DROPPED, "--task", "t9", "--uid", "0"])
    yield Given("a task that ended", [make.file("ended", first + b"t1 exit\n"), *UID])
    yield Given("an override", [
        make.file("lent", first + b"take h1 t1\noverride t1 h1\n"), *UID])  # fmt: skip
    yield Given("an open call", [
        make.file("open", first + b"t1 spawn t2\nbegin t1 setuid 5\n"), *UID])  # fmt: skip
    yield Given("63 tasks", [make.file("many", first + many), *UID])
    yield Given("256 files", [make.file("files", files + first), *UID])


def words(make: Maker) -> Iterator[Given]:
    """Words that are bad."""
    yield Given("no such file to skip", [DROPPED, *UID, "--skip", "none"])
    yield Given("no list", [DROPPED, *UID, "--files", str(make.folder / "none")])
    yield Given("a bad list", [DROPPED, *UID, "--files", make.file("list", b"t1 setuid 0\n")])
    yield Given("a list of a bad file", [
        DROPPED, *UID, "--files", make.file("kind", b"file a dev 0 0 0755\n")])  # fmt: skip
    yield Given("no place for a witness", [
        str(REACH / "wu-ftpd.trace"), *UID, "--witness", str(make.folder)])  # fmt: skip


def usage() -> Iterator[Given]:
    """Words that lead to the usage."""
    yield Given("no task", [DROPPED, "--uid", "0"])
    yield Given("no question", [DROPPED, "--task", "t1"])
    yield Given("a task that is none", [DROPPED, "--task", "<b>", "--uid", "0"])
    yield Given("an id that is none", [DROPPED, "--task", "t1", "--uid", "-1"])
    yield Given("an id too large", [DROPPED, "--task", "t1", "--uid", "4294967295"])
    yield Given("no capability", [DROPPED, "--task", "t1", "--cap", "CAP_ROOT"])
    yield Given("a set without a capability", [DROPPED, *UID, "--in", "ambient"])
    yield Given("a graph of no call", ["--graph", "open"])
    yield Given("a graph of too many ids", ["--graph", "setuid", "--ids", "0,1,2,3"])
    yield Given("a graph of a script", [DROPPED, "--graph", "setuid"])


@dataclass(frozen=True)
class Done:
    """How a command ended, and what it wrote: how far it is left out."""

    status: int | None
    out: str
    err: str


def run(given: Given) -> Done:
    """Runs the command, here."""
    out, err = io.StringIO(), io.StringIO()
    with contextlib.redirect_stdout(out), contextlib.redirect_stderr(err):
        try:
            status: int | None = main(given.words)
        except SystemExit as end:
            status = end.code if isinstance(end.code, int) else None
    lines = [line for line in err.getvalue().splitlines(True) if not line.endswith(" so far\n")]
    return Done(status, out.getvalue(), "".join(lines))


def faults() -> list[str]:
    """What ended in another way."""
    found = []
    with tempfile.TemporaryDirectory() as folder:
        make = Maker(Path(folder))
        for given in (*scripts(make), *words(make)):
            done = run(given)
            if done.status != given.status or done.out or done.err.count("\n") != 1:
                found.append(f"{given.what}: status {done.status}: {done.err[-300:]}")
        for given in usage():
            done = run(given)
            if done.status != BAD or done.out or "usage: " not in done.err:
                found.append(f"{given.what}: status {done.status}: {done.err[-300:]}")
        found += of_program(Path(folder))
        found += of_lister(make)
    return found


def of_program(folder: Path) -> list[str]:
    """What the tool says where there is no program."""
    done = subprocess.run(
        [TOOL, DROPPED, *UID], capture_output=True, encoding="latin-1", check=False,
        env={**os.environ, "CREDTRACE": f"{folder}/none"},
    )  # fmt: skip
    if done.returncode == NOT_ASKED and done.stderr.count("\n") == 1:
        return []
    return [f"no program: status {done.returncode}: {done.stderr[-300:]}"]


def lister(words: list[str]) -> Done:
    """Runs credtrace-files."""
    done = subprocess.run([LISTER, *words], capture_output=True, encoding="latin-1", check=False)
    return Done(done.returncode, done.stdout, done.stderr)


def of_lister(make: Maker) -> list[str]:
    """What credtrace-files does with a folder of ours, and with one that isn't there."""
    found = []
    for name, mode in (("plain", 0o755), ("2 ids", 0o6755), ("su", 0o4755), ("sg", 0o2711)):
        make.file(name, b"")
        (make.folder / name).chmod(mode)
    (make.folder / "below").mkdir()
    Maker(make.folder / "below").file("su", b"")
    (make.folder / "below" / "su").chmod(0o4700)
    (make.folder / "link").symlink_to("su")
    done = lister([str(make.folder)])
    lines = [line.split() for line in done.out.splitlines() if not line.startswith("#")]
    told = [f"{words[1]} {words[5]}" for words in lines]
    if told != ["f2_ids 6755", "sg 2711", "su 4755", "su-2 4700"] or done.status:
        found.append(f"credtrace-files lists {told}: status {done.status}: {done.err}")
    path = make.file("listed", done.out.encode())
    asked = run(Given("", [str(EXAMPLES / "daemon.trace"), *UID, "--files", path]))
    if asked.status not in (0, 1):
        found.append(f"the list isn't read: {asked.err}")
    none = lister([str(make.folder / "none")])
    if none.status != BAD or none.err.count("\n") != 1 or none.out:
        found.append(f"credtrace-files of no folder: status {none.status}: {none.err}")
    return found
