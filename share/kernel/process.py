"""The driver's process: how it is built, started, given scripts, and ended."""

from __future__ import annotations

import os
import re
import shlex
import shutil
import subprocess
import tempfile
from pathlib import Path

from .isolation import Fault, die_with_parent, made_apart

SOURCES = Path(__file__).resolve().parent / "driver"
FLAGS = (
    "-std=gnu11 -O1 -Wall -static -nostdlib -ffreestanding -fno-stack-protector -fno-pie -no-pie -s"
).split()
# How long one script may take, in seconds, where nothing else is said.
SECONDS = 60


def compiler() -> str:
    """The C compiler."""
    found = os.environ.get("CC") or shutil.which("cc") or shutil.which("gcc") or ""
    if not found:
        raise Fault("no C compiler: the driver is a small C program, and needs cc")
    return found


def build(folder: str) -> str:
    """Builds the driver into a folder."""
    program = os.path.join(folder, "credtrace-driver")
    sources = sorted(map(str, SOURCES.glob("*.c")))
    words = [*compiler().split(), *FLAGS, "-o", program, *sources]
    try:
        done = subprocess.run(
            words, stdout=subprocess.PIPE, stderr=subprocess.STDOUT, check=False,
            env=os.environ | {"TMPDIR": folder}, preexec_fn=die_with_parent,
        )  # fmt: skip
    except OSError as fault:
        raise Fault(f"{words[0]} can't be run: {fault.strerror}") from None
    if done.returncode:
        first = done.stdout.decode("latin-1").strip().split("\n")[0]
        first = first[:300] or f"{words[0]} ended with status {done.returncode}"
        raise Fault(f"the driver can't be built: {first}")
    return program


def bytes_of(folder: str) -> bytes:
    """The bytes of the driver, built in a folder."""
    return Path(build(folder)).read_bytes()


class Built:
    """The driver. It is no file, but memory; under another program it is one in a temporary folder,
    which `close` removes.
    """

    def __init__(self, via: str | None = None) -> None:
        self.via = via
        self.folder = ""
        if via is None:
            self.program = made_apart(bytes_of)
            self.file = os.memfd_create("credtrace-driver")
            os.write(self.file, self.program)
            self.path = f"/proc/self/fd/{self.file}"
            return
        self.folder = tempfile.mkdtemp(prefix="credtrace-")
        try:
            self.path = build(self.folder)
            self.program = Path(self.path).read_bytes()
            self.file = os.open(self.path, os.O_RDONLY | os.O_CLOEXEC)
            os.chmod(self.folder, 0o755)
        except BaseException:
            self.close()
            raise

    def words(self) -> list[str]:
        """What starts it."""
        if self.via is None:
            return [self.path]
        path = shlex.quote(self.path)
        command = self.via.replace("{}", path) if "{}" in self.via else f"{self.via} {path}"
        return ["sh", "-c", command]

    def close(self) -> None:
        """Removes the folder."""
        if self.folder:
            shutil.rmtree(self.folder, ignore_errors=True)


def shown(said: str) -> str:
    """What was said, where it may be any bytes: a terminal isn't given them as they are."""
    found = "".join(c if " " <= c <= "~" else "?" for c in said[:80])
    return found + ("..." if len(said) > 80 else "")


def ended(status: int, said: str) -> str:
    """Why the driver ended before it was to."""
    refused = re.fullmatch(r"cannot unshare (\d+)", said)
    if refused:
        call = f"unshare(2), CLONE_NEWNS, and with CLONE_NEWUSER: {os.strerror(int(refused[1]))}"
        return f"{call}: a mount or user namespace isn't allowed here"
    return f"the driver ended with status {status}" + (f" and said: {shown(said)}" if said else "")


class Driver:
    """A running driver, which is given one script after another."""

    def __init__(self, built: Built) -> None:
        self.built = built
        try:
            self.process = subprocess.Popen(
                built.words(), stdin=subprocess.PIPE, stdout=subprocess.PIPE,
                pass_fds=(built.file,), preexec_fn=die_with_parent,
            )  # fmt: skip
        except OSError as fault:
            raise Fault(f"the driver can't be run: {fault.strerror}") from None
        self.first = self.lines()

    def lines(self) -> list[str]:
        """What it says, up to the line that begins with a dot, which comes last."""
        found: list[str] = []
        assert self.process.stdout is not None
        for line in self.process.stdout:
            text = line.decode("latin-1").rstrip("\n")
            found.append(text)
            if text.startswith(". "):
                return found
        raise Fault(ended(self.process.wait(), " ".join(found)))

    def run(self, text: str, image: bytes = b"", seconds: int = SECONDS) -> list[str]:
        """What a script's calls were answered."""
        script = text.encode("ascii")
        assert self.process.stdin is not None
        try:
            head = f"script {seconds} {len(script)} {len(image)}\n".encode("ascii")
            self.process.stdin.write(head + script + image)
            self.process.stdin.flush()
        except BrokenPipeError:
            raise Fault(ended(self.process.wait(), "")) from None
        return self.lines()

    def close(self) -> None:
        """Ends it."""
        for stream in (self.process.stdin, self.process.stdout):
            if stream is not None:
                try:
                    stream.close()
                except BrokenPipeError:
                    pass
        self.process.wait()
