"""Where a log comes from: a file, one that is packed, or the files of strace -ff."""

from __future__ import annotations

import errno
import heapq
import lzma
import re
import subprocess
import sys
import zlib
from collections.abc import Iterator
from contextlib import contextmanager
from pathlib import Path
from typing import BinaryIO

from .lines import BadLog
from .reader import Source, text_lines

GZIP = b"\x1f\x8b"
XZ = b"\xfd7zXZ\0"
ZSTD = b"\x28\xb5\x2f\xfd"

# zlib's word for the form of gzip.
GZIP_FORM = 31


class Unpacked:
    """The bytes that gzip has packed, up to where they are cut."""

    def __init__(self, file: BinaryIO) -> None:
        self._file = file
        self._unpacks = zlib.decompressobj(GZIP_FORM)

    def read(self, count: int) -> bytes:
        """The next bytes."""
        found = b""
        while not found:
            packed = self._unpacks.unconsumed_tail or self._unpacks.unused_data
            packed = packed or self._file.read(1 << 16)
            if not packed:
                return b""
            if self._unpacks.eof:
                self._unpacks = zlib.decompressobj(GZIP_FORM)
            found = self._unpacks.decompress(packed, count)
        return found


class UnpackedXz:
    """The bytes that xz has packed, up to where they are cut."""

    def __init__(self, file: BinaryIO) -> None:
        self._file = file
        self._unpacks = lzma.LZMADecompressor()

    def read(self, count: int) -> bytes:
        """The next bytes."""
        while True:
            packed = b""
            if self._unpacks.eof:
                packed = self._unpacks.unused_data or self._file.read(1 << 16)
                if not packed:
                    return b""
                self._unpacks = lzma.LZMADecompressor()
            elif self._unpacks.needs_input:
                packed = self._file.read(1 << 16)
                if not packed:
                    return b""
            try:
                found = self._unpacks.decompress(packed, count)
            except lzma.LZMAError as fault:
                raise OSError(errno.EINVAL, f"xz can't unpack it: {fault}") from None
            if found:
                return found


@contextmanager
def by_zstd(path: str) -> Iterator[Source]:
    """The bytes that zstd(1) has packed, which it unpacks itself."""
    try:
        words = ["zstd", "-dcq", "--", path]
        process = subprocess.Popen(words, stdout=subprocess.PIPE, stderr=subprocess.DEVNULL)
    except OSError:
        raise OSError(errno.ENOENT, "it is packed by zstd, which isn't installed") from None
    with process:
        if process.stdout is not None:
            yield process.stdout
        process.kill()


STAMP = re.compile(r"(?:(\d\d):(\d\d):(\d\d(?:\.\d+)?)|(\d{6,}(?:\.\d+)?)) +")


@contextmanager
def source_of(path: str) -> Iterator[Source]:
    """The bytes of a log."""
    if path == "-":
        yield sys.stdin.buffer
        return
    with open(path, "rb") as file:
        begins = file.peek(6)[:6]
        if begins.startswith(GZIP):
            yield Unpacked(file)
        elif begins == XZ:
            yield UnpackedXz(file)
        elif begins.startswith(ZSTD):
            with by_zstd(path) as unpacked:
                yield unpacked
        else:
            yield file


def stamped(path: str, place: int) -> Iterator[tuple[float, int, int, str]]:
    """The lines of one task, each with its time, and with the pid in front."""
    match = re.search(r"\.(\d{1,9})(?:\.(?:gz|xz|zst))?$", path)
    if match is None:
        name = Path(path).name
        raise BadLog(0, f"{name}: of several logs each has a pid at its end, as by strace -ff")
    with source_of(path) as source:
        for count, text in enumerate(text_lines(source), 1):
            time = STAMP.match(text)
            if time is None:
                what = "of several logs each line has its time: record with -ff -ttt"
                raise BadLog(count, f"of {Path(path).name}: {what}")
            if time[4]:
                seconds = float(time[4])
            else:
                seconds = int(time[1]) * 3600 + int(time[2]) * 60 + float(time[3])
            yield seconds, place, count, f"{match[1]} {text[time.end():]}"


def merged(paths: list[str]) -> Iterator[str]:
    """The lines of several logs in the order of their times."""
    parts = [stamped(path, place) for place, path in enumerate(paths)]
    for _, _, _, text in heapq.merge(*parts):
        yield text
