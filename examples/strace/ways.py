"""Other ways in which people bring a log: the same log as strace writes it with other options."""

from __future__ import annotations

import gzip
import lzma
import re
import shutil
import subprocess
from pathlib import Path

TABLE = """% time     seconds  usecs/call     calls    errors syscall
------ ----------- ----------- --------- --------- ----------------
100.00    0.000545           2       190        25 total
"""


def packed(log: str, place: Path) -> list[str]:
    """As by -o '| gzip'."""
    (place / "log.gz").write_bytes(gzip.compress(log.encode("latin-1")))
    return [str(place / "log.gz")]


def packed_by_xz(log: str, place: Path) -> list[str]:
    """As by -o '| xz'."""
    (place / "log.xz").write_bytes(lzma.compress(log.encode("latin-1")))
    return [str(place / "log.xz")]


def packed_by_zstd(log: str, place: Path) -> list[str] | None:
    """As by -o '| zstd', where that is installed."""
    if shutil.which("zstd") is None:
        return None
    given = log.encode("latin-1")
    done = subprocess.run(["zstd", "-cq"], input=given, stdout=subprocess.PIPE, check=True)
    (place / "log.zst").write_bytes(done.stdout)
    return [str(place / "log.zst")]


def with_returns(log: str, place: Path) -> list[str]:
    """As a log that went through another system: its lines end by a carriage return too."""
    (place / "log").write_bytes(log.encode("latin-1").replace(b"\n", b"\r\n"))
    return [str(place / "log")]


def with_table(log: str, place: Path) -> list[str]:
    """As by -C."""
    (place / "log").write_text(log + TABLE, encoding="latin-1")
    return [str(place / "log")]


def in_parts(log: str, place: Path) -> list[str] | None:
    """As by -ff -ttt: a log for each task. Where calls are broken off, their order is another."""
    if "<unfinished ...>" in log:
        return None
    parts: dict[str, list[str]] = {}
    for count, line in enumerate(log.split("\n")[:-1]):
        match = re.match(r"(\d+) +(?=\S)", line)
        if match is None:
            return None
        text = f"{1796000000 + count / 1000:.6f} {line[match.end():]}\n"
        parts.setdefault(match[1], []).append(text)
    for pid, texts in parts.items():
        (place / f"log.{pid}").write_text("".join(texts), encoding="latin-1")
    return [str(place / f"log.{pid}") for pid in parts]


def without_translation(log: str, place: Path) -> list[str] | None:
    """Without --pidns-translation: what clone(2) returns is a pid of the namespace alone."""
    if " in strace's PID NS */" not in log:
        return None
    text = re.sub(r" /\* \d+ in strace's PID NS \*/", "", log)
    (place / "log").write_text(text, encoding="latin-1")
    return [str(place / "log")]


WAYS = (
    packed, packed_by_xz, packed_by_zstd, with_returns, with_table, in_parts, without_translation,
)  # fmt: skip
