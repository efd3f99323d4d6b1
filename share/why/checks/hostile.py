"""Inputs that are bad: a line on standard error, a status, and nothing else. And a program that
answers wrongly: that is told as a fault, and not explained."""

from __future__ import annotations

import os
import subprocess
import tempfile
from collections.abc import Iterator
from pathlib import Path

from tool.program import TOP, program

TOOL = TOP / "share" / "credtrace-why"
EXAMPLE = TOP / "examples" / "two-services.trace"
FAULT, BAD, NOT_FOUND = 1, 2, 3
# A program that takes one error for another.
WRONG = """#!/bin/sh
'{program}' "$@" | sed 's/-> eperm$/-> einval/'
"""


def inputs(folder: Path) -> Iterator[tuple[str, list[str], int]]:
    """What is wrong, the words, and the status that it must have."""

    def file(name: str, content: bytes) -> str:
        """A file with this content."""
        path = folder / name
        path.write_bytes(content)
        return str(path)

    report = EXAMPLE.with_suffix(".report").read_bytes()
    lines = report.splitlines(keepends=True)
    yield "a folder", [str(folder)], BAD
    yield "no file", [str(folder / "none")], BAD
    yield "bytes that are no text", [file("bytes", b"init t1 p1 0 0 n0\n\xff\xfe\n")], BAD
    yield "a megabyte and more", [file("large", b"#" * 80 + b"\n" * (1 << 20))], BAD
    yield "one long line", [file("line", b"t1 setgroups" + b" 1" * (1 << 19))], BAD
    yield "a script of another kind", [file("<script>", b"<script>alert(1)</script>\n")], BAD
    yield "a zero byte", [file("zero", b"init t1 p1 0 0 n0\0\n")], BAD
    yield "no such line", [str(EXAMPLE), "99"], BAD
    yield "line 0", [str(EXAMPLE), "0"], BAD
    yield "a comment", [file("comment", b"# nothing\ninit t1 p1 0 0 n0\n"), "1"], BAD
    yield "no such task", [str(EXAMPLE), "--task", "<script>"], BAD
    yield "no report", [str(EXAMPLE), "--report", str(folder / "none")], BAD
    for name, content in (
        ("cut", report[:-7]), ("short", b"".join(lines[:-1])), ("long", report + lines[-1]),
        ("empty", b""), ("other", b"<script>alert(1)</script>\n"), ("high", b"\xff" * 200),
        ("script", EXAMPLE.read_bytes()),
    ):  # fmt: skip
        path = file(f"report-{name}", content)
        yield f"a report that is {name}", [str(EXAMPLE), "--report", path], BAD


def faults() -> list[str]:
    """What ended in another way."""
    found = []
    with tempfile.TemporaryDirectory() as folder:
        for what, words, status in inputs(Path(folder)):
            done = subprocess.run([str(TOOL), *words], capture_output=True, check=False)
            told = done.stderr.decode("latin-1")
            if done.returncode != status or done.stdout or told.count("\n") != 1:
                found.append(f"{what}: status {done.returncode}: {told[-300:]}")
        done = with_program(f"{folder}/none", str(EXAMPLE))
        if done.returncode != NOT_FOUND or done.stderr.count(b"\n") != 1:
            found.append(f"no program: status {done.returncode}")
        wrong = Path(folder, "wrong")
        wrong.write_text(WRONG.format(program=program()), encoding="utf-8")
        wrong.chmod(0o755)
        done = with_program(str(wrong), str(EXAMPLE.with_name("refused.trace")))
        if done.returncode != FAULT or b"this is a fault of credtrace-why" not in done.stdout:
            found.append(f"a program that is wrong: status {done.returncode}")
    return found


def with_program(path: str, script: str) -> subprocess.CompletedProcess[bytes]:
    """Runs the tool with this program."""
    return subprocess.run(
        [str(TOOL), script], capture_output=True, check=False, env={**os.environ, "CREDTRACE": path}
    )
