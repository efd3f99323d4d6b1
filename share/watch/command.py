"""The command credtrace-watch: runs a command under strace, and says why calls were refused."""

from __future__ import annotations

import argparse
import json
import os
import sys
import tempfile
from pathlib import Path

from strace.compare.command import report_of
from strace.options import Options, converted
from strace.script.command import list_of
from tool.inputs import Fault
from why.command import capability
from why.reason import A_FAULT, Bad, NotFound
from why.reason import Fault as NoReason

from . import beginning, tracing
from .beginning import Beginning
from .log_report import LogReport, log_report

# Where it is this tool that fails, and not the command; and a command that isn't there.
OURS, NOT_THERE = 125, 127


def parsed(words: list[str]) -> argparse.Namespace:
    """The words of the command line."""
    parser = argparse.ArgumentParser(
        prog="credtrace-watch",
        usage="credtrace-watch [OPTION ..] [--] COMMAND [ARG ..]\n"
        "       credtrace-watch [OPTION ..] -p PID\n"
        "       credtrace-watch --print-filter",
        description="Runs a command under strace, and says of each call that the kernel refused "
        "why it was, and where capabilities were lost or gained.",
    )
    parser.add_argument("-p", "--pid", metavar="PID", type=int, help="a process that runs already")
    parser.add_argument(
        "--cap", metavar="NAME", type=capability, help="the life of this capability in each task"
    )
    parser.add_argument("--all", action="store_true", help="each refused call by itself")
    parser.add_argument(
        "--keep", metavar="DIR", help="keep the log, the script and the report in this folder"
    )
    parser.add_argument("--draw", metavar="FILE", help="draw the script as a page into this file")
    parser.add_argument("--json", action="store_true", help="write what is told as JSON")
    parser.add_argument(
        "-o", "--output", metavar="FILE", help="write what is told into this file, not to "
        "standard error"
    )  # fmt: skip
    parser.add_argument(
        "--print-filter", action="store_true", help="print the words for strace, and do no more"
    )
    parser.add_argument("command", nargs=argparse.REMAINDER, help=argparse.SUPPRESS)
    given = parser.parse_args(words)
    if given.command[:1] == ["--"]:
        del given.command[0]
    if not given.print_filter and bool(given.command) == (given.pid is not None):
        parser.error("a COMMAND is wanted, or -p PID")
    return given


def as_json(report: LogReport, start: str, status: int) -> str:
    """What is told as JSON."""
    refusals = [
        {
            "line": it.call.first, "pid": it.call.pid, "call": it.call.text,
            "error": it.call.result.error, "explained_by": it.how.value, "script_line": it.number,
            "reasons": [text.strip() for text in it.reasons], "threads": it.threads,
        }
        for it in report.refusals
    ]  # fmt: skip
    changes = [
        {
            "line": it.line.call.first, "pid": it.line.call.pid, "call": it.line.call.text,
            "script_line": it.number, "told": [text.strip() for text in it.told],
        }
        for it in report.changes
        if it.line.call
    ]  # fmt: skip
    sums = report.comparison
    found = {
        "status": status,
        "refused": refusals,
        "changes": changes,
        "agree": sums.agree,
        "explained": sums.explained,
        "unexplained": sums.unexplained,
        "left": report.converter.what_is_left(),
        "notes": report.converter.notes,
    }
    return json.dumps(found, indent=2)


def told(report: LogReport, given: argparse.Namespace, start: str, status: int) -> str:
    """What is told of the log."""
    if given.json:
        return as_json(report, start, status) + "\n"
    if given.cap is not None:
        lines = report.life(given.cap, start)
    else:
        lines = report.text(given.all, start)
    notes = [f"note: {note}" for note in report.converter.notes]
    return "".join(f"{line}\n" for line in (*notes, *lines))


def write(path: Path, text: str) -> None:
    """Writes a file."""
    try:
        path.write_text(text, encoding="latin-1", errors="replace")
    except OSError as fault:
        raise Fault(f"{path}: {fault.strerror}") from None


def keeps(folder: Path, report: LogReport) -> None:
    """The files beside the log by which all can be made again."""
    script = report.run.text()
    write(folder / "files", list_of(report.converter))
    write(folder / "script", script)
    write(folder / "report", report_of(script))


def draws(path: Path, report: LogReport) -> None:
    """A page of the script as it was run: what only the kernel refused is a comment there."""
    # To draw takes another package, which is read where it is asked for alone.
    from draw.command import drawn_script

    try:
        write(path, drawn_script(report.run.text().encode("latin-1"), 1, None))
    except (Bad, NotFound) as fault:
        raise Fault(f"{path} isn't drawn: {fault}") from None


def watched(given: argparse.Namespace, folder: Path) -> int:
    """Runs the command, tells, and returns the command's status."""
    if given.pid is None and not tracing.is_executable(given.command[0]):
        print(f"credtrace-watch: {given.command[0]}: no such command", file=sys.stderr)
        return NOT_THERE
    begins = beginning.of_command(folder) if given.pid is None else (
        beginning.of_process(folder, given.pid))  # fmt: skip
    own = Path("/proc/self/status").read_text(encoding="latin-1")
    log = folder / "log"
    ended = tracing.run(log, given.command, given.pid)
    if not log.is_file() or not log.stat().st_size:
        raise Fault(f"strace has written no log, and ended with status {ended.status}")
    try:
        tells(given, folder, begins, tracing.without_privilege(own), ended.status)
    except (Fault, NoReason) as fault:
        what = fault if isinstance(fault, Fault) else f"{A_FAULT}: {fault}"
        whose = "the command" if given.pid is None else "strace"
        raise Fault(f"{what}; {whose} ended with status {ended.status}") from None
    return ended.status


def tells(
    given: argparse.Namespace, folder: Path, begins: Beginning, changed: str | None, status: int
) -> None:
    """Tells of the log, and keeps and draws what is wanted; `changed` is what strace changed."""
    options = Options(
        [str(folder / "log")], start=str(begins.start), folder=begins.folder, root=begins.root
    )
    report = log_report(converted(options))
    if changed:
        report.converter.notes.insert(0, changed)
    text = told(report, given, str(begins.start), status)
    if given.output:
        write(Path(given.output), text)
    else:
        print(text, end="", file=sys.stderr, flush=True)
    if given.keep:
        keeps(folder, report)
    if given.draw:
        draws(Path(given.draw), report)


def place(given: argparse.Namespace) -> Path:
    """The folder for the log."""
    folder = Path(given.keep)
    try:
        folder.mkdir(parents=True, exist_ok=True)
        if any((folder / name).exists() for name in ("log", "start", "script", "report")):
            raise Fault(f"{folder} has a log already: name another folder, or an empty one")
    except OSError as fault:
        raise Fault(f"{folder}: {fault.strerror}") from None
    return folder


def main(words: list[str]) -> int:
    """Watches a command."""
    given = parsed(words)
    if given.print_filter:
        print(" ".join(word if "!" not in word else f"'{word}'" for word in tracing.trace_filter()))
        return 0
    try:
        if given.keep:
            return watched(given, place(given))
        with tempfile.TemporaryDirectory(prefix="credtrace-") as folder:
            os.chmod(folder, 0o700)
            return watched(given, Path(folder))
    except Fault as fault:
        print(f"credtrace-watch: {fault} (status {OURS} is this tool's)", file=sys.stderr)
        return OURS
