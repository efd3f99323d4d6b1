"""What the tools on logs have in common: their options, and the way from a log to a script."""

from __future__ import annotations

import argparse
import gc
import os
import sys
import zlib
from dataclasses import dataclass

from tool.inputs import Fault, shown

from .files.changes import Known
from .files.listing import BadList, Files, read_list
from .follow.outside import Outside
from .log.families import lacking
from .log.lineage import NoProcess, family
from .log.lines import BadLog
from .log.reader import EXECUTIONS, Call, Item, Reader, text_lines
from .log.sources import merged, source_of
from .log.untold_pids import matched
from .script.converter import Converter
from .script.script import Stop
from .script.start import BadStart, Start, start_of, start_of_threads

# The exit statuses: the script holds the whole log; it ends before; there is none.
WHOLE, ENDS_BEFORE, NONE = 0, 1, 2

# How often a log is gone through at most, to find out which files change in it.
RUNS = 9


@dataclass
class Options:
    """The options that both tools have."""

    logs: list[str]
    files: str | None = None
    start: str | None = None
    task: int | None = None
    folder: str | None = None
    root: str = "/"
    proc: str | None = None


def options_of(given: argparse.Namespace) -> Options:
    """The options as they were given."""
    logs = given.log or ["-"]
    where = given.folder, given.root, given.proc
    return Options(logs, given.files, given.start, given.task, *where)


def add_options(parser: argparse.ArgumentParser) -> None:
    """The options of a log."""
    parser.add_argument(
        "--files", metavar="FILE", help="a list of the files that the log executes or opens"
    )
    parser.add_argument(
        "--start",
        metavar="FILE",
        help="the text of /proc/PID/status where the log begins; or a folder like /proc/PID/task, "
        "with the status of each thread",
    )
    parser.add_argument(
        "--task", metavar="PID", type=int, help="this process of the log and its children alone"
    )
    parser.add_argument(
        "--folder", metavar="PATH", help="the folder where the log begins, for relative paths"
    )
    parser.add_argument(
        "--root",
        metavar="PATH",
        default="/",
        help="the root where the log begins, for absolute paths, as where strace came to a process "
        "of a container",
    )
    parser.add_argument(
        "--proc",
        metavar="FOLDER",
        help="a folder like /proc, with the status of processes that the log's tasks signal or "
        "look into and that aren't of the log; else /proc, for those that ran before the log ended",
    )
    parser.add_argument(
        "log",
        metavar="LOG",
        nargs="*",
        help="the log, or the logs that strace -ff -ttt wrote; else standard input",
    )


def text_of(path: str, what: str) -> str:
    """The text of a small file, each byte a character."""
    try:
        with open(path, "rb") as file:
            return file.read(1 << 20).decode("latin-1")
    except OSError as fault:
        raise Fault(f"{what} {path}: {fault.strerror}") from None


def progress(count: int) -> None:
    """Tells on a terminal how far the log is read."""
    if sys.stderr.isatty():
        print(f"\r{count} lines", end="", file=sys.stderr, flush=True)


def start_from(path: str | None) -> Start:
    """Where the log begins: as root, or as a file or a folder says."""
    if path is None:
        return Start()
    try:
        if not os.path.isdir(path):
            return start_of(text_of(path, "the status"))
        names = [name for name in os.listdir(path) if name.isdigit() and len(name) < 10]
        texts = {int(name): text_of(f"{path}/{name}/status", "the status") for name in names}
        return start_of_threads(texts)
    except BadStart as fault:
        raise Fault(f"{path}: {fault}") from None


def converted(options: Options, asks: bool = False) -> Converter:
    """The script of a log, with what is to be said of it."""
    try:
        listed = read_list(text_of(options.files, "the list")) if options.files else None
    except BadList as fault:
        raise Fault(f"{options.files}: {fault}") from None
    start = start_from(options.start)
    known = Known()
    reader, items, first = items_of(options, Converter(Files(listed)).wanted(), start)
    for count in range(RUNS):
        # Whatever isn't known by then isn't guessed.
        known.sure = known.sure or count == RUNS - 1
        files = Files(listed, known.histories)
        converter = Converter(
            files, asks, options.folder, options.root, known, outside_of(options)
        )
        converter.run(items, first, start)
        # A file that was used before it changed was another one, or the script ends where it was.
        if converter.changes.settled():
            break
        known = converter.changes.next
    calls = [item for item in items if isinstance(item, Call)]
    names = {call.name for call in calls} | set(reader.other_calls)
    executes = any(call.name in EXECUTIONS and call.result.error is None for call in calls)
    notes = [*since_the_log(converter.files, options.logs), *lacking(names, executes)]
    notes += unnamed(converter.file_lines.unnamed)
    converter.notes = start.notes + converter.notes + notes
    converter.not_converted.names(reader.other_calls)
    converter.count = reader.count
    if reader.cut and not converter.stopped:
        converter.stopped = Stop(reader.cut.line, reader.cut.what)
    return converter


def outside_of(options: Options) -> Outside | None:
    """Where processes are found that aren't of the log."""
    if options.proc is not None:
        return Outside(options.proc.rstrip("/") or "/", float("inf"))
    times = [os.stat(log).st_mtime for log in options.logs if os.path.isfile(log)]
    return Outside(until=max(times)) if times else None


def since_the_log(files: Files, logs: list[str]) -> list[str]:
    """What is said of files that are others now than when the log was written."""
    times = [os.stat(log).st_mtime for log in logs if os.path.isfile(log)]
    changed = files.changed_after(max(times)) if times else []
    return [
        f"{place} was changed after the log was written: list the files as they were (--files)"
        for place in changed
    ]


def unnamed(calls: list[Call]) -> list[str]:
    """What is said of changes of files of which nobody knows which these are."""
    if not calls:
        return []
    names = ", ".join(sorted({call.name for call in calls}))
    count = "1 call changes a file" if len(calls) == 1 else f"{len(calls)} calls change files"
    return [
        f"line {calls[0].first}: {count} by a descriptor of which the log doesn't tell what it is "
        f"of ({names}), and no line says it: was the file executed or asked about, what is told of "
        "it may be wrong; record with -y"
    ]


def items_of(
    options: Options, wanted: frozenset[str], start: Start
) -> tuple[Reader, list[Item], int]:
    """What the log tells, with the reader of it and the pid of the first task."""
    reader = Reader(wanted)
    name = shown(options.logs[0])
    try:
        items = read(reader, options.logs)
        # The status may be that of the program which wrote it down, and which the log doesn't have.
        begun = [pid for pid in start.threads[:1] if any(item.pid == pid for item in items)]
        if len(start.threads) == 1:
            start.threads = begun
        first = start.threads[0] if start.threads else reader.first_pid or 0
        items = matched(items, first)
        if options.task is not None:
            first, items = family(items, options.task, options.start is not None)
    except (BadLog, NoProcess) as fault:
        raise Fault(f"{name}: {fault}") from None
    except (OSError, zlib.error) as fault:
        reason = fault.strerror if isinstance(fault, OSError) else None
        raise Fault(f"{name}: {reason or fault}") from None
    return reader, items, first


def read(reader: Reader, logs: list[str]) -> list[Item]:
    """All that a log tells, or the logs of one strace."""
    # A log's calls are all kept: to look for garbage among them takes a third of the time, here and
    # later.
    gc.disable()
    try:
        if len(logs) > 1:
            items = reader.read(merged(logs), progress)
        else:
            with source_of(logs[0]) as source:
                items = reader.read(text_lines(source), progress)
        gc.freeze()
    finally:
        gc.enable()
    if reader.count >= 50_000 and sys.stderr.isatty():
        print(f"\r{reader.count} lines", file=sys.stderr)
    return items
