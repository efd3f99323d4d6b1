"""The command credtrace-from-strace."""

from __future__ import annotations

import argparse
import sys

from tool.inputs import Fault

from ..compare.refused_lines import as_comments
from ..files.listing import listing
from ..options import ENDS_BEFORE, NONE, WHOLE, add_options, converted, options_of
from .converter import Converter


def parser() -> argparse.ArgumentParser:
    """The words of the command."""
    words = argparse.ArgumentParser(
        prog="credtrace-from-strace", description="Writes the script of a log of strace -f."
    )
    add_options(words)
    words.add_argument(
        "--table", metavar="FILE", help="write what the names stand for into this file"
    )
    words.add_argument(
        "--ask",
        action="store_true",
        help="ask for the capability sets after each execve and each change",
    )
    words.add_argument(
        "--list-files",
        action="store_true",
        help="write the list of the executed files, and no script",
    )
    return words


def table(converter: Converter) -> str:
    """What the names in the script stand for: pids and paths."""
    return "".join(line + "\n" for line in [*converter.tasks.told, *converter.script.table()])


def list_of(converter: Converter) -> str:
    """The list of all files that were asked for."""
    files = converter.files
    used = {place: files.one(place) for place in files.seen if place not in files.hard}
    return listing(files.seen, {place: one for place, one in used.items() if one != place})


def main(words: list[str]) -> int:
    """Converts a log."""
    given = parser().parse_args(words)
    try:
        converter = converted(options_of(given), given.ask)
        if given.table:
            write_table(given.table, table(converter))
    except Fault as fault:
        print(f"credtrace-from-strace: {fault}", file=sys.stderr)
        return NONE
    if given.list_files:
        sys.stdout.write(list_of(converter))
    else:
        script, count = as_comments(converter.script.lines())
        sys.stdout.write(script)
        if count:
            converter.notes.append(
                f"{count} calls that were refused stand in the script as comments: a seccomp "
                "filter or the user namespace may have done it, and nothing came of them"
            )
        tell(converter, bool(given.table))
    for left in converter.what_is_left():
        print(left, file=sys.stderr)
    return ENDS_BEFORE if converter.is_part() else WHOLE


def tell(converter: Converter, has_table: bool) -> None:
    """Says on standard error what the script doesn't."""
    sys.stdout.flush()
    if not has_table:
        sys.stderr.write(table(converter))
    for note in converter.notes:
        print(note, file=sys.stderr)
    for told in converter.not_converted.told():
        print(told, file=sys.stderr)


def write_table(path: str, text: str) -> None:
    """Writes the table into its file."""
    try:
        with open(path, "w", encoding="latin-1") as file:
            file.write(text)
    except OSError as fault:
        raise Fault(f"the table {path}: {fault.strerror}") from None
