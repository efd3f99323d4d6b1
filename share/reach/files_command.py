"""The command credtrace-files: a system's set-id files and files with capabilities, as lines."""

from __future__ import annotations

import argparse
import sys

from why.inputs import shown

from .installed import MOST, lines_of, survey_of

NAME = "credtrace-files"
LISTED, CLOSED, BAD = 0, 1, 2
DESCRIPTION = """Lists the set-user-ID and set-group-ID files of a system, and those with
capabilities, as the lines of a script that declare them, for credtrace-reach. Status: 0 all were
looked at, 1 a folder couldn't be read, 2 a folder isn't there, or there are more files than a
script may have."""
# So many of those that couldn't be read are named.
MOST_NAMED = 5


def parsed(words: list[str]) -> argparse.Namespace:
    """The words of the command line."""
    parser = argparse.ArgumentParser(prog=NAME, description=DESCRIPTION)
    parser.add_argument(
        "folders", metavar="FOLDER", nargs="*", default=["/"], help="look through these, else /"
    )
    parser.add_argument(
        "--all-mounts", action="store_true",
        help="other file systems that are mounted below too: else each folder's own alone",
    )  # fmt: skip
    return parser.parse_args(words)


def say(text: str) -> None:
    """A line on standard error."""
    print(f"{NAME}: {text}", file=sys.stderr)


def main(words: list[str]) -> int:
    """Lists them."""
    given = parsed(words)
    try:
        survey = survey_of(given.folders, given.all_mounts)
    except (OSError, ValueError) as fault:
        name = getattr(fault, "filename", None) or "a folder"
        say(f"{shown(str(name))}: {getattr(fault, 'strerror', None) or fault}")
        return BAD
    for line in lines_of(survey.files):
        print(line)
    for closed in survey.closed[:MOST_NAMED]:
        say(f"not looked at: {shown(closed)}")
    if survey.closed[MOST_NAMED:]:
        say(f"not looked at: {len(survey.closed) - MOST_NAMED} more")
    say(f"{len(survey.files):,} files give something, of {survey.looked:,}")
    if len(survey.files) > MOST:
        say(f"a script has {MOST} files at most beside the plain one: name fewer folders")
        return BAD
    return CLOSED if survey.closed else LISTED
