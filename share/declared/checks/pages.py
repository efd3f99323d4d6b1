"""What docs/BEFORE-IT-RUNS.md shows of the tools is what they write."""

from __future__ import annotations

import os
import re
import shlex

from tool.program import TOP

from .. import from_oci, from_run, from_unit
from . import ends, stored
from .ends import End

PAGE = "docs/BEFORE-IT-RUNS.md"
SHOWN = re.compile(r"^    \$ (credtrace-from-.*)\n((?:    (?!\$ ).*\n)*)", re.MULTILINE)
STATUS = re.compile(r"^status (\d)$", re.MULTILINE)


def run(words: list[str]) -> End:
    """A command line of the page, in the folder of the examples. Its programs are stored files."""
    if words[0] == "credtrace-from-unit":
        tree = stored.tree("page")
        return ends.run(lambda given: from_unit.main(given, tree), words[1:])
    main = from_oci.main if words[0] == "credtrace-from-oci" else from_run.main
    return ends.run(main, words[1:])


def is_shown(written: str, shown: str) -> bool:
    """Whether the page shows it; a line of three dots stands for any lines."""
    parts = [r"(?:.*\n)*?" if line == "..." else re.escape(line) + r"\n"
             for line in shown.splitlines()]  # fmt: skip
    return re.fullmatch("".join(parts), written) is not None


def faults() -> tuple[str, list[str]]:
    """How many commands are shown, and those that write something else."""
    found = []
    os.chdir(TOP / "examples")
    shown = SHOWN.findall((TOP / PAGE).read_text(encoding="utf-8"))
    for command, answer in shown:
        end = run(shlex.split(command))
        text = re.sub(r"^    ", "", answer, flags=re.MULTILINE)
        status = f"status {end.status}\n" if STATUS.search(text) else ""
        written = end.out + end.error + status
        if not is_shown(written, text):
            found.append(f"{PAGE} shows another answer to {command}:\n{written}")
    return f"{len(shown)} commands of {PAGE} write what it shows", found
