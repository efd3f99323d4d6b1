"""What the pages show of the tool is what it writes, and the rows that it names are there."""

from __future__ import annotations

import re
import subprocess

from linux import rows

from ..rows import ROWS
from .scripts import TOP

PAGE = "docs/CAN-IT-COME-BACK.md"
SHOWN = re.compile(r"^    \$ share/(credtrace-reach .*)\n((?:    (?!\$ ).*\n)*)", re.M)


def faults() -> list[str]:
    """What differs."""
    found = []
    for words, answer in SHOWN.findall((TOP / PAGE).read_text(encoding="utf-8")):
        done = subprocess.run(
            ["bash", "-c", f"share/{words}"], cwd=TOP, capture_output=True, text=True, check=False
        )
        shown = re.sub(r"^    ", "", answer, flags=re.M).rstrip("\n")
        if done.stdout.rstrip("\n") != shown:
            found.append(f"{PAGE} shows another answer to {words}:\n{done.stdout}")
    found += [f"docs/LINUX.md has no row {it.key}" for it in ROWS if it.key not in rows.rows()]
    return found
