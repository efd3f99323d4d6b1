"""What the pages show of the tool is what it writes."""

from __future__ import annotations

import re
import subprocess

from ..program import TOP

PAGES = ("README.md", *(f"docs/{it}.md" for it in ("READING-A-REPORT", "WHY-CAPABILITIES-VANISH")))
SHOWN = re.compile(r"^    \$ share/(credtrace-why .*)\n((?:    (?!\$ ).*\n)*)", re.M)


def faults() -> list[str]:
    """Commands whose answer is another one than the page shows."""
    found = []
    for page in PAGES:
        for words, answer in SHOWN.findall((TOP / page).read_text(encoding="utf-8")):
            done = subprocess.run(
                [f"share/{words.split()[0]}", *words.split()[1:]], cwd=TOP, capture_output=True,
                check=False,
            )  # fmt: skip
            shown = re.sub(r"^    ", "", answer, flags=re.M).rstrip("\n")
            if done.stdout.decode().rstrip("\n") != shown or done.returncode:
                found.append(f"{page} shows another answer to {words}")
    return found
