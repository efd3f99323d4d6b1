"""Which versions of systemd were measured. The order, and what implies what, are a version's."""

from __future__ import annotations

import re
import subprocess
from dataclasses import dataclass

from ..places import Bears
from ..script import Script

MEASURED = (252,)


@dataclass(frozen=True)
class Version:
    """The version that is asked for, and how it is known; and the measured one that answers."""

    asked: int
    source: str

    @property
    def answered(self) -> int:
        """The nearest one that was measured."""
        return min(MEASURED, key=lambda it: abs(it - self.asked))

    def name(self) -> str:
        """What the table says."""
        return f"systemd {self.answered}"

    def tell(self, script: Script) -> None:
        """Says it where the version wasn't measured."""
        if self.asked not in MEASURED:
            text = (
                f"systemd {self.asked} ({self.source}) was not measured: this is what "
                f"systemd {self.answered} does"
            )
            script.doubt("version", text, bears=Bears.ALL)


def here() -> Version:
    """The version of this machine; 252 where there is none."""
    try:
        done = subprocess.run(
            ["systemctl", "--version"], capture_output=True, text=True, check=False, timeout=10
        )
        found = re.match(r"systemd (\d+)", done.stdout)
    except (OSError, subprocess.SubprocessError):
        found = None
    if found is None:
        return Version(MEASURED[0], "no systemd is here")
    return Version(int(found[1]), "that of this machine")


def given(number: int | None) -> Version:
    """The version that --systemd names, or that of the machine."""
    return here() if number is None else Version(number, "--systemd")
