"""Units, compared with what systemd did."""

from __future__ import annotations

import tempfile
from pathlib import Path

from ..answers import Answer
from ..places import Bad
from ..unit import commands, convert, fragments
from ..unit.convert import Host
from ..unit.versions import Version
from . import stored
from .compare import Sum, fault
from .stored import Case

SYSTEMD = "systemd"


def unit_text(case: Case) -> str:
    """The unit of a case."""
    it = case.declared
    command = f"{it.get('prefix', '')}/units/bin/{it['file']}"
    key = it.get("key", "ExecStart")
    lines = [*it["lines"], f"{key}={command}"]
    # Without one a service isn't started.
    lines += [] if key == "ExecStart" else ["ExecStart=/bin/true"]
    return "\n".join(["[Unit]", "DefaultDependencies=no", "[Service]", "Type=oneshot", *lines, ""])


def write(case: Case, name: str, folder: Path) -> None:
    """The files of a unit."""
    (folder / f"{name}.service").write_text(unit_text(case), encoding="utf-8")
    for number, lines in enumerate(case.declared.get("dropins", [])):
        place = folder / f"{name}.service.d"
        place.mkdir(exist_ok=True)
        text = "\n".join(["[Service]", *lines, ""])
        (place / f"{number}.conf").write_text(text, encoding="utf-8")


def answered(case: Case) -> tuple[Answer | str, bool]:
    """The answer to a case, and whether all of it may be otherwise."""
    name = case.declared.get("name", f"x{case.number}")
    host = Host(stored.tree("units"), stored.users(), stored.launcher(), Version(252, "stored"))
    with tempfile.TemporaryDirectory() as place:
        write(case, name, Path(place))
        try:
            found = fragments.find(name, "/", [place])
            which = commands.Choice(case.declared.get("key", "ExecStart"))
            it = convert.convert(found, which, host)
            return it.answer(), it.unsure
        except Bad as bad:
            return str(bad), False


def compared(case: Case) -> Sum:
    """A case."""
    total = Sum()
    truth = case.truths[SYSTEMD]
    found, unsure = answered(case)
    total.add("services", case, truth, found, fault(found, truth, unsure))
    return total
