"""What systemd, or the runtime, itself has: what a status file says, or root with everything."""

from __future__ import annotations

from dataclasses import dataclass
from pathlib import Path

from strace.script.start import BadStart, Status, start_of, status_of
from why.names import ALL

from .places import Bad, Place
from .script import TASK, Script

# More than any status file has.
BYTES = 1 << 20


@dataclass(frozen=True)
class Launcher:
    """What the launcher has, and the calls that lead root with everything to it."""

    status: Status
    calls: tuple[str, ...] = ()
    notes: tuple[str, ...] = ()
    file: str = ""

    def begin(self, script: Script) -> None:
        """The first task of a script, as the launcher."""
        script.first = f"init {TASK} p1 0 0 n0"
        place = Place("the launcher's own credential", self.file)
        for call in self.calls:
            script.add(call, place, step="start")
        for note in self.notes:
            script.note(note, place)
        if not self.file:
            script.note(
                "the launcher is taken to be root with all capabilities: --start names the file "
                "status of its folder in /proc where it has less"
            )


def everything() -> Launcher:
    """Root with all capabilities."""
    sets = ALL, 0, ALL, ALL, 0
    return Launcher(Status([0] * 4, [0] * 4, [], *sets, False, 0, None, None))


def read(name: str) -> Launcher:
    """What a file as /proc/PID/status says."""
    try:
        with open(name, "rb") as file:
            text = file.read(BYTES).decode("latin-1")
        start = start_of(text)
        calls = tuple(line.split(" ", 1)[1] for line in start.lines)
        return Launcher(status_of(text), calls, tuple(start.notes), Path(name).name)
    except BadStart as fault:
        raise Bad(f"{name}: {fault}") from None
    except (OSError, ValueError) as fault:
        raise Bad(f"{name}: {getattr(fault, 'strerror', None) or fault}") from None


def in_namespace(script: Script, number: int, root: int) -> Status:
    """A first task of a new user namespace, whose creator has all capabilities in it, and a full
    bounding set (user_namespaces(7), "Capabilities")."""
    script.declared.append(f"ns {number} {root} 0")
    script.roots = [root, *script.roots]
    script.first = f"init {TASK} p1 {root} {root} n{number}"
    return everything().status
