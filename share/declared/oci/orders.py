"""The calls of runc and of crun, each in its order, which decides what is refused.

Recorded from the programs by strace -f: runc 1.1.5 (libcontainer/init_linux.go, capabilities/) and
crun 1.8.1 (src/libcrun/container.c, linux.c).
"""

from __future__ import annotations

from dataclasses import dataclass
from enum import Enum

from why.names import ALL, LAST, NUMBERS, cap_name

from ..places import Place
from ..script import Script
from .config import Config


class Runtime(Enum):
    """A runtime whose order is known, with the version that was measured."""

    RUNC = "runc"
    CRUN = "crun"

    @property
    def measured(self) -> str:
        """The name and the version."""
        return {"runc": "runc 1.1.5", "crun": "crun 1.8.1"}[self.value]


@dataclass(frozen=True)
class Wanted:
    """What is asked for, in the host's ids: the ids, the groups, and the five sets."""

    user: int
    group: int
    groups: tuple[int, ...]
    root_user: int
    root_group: int
    bounding: int
    effective: int
    permitted: int
    inheritable: int
    ambient: int


def bits(caps: int) -> list[int]:
    """The numbers of the capabilities of a set."""
    return [number for number in range(LAST + 1) if caps >> number & 1]


def masks(script: Script, config: Config, runtime: Runtime) -> dict[str, int]:
    """The five sets. A name that the runtime has no capability of is passed over with a warning."""
    place = config.place("process.capabilities")
    if config.capabilities is None:
        text = "it isn't there: the program is left no capability, and an empty bounding set"
        script.note(text, place)
        return dict.fromkeys(("bounding", "effective", "permitted", "inheritable", "ambient"), 0)
    found = {}
    for key, names in config.capabilities.items():
        found[key] = 0
        for name in names:
            number = NUMBERS.get(name if runtime is Runtime.RUNC else name.upper())
            if number is None:
                where = config.place(f"process.capabilities.{key}")
                script.note(f"{name[:80]} is no capability: it is passed over", where)
            else:
                found[key] |= 1 << number
    return found


class Order:
    """The calls of a runtime."""

    def __init__(self, script: Script, config: Config, wanted: Wanted) -> None:
        self.script = script
        self.config = config
        self.wanted = wanted

    def key(self, name: str) -> Place:
        """A key below process."""
        return self.config.place(f"process.{name}")

    def lists(self) -> tuple[Place, ...]:
        """The lists that capset(2) is called with."""
        names = ("permitted", "inheritable", "effective")
        return tuple(self.key(f"capabilities.{name}") for name in names)

    def drop_bounding(self) -> None:
        """What isn't to be in the bounding set."""
        for number in bits(ALL & ~self.wanted.bounding):
            place = self.key("capabilities.bounding")
            self.script.add(f"capdrop {cap_name(number)}", place, why="it isn't named there")

    def set_sets(self) -> None:
        """The three sets of capset(2)."""
        it = self.wanted
        call = f"capset {it.permitted:x} {it.inheritable:x} {it.effective:x}"
        self.script.add(call, *self.lists())

    def raise_ambient(self, number: int) -> None:
        """A capability that is to be ambient. A refusal is passed over in silence."""
        why = "it has to be permitted and inheritable; the runtime passes over a refusal"
        place = self.key("capabilities.ambient")
        self.script.add(f"ambraise {cap_name(number)}", place, why=why, passes=True)

    def keep_caps(self) -> None:
        """The permitted set is kept over the change of user."""
        why = "the runtime keeps the permitted set over the change of user"
        self.script.add("keepcaps 1", why=why)

    def no_new_privs(self) -> None:
        """The flag, where it is asked for."""
        if self.config.no_new_privs:
            self.script.add("nonewprivs 1", self.key("noNewPrivileges"))

    def groups(self) -> str:
        """The supplementary groups, as words."""
        return "".join(f" {number}" for number in self.wanted.groups)

    def runc(self) -> None:
        """runc 1.1.5. It looks the groups up, and has each once."""
        it, add = self.wanted, self.script.add
        start = "runc becomes the root of the container"
        add(f"raw setuid {it.root_user}", why=start)
        add(f"raw setgid {it.root_group}", why=start)
        if self.config.new_space:
            add("raw setgroups", why=start)
        self.no_new_privs()
        self.drop_bounding()
        self.keep_caps()
        add(f"raw setgroups{self.groups()}", self.key("user.additionalGids"))
        add(f"raw setgid {it.group}", self.key("user.gid"))
        add(f"raw setuid {it.user}", self.key("user.uid"))
        add("keepcaps 0", why="runc takes it back")
        self.set_sets()
        for number in range(LAST + 1):
            if it.ambient >> number & 1:
                self.raise_ambient(number)
            else:
                place = self.key("capabilities.ambient")
                add(f"amblower {cap_name(number)}", place, why="it isn't named there", passes=True)

    def crun(self) -> None:
        """crun 1.8.1. It has the groups as they stand there."""
        it, add = self.wanted, self.script.add
        add(f"setgroups{self.groups()}", self.key("user.additionalGids"))
        self.drop_bounding()
        self.keep_caps()
        add(f"setresgid {it.group} {it.group} {it.group}", self.key("user.gid"))
        add(f"setresuid {it.user} {it.user} {it.user}", self.key("user.uid"))
        self.set_sets()
        add("ambclear", why="crun empties the ambient set")
        for number in bits(it.ambient):
            self.raise_ambient(number)
        self.no_new_privs()

    def write(self, runtime: Runtime) -> None:
        """The calls, in the runtime's order."""
        if runtime is Runtime.RUNC:
            self.runc()
        else:
            self.crun()
