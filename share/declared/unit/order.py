"""The calls of systemd 252 before it executes a service's program, in its order.

Recorded by strace -f; a reader finds them in src/core/execute.c (exec_child, enforce_groups,
enforce_user) and src/basic/capability-util.c. A call that is refused ends the service with the
status of its step.
"""

from __future__ import annotations

from dataclasses import dataclass

from strace.script.start import Status
from why.names import ALL, KEEP_CAPS, LAST, NUMBERS, cap_name

from ..places import Place
from ..script import Script
from .commands import Prefixes
from .identity import Identity, places
from .sandbox import Bounding, filters
from .settings import Settings

KEYRING, GROUP, USER = "237/KEYRING", "216/GROUP", "217/USER"
CAPABILITIES, SECUREBITS = "218/CAPABILITIES", "213/SECUREBITS"
NO_NEW_PRIVS = "227/NO_NEW_PRIVILEGES"
EXEC = "203/EXEC"
SETPCAP, SYS_ADMIN = NUMBERS["CAP_SETPCAP"], NUMBERS["CAP_SYS_ADMIN"]


@dataclass
class Sets:
    """What systemd has while it makes the calls: it makes some of them by what it has."""

    permitted: int
    inheritable: int
    effective: int
    securebits: int = 0


def bits(caps: int) -> list[int]:
    """The numbers of the capabilities of a set."""
    return [number for number in range(LAST + 1) if caps >> number & 1]


class Order:
    """Writes the calls."""

    def __init__(
        self, script: Script, settings: Settings, who: Identity, prefixes: Prefixes,
        bounding: Bounding, has: Status,
    ) -> None:  # fmt: skip
        self.script = script
        self.settings = settings
        self.who = who
        self.prefixes = prefixes
        self.bounding = bounding
        self.now = Sets(has.permitted, has.inheritable, has.effective)
        self.asked = settings.ambient()
        self.ambient = self.asked & bounding.caps & has.bounding
        self.securebits = settings.securebits()

    def call(self, call: str, step: str, *found: Place, why: str = "") -> None:
        """A call, with the settings that it comes from."""
        self.script.add(call, *found, why=why or ("" if found else "systemd"), step=step)

    def capset(self, why: str, *keys: str) -> None:
        """capset(2) with what there is."""
        now = self.now
        call = f"capset {now.permitted:x} {now.inheritable:x} {now.effective:x}"
        self.call(call, CAPABILITIES, *self.settings.places(*keys), why=why)

    def base_groups(self) -> None:
        """The groups of initgroups(3), whatever the prefix."""
        if self.who.base and self.who.user is not None:
            words = " ".join(map(str, self.who.base))
            why = "the groups that initgroups(3) gives"
            self.call(f"setgroups {words}", GROUP, *places(self.settings), why=why)

    def keyring(self) -> None:
        """The session keyring is made with the user's real ids, which are put back."""
        user, group = self.who.user, self.who.group
        calls = [f"setregid {group} -1"] if group else []
        calls += [f"setreuid {user} -1", "setreuid 0 -1"] if user else []
        calls += ["setregid 0 -1"] if group else []
        for call in calls:
            why = "the session keyring is made with the user's real ids, which are put back"
            self.call(call, KEYRING, why=why)

    def groups(self) -> None:
        """SupplementaryGroups=, each once, and the group."""
        if not self.prefixes.changes_user:
            return
        who = self.who
        if who.more:
            words = " ".join(map(str, dict.fromkeys([*who.base, *who.more])))
            self.call(f"setgroups {words}", GROUP, *self.settings.places("SupplementaryGroups"))
        if who.group is not None:
            call = f"setresgid {who.group} {who.group} {who.group}"
            self.call(call, GROUP, *places(self.settings))

    def bound(self) -> None:
        """The bounding set; what is dropped leaves inheritable too."""
        dropped = bits(ALL & ~self.bounding.caps)
        for number in dropped:
            self.call(f"capdrop {cap_name(number)}", CAPABILITIES,
                      *self.settings.places(*self.bounding.keys))  # fmt: skip
        if dropped:
            self.now.inheritable &= self.bounding.caps
            self.capset("what is dropped leaves inheritable too", *self.bounding.keys)

    def raise_ambient(self, why: str = "") -> None:
        """Each capability that is to be ambient."""
        for number in bits(self.ambient):
            found = self.settings.places("AmbientCapabilities")
            self.call(f"ambraise {cap_name(number)}", CAPABILITIES, *found, why=why)

    def inherit(self) -> None:
        """AmbientCapabilities=: what isn't in the bounding set is left out without an error."""
        out = bits(self.asked & ~self.ambient)
        if out:
            names = ", ".join(map(cap_name, out))
            text = f"{names} not in the bounding set: left out without an error"
            keys = ("AmbientCapabilities", *self.bounding.keys)
            self.script.note(text, *self.settings.places(*keys))
        self.now.inheritable = self.ambient
        self.capset("inheritable becomes what is to be ambient", "AmbientCapabilities")
        self.raise_ambient()

    def user(self) -> None:
        """The change of user. The permitted set is kept where ambient ones were asked for."""
        user = self.who.user
        if not self.prefixes.changes_user or user is None:
            return
        asked = self.asked if self.prefixes.sandboxed else 0
        keeps = bool(asked or self.securebits) and user != 0
        if keeps:
            self.now.securebits = KEEP_CAPS
            found = self.settings.places("AmbientCapabilities", "SecureBits")
            why = "keep-caps over the change of user"
            self.call(f"securebits {KEEP_CAPS}", USER, *found, why=why)
        self.call(f"setresuid {user} {user} {user}", USER,
                  *self.settings.places("User", "DynamicUser"))  # fmt: skip
        if user:
            self.now.effective = 0
            self.now.permitted = self.now.permitted if keeps else 0
        if self.prefixes.sandboxed:
            self.raise_ambient("the change of user emptied the ambient set")

    def set_securebits(self) -> None:
        """SecureBits=, where they aren't so now."""
        if self.now.securebits == self.securebits:
            return
        if not self.now.effective >> SETPCAP & 1:
            self.now.effective |= 1 << SETPCAP
            self.capset("CAP_SETPCAP is made effective, to set securebits")
        self.call(f"securebits {self.securebits}", SECUREBITS, *self.settings.places("SecureBits"))

    def no_new_privs(self) -> None:
        """NoNewPrivileges=, or what implies it where CAP_SYS_ADMIN isn't effective now."""
        found = filters(self.settings)
        keys = [it for it in found if self.settings.of(it)] or ["DynamicUser"]
        if self.is_asked():
            self.call("nonewprivs 1", NO_NEW_PRIVS,
                      *self.settings.places("NoNewPrivileges", "DynamicUser"))  # fmt: skip
        elif found and not self.now.effective >> SYS_ADMIN & 1:
            why = "a seccomp filter needs it, where CAP_SYS_ADMIN isn't effective"
            self.call("nonewprivs 1", NO_NEW_PRIVS, *self.settings.places(*keys), why=why)
        if found:
            text = "what their seccomp filters refuse the program"
            self.script.doubt("filter", text, *self.settings.places(*keys))

    def is_asked(self) -> bool:
        """Whether no_new_privs is set, and not only implied."""
        return self.settings.truth("NoNewPrivileges") or self.who.dynamic

    def write(self) -> None:
        """All calls up to the execve."""
        self.base_groups()
        self.keyring()
        self.groups()
        if self.prefixes.sandboxed:
            self.bound()
            self.inherit()
        self.user()
        if self.prefixes.sandboxed:
            self.set_securebits()
            self.no_new_privs()
