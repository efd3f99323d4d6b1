"""The machine: what it allows is found out, and scripts are run on it."""

from __future__ import annotations

import os
import re
from dataclasses import replace
from functools import lru_cache

from .isolation import Fault
from .image import can_make, image_of
from .process import SECONDS, Built, Driver, shown
from .script import File, Script, parse
from .setup import Place, in_image, whole

FULL = "1ffffffffff"
DONE = ". done 0"
# The first id of each extent, and how many there are.
Extents = tuple[tuple[int, int], ...]
LATE = "it took longer than"
# A script that asks what a first task is given, and others that ask for more.
FIRST = "init t1 p1 0 0 n0\nt1 caps\nt1 bits\nt1 ids\n"
SPACE = "ns 1 0 0\ninit t1 p1 0 0 n1\nt1 ids\n"
ATTRIBUTE = "file a reg 0 0 0755 caps 0000000200200000000000000000000000000000\n" + FIRST
DAMAGED = "file a reg 0 0 0755 caps 00\n" + FIRST


class Lost(Exception):
    """A script was not answered to its end: why, and what was answered."""

    def __init__(self, why: str, answers: dict[int, str]) -> None:
        super().__init__(why)
        self.answers = answers


# What is asked twice of a task, and by what, as the driver says which differ.
ASKED_TWICE = {
    "ids": ("getresuid(2), getresgid(2) or setfsuid(2)", "Uid and Gid"),
    "CapPrm:": ("capget(2)", "CapPrm"),
    "CapInh:": ("capget(2)", "CapInh"),
    "CapEff:": ("capget(2)", "CapEff"),
    "CapBnd:": ("prctl(2), PR_CAPBSET_READ", "CapBnd"),
    "CapAmb:": ("prctl(2), PR_CAP_AMBIENT_IS_SET", "CapAmb"),
    "groups": ("getgroups(2)", "Groups"),
    "bits": ("prctl(2), PR_GET_KEEPCAPS or PR_GET_NO_NEW_PRIVS", "NoNewPrivs"),
}


def failure(told: str) -> str:
    """What couldn't be made before the calls, as the driver told it."""
    *what, number = told.split()
    return f"{' '.join(what)}: {os.strerror(int(number))}"


def disagreement(answer: str) -> str:
    """An answer, or which two that the driver compares aren't the same."""
    word, _, what = answer.partition(" ")
    if word != "disagree" or what not in ASKED_TWICE:
        return answer or "no answer"
    call, name = ASKED_TWICE[what]
    return f"{call} is refused, or says otherwise than /proc/thread-self/status ({name})"


def kernel_of(first: list[str]) -> str:
    """The kernel's name and release, from the driver's first lines."""
    said = first[first.index("/proc/version") + 1 :] if "/proc/version" in first else []
    if not said or not first[-1].startswith(". ready"):
        raise Fault(f"the driver wasn't run: what came in its place begins {shown(first[0])}")
    return " ".join(said[0].split()[:3])


def extents(lines: list[str], name: str) -> Extents:
    """What a map of /proc, which the driver told, maps."""
    start = lines.index(name) + 1 if name in lines else len(lines)
    found = []
    for line in lines[start:]:
        words = line.split()
        if len(words) != 3 or not all(word.isdigit() for word in words):
            break
        found.append((int(words[0]), int(words[2])))
    return tuple(found)


def common(one: Extents, other: Extents) -> Extents:
    """What two lists of extents both have."""
    found = []
    for a, m in one:
        for b, n in other:
            first, end = max(a, b), min(a + m, b + n)
            if first < end:
                found.append((first, end - first))
    return tuple(sorted(found))


def narrowed(place: Place, ids: str) -> Place:
    """The place with these ids mapped alone: `0-999,100000`."""
    if not re.fullmatch(r"\d+(-\d+)?(,\d+(-\d+)?)*", ids):
        raise Fault(f"{ids} are no ids: FIRST-LAST,..")
    asked = []
    for part in ids.split(","):
        first, _, last = part.partition("-")
        asked.append((int(first), int(last or first) - int(first) + 1))
    found = common(place.extents, tuple(asked))
    if not any(first == 0 for first, _ in found) or not place.own:
        raise Fault("id 0 has to be mapped, in a user namespace of the driver's")
    return replace(place, extents=found)


def lacking(answer: str) -> str:
    """Which sets root has, or which two that tell them aren't the same."""
    words = answer.split()
    if words[:1] != ["ok"] or len(words) != 6:
        return disagreement(answer)
    return f"capget(2) and /proc say it is permitted {words[1]}, and bounded by {words[4]}"


class Machine:
    """A driver, and what it can do here."""

    def __init__(
        self, built: Built, seconds: int = SECONDS, place: Place | None = None,
        ids: str | None = None,
    ) -> None:
        self.built = built
        self.seconds = seconds
        self.driver = Driver(built)
        self.kernel = kernel_of(self.driver.first)
        self.place = place or self.find()
        if ids:
            self.place = narrowed(self.place, ids)

    @lru_cache(maxsize=64)
    def image(self, files: tuple[File, ...]) -> bytes:
        """The image of these files."""
        return image_of(list(files), self.built.program)

    def answers(self, script: Script) -> dict[int, str]:
        """What each line was answered."""
        named = in_image(script)
        files = tuple(script.files[name] for name in sorted(named))
        image = self.image(files) if files else b""
        text = whole(script, self.place, named, bool(image))
        *lines, last = self.driver.run(text, image, self.seconds)
        if last != DONE:
            # The last line is empty, or cut.
            lines = lines[:-1]
        found = {}
        for line in lines:
            number, _, answer = line.partition(" ")
            if number.isdigit():
                found[int(number)] = answer
            elif number == "failed":
                raise Lost(failure(answer), found)
        if last != DONE:
            raise Lost(self.ending(last), found)
        return found

    def ending(self, last: str) -> str:
        """Why a script ended before its last line."""
        word, number = last.removeprefix(". ").split()
        if word == "late":
            return f"{LATE} {self.seconds} seconds"
        if word == "refused":
            return f"clone(2), CLONE_NEWPID and CLONE_NEWNS: {os.strerror(int(number))}"
        status = os.waitstatus_to_exitcode(int(number))
        how = f"by signal {-status}" if status < 0 else f"with status {status}"
        return f"the driver's process ended {how}"

    def try_script(self, text: str, place: Place) -> dict[int, str]:
        """The answers of a small script in this place; nothing where it can't be run."""
        self.place = place
        try:
            return self.answers(parse(text))
        except Lost as why:
            self.why = str(why)
            return {}

    def find(self) -> Place:
        """What this machine allows."""
        first = self.driver.first
        mapped = common(extents(first, "/proc/self/uid_map"), extents(first, "/proc/self/gid_map"))
        denied = first[-1] == ". ready 1"
        place = Place(mapped, mapped, True, denied)
        found = self.try_script(FIRST, place)
        if not found:
            place = Place(mapped, mapped, False, denied, spaces=False)
            found = self.try_script(FIRST, place)
        self.judge(found)
        has = {
            "spaces": bool(place.own and self.try_script(SPACE, place)),
            "attributes": bool(self.try_script(ATTRIBUTE, place)),
        }
        has["images"] = bool(has["attributes"] and can_make() and self.can_mount(place))
        return replace(place, **has)

    def can_mount(self, place: Place) -> bool:
        """Whether an image can be mounted."""
        try:
            return bool(self.try_script(DAMAGED, place))
        except Fault:
            return False

    def judge(self, found: dict[int, str]) -> None:
        """A first task of root has all ids and all capabilities, or nothing can be asked."""
        if not found:
            raise Fault(f"no script can be run here: {self.why}")
        caps = found.get(2, "").split()
        if caps[:1] != ["ok"] or len(caps) != 6 or (caps[1], caps[4]) != (FULL, FULL):
            raise Fault(f"root lacks capabilities here: {lacking(found.get(2, ''))}")
        if found.get(3) != "ok 0 0":
            told = disagreement(found.get(3, ""))
            raise Fault(f"root has securebits or no_new_privs set here: {told}")
        if found.get(4) != "ok 0 0 0 0 0 0 0 0":
            raise Fault(f"root isn't user 0 here: {disagreement(found.get(4, ''))}")

    def close(self) -> None:
        """Ends the driver."""
        self.driver.close()
