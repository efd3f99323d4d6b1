"""Random scripts of every call that a kernel can be asked, made from a number."""

from __future__ import annotations

import random

from capabilities import CAPABILITIES

ROOTS = {1: 100_000, 2: 200_000}
IDS = (0, 0, 1000, 2000, 5, 100_000, 200_000)
ALL = (1 << 41) - 1
# The capabilities that calls ask for, and some on files.
FEW = (0, 1, 2, 5, 6, 7, 7, 8, 13, 21, 38, 40)
MODES = (0o755, 0o700, 0o750, 0o711, 0o644, 0o600, 0o070, 0o007, 0o100, 0o111, 0)
SET_ID = (0, 0, 0o4000, 0o4000, 0o2000, 0o6000, 0o1000)
BITS = (0, 1, 2, 4, 8, 16, 20, 32, 64, 128, 3, 5, 81, 255, 256, 512, 1024, 4096)


class Maker:
    """Makes one script."""

    def __init__(self, seed: int, lines: int) -> None:
        self.random = random.Random(seed)
        self.count = lines
        self.lines: list[str] = []
        self.files: list[str] = []
        self.runs: set[str] = set()
        self.spaces = [0]
        self.process: dict[int, int] = {}
        self.holds: list[int] = []
        self.next_task = self.next_process = 1
        self.next_hold = self.next_file = 1

    def one(self, *its: object) -> object:
        """One of these."""
        return self.random.choice(its)

    def id(self) -> int:
        """An id."""
        return self.random.choice(IDS)

    def argument(self) -> str:
        """An id, or `-1`."""
        return "-1" if self.random.random() < 0.2 else str(self.id())

    def some(self) -> int:
        """A set of capabilities."""
        chance = self.random.random()
        if chance < 0.25:
            return ALL
        if chance < 0.4:
            return 0
        few = sum({1 << it for it in self.random.choices(FEW, k=self.random.randint(1, 5))})
        return few if chance < 0.75 else ALL & ~few

    def number(self) -> str:
        """A capability, seldom one above the last."""
        chance = self.random.random()
        if chance < 0.04:
            return str(self.one(41, 63, 64, 4294967295))
        number = self.random.choice(FEW)
        return f"CAP_{CAPABILITIES[number]}" if chance < 0.3 else str(number)

    def attribute(self) -> str:
        """The bytes of an attribute, of each version, seldom damaged."""
        version = self.random.choice((1, 2, 2, 2, 3, 3, 3, 3))
        effective = self.random.random() < 0.5
        sets = [self.some() & (ALL if self.random.random() < 0.5 else 0xE0) for _ in range(2)]
        words = [version << 24 | effective]
        for half in (0, 32) if version > 1 else (0,):
            words += [it >> half & 0xFFFFFFFF for it in sets]
        if version == 3:
            words.append(self.random.choice((0, 100_000, 200_000, 1000, 4294967295)))
        data = b"".join(it.to_bytes(4, "little") for it in words)
        damage = self.random.random()
        if damage < 0.05:
            data = data[: self.random.randint(1, len(data) - 1)]
        elif damage < 0.08:
            data += b"\0" * self.random.randint(1, 8)
        elif damage < 0.1:
            data = bytes((data[0] | self.random.choice((2, 0xFE)), *data[1:]))
        return data.hex()

    def declare(self) -> None:
        """Files and user namespaces."""
        if self.random.random() < 0.6:
            self.lines.append(f"ns 1 {ROOTS[1]} 0")
            self.spaces.append(1)
            if self.random.random() < 0.5:
                self.lines.append(f"ns 2 {ROOTS[2]} 1")
                self.spaces.append(2)
        for number in range(self.random.randint(2, 7)):
            name = f"f{number}"
            kind = "dir" if self.random.random() < 0.15 else "reg"
            mode = self.random.choice(MODES) | self.random.choice(SET_ID)
            text = f"file {name} {kind} {self.id()} {self.id()} {mode:04o}"
            if self.random.random() < 0.15:
                text += " nosuid"
            if self.random.random() < 0.5 and kind == "reg":
                text += f" caps {self.attribute()}"
            self.lines.append(text)
            self.files.append(name)
            if kind == "reg" and self.random.random() < 0.7:
                self.runs.add(name)

    def init(self) -> None:
        """First tasks."""
        space_of: dict[int, int] = {}
        for _ in range(self.random.choice((1, 1, 2, 3))):
            process = self.next_process
            if process > 1 and self.random.random() < 0.3:
                process -= 1
            else:
                self.next_process += 1
            space = space_of.setdefault(process, self.random.choice(self.spaces))
            user = ROOTS.get(space, 0) if self.random.random() < 0.75 else self.id()
            task = self.next_task
            self.next_task += 1
            self.process[task] = process
            self.lines.append(f"init t{task} p{process} {user} {self.id()} n{space}")

    def id_call(self) -> str:
        """A call that sets ids."""
        kind = self.one("u", "u", "g")
        name = self.one("set", "sete", "setre", "setre", "setres", "setres", "setres", "groups")
        if name == "groups":
            many = self.random.randint(0, 4)
            return " ".join(["setgroups", *(str(self.id()) for _ in range(many))])
        width = {"set": 1, "sete": 1, "setre": 2, "setres": 3}[str(name)]
        return " ".join([f"{name}{kind}id", *(self.argument() for _ in range(width))])

    def change(self) -> str:
        """A change of a task's own credential."""
        form = self.random.choice(
            "setfsuid setfsgid capset capset capset capdrop ambraise ambraise amblower ambclear "
            "securebits keepcaps nonewprivs exec exec exec exec".split()
        )
        if form in ("setfsuid", "setfsgid"):
            return f"{form} {self.argument()}"
        if form == "capset":
            return f"capset {self.some():x} {self.some():x} {self.some():x}"
        if form == "exec" and self.runs:
            return f"exec {self.random.choice(sorted(self.runs))}"
        if form == "securebits":
            return f"securebits {self.random.choice(BITS)}"
        if form in ("keepcaps", "nonewprivs"):
            return f"{form} {self.random.choice((0, 1, 1, 1, 2) if form == 'keepcaps' else (0, 1))}"
        return "ambclear" if form in ("ambclear", "exec") else f"{form} {self.number()}"

    def question(self) -> str:
        """A question."""
        forms = "ids caps caps groups bits capable bset ambis check check"
        form = self.random.choice(forms.split())
        if form == "check":
            return f"check {self.random.choice(self.files)} {self.want()}"
        return f"{form} {self.number()}" if form in ("capable", "bset", "ambis") else form

    def want(self) -> str:
        """What is asked of a file."""
        return self.random.choice(("r", "w", "x", "rw", "rx", "wx", "rwx"))

    def starts(self, task: int) -> str:
        """A thread, or a child."""
        new = self.next_task
        self.next_task += 1
        if self.random.random() < 0.5:
            self.process[new] = self.process[task]
            return f"t{task} spawn t{new}"
        self.process[new] = self.next_process
        self.next_process += 1
        return f"t{task} fork t{new} p{self.process[new]}"

    def label(self, task: int) -> str:
        """A label that holds, a question to it, or its end."""
        chance = self.random.random()
        if not self.holds or chance < 0.3:
            self.holds.append(self.next_hold)
            self.next_hold += 1
            return f"take h{self.holds[-1]} t{task}"
        hold = self.random.choice(self.holds)
        return f"ask h{hold} {self.question()}" if chance < 0.9 else f"drop h{hold}"

    def opens(self, task: int) -> str | None:
        """open(2) of a file that isn't executed."""
        others = [it for it in self.files if it not in self.runs and self.is_plain(it)]
        if not others:
            return None
        number = self.next_file
        self.next_file += 1
        want = self.random.choice(("r", "w", "rw"))
        return f"t{task} open {self.random.choice(others)} {want} f{number}"

    def is_plain(self, name: str) -> bool:
        """Whether a file is a regular one."""
        return any(it.startswith(f"file {name} reg ") for it in self.lines)

    def line(self) -> str | None:
        """A line of a task."""
        task = self.random.choice(sorted(self.process))
        chance = self.random.random()
        if chance < 0.3:
            return f"t{task} {self.id_call()}"
        if chance < 0.62:
            return f"t{task} {self.change()}"
        if chance < 0.78:
            return f"t{task} {self.question()}"
        if chance < 0.84:
            return f"t{task} access {self.random.choice(self.files)} {self.want()}"
        if chance < 0.89:
            return f"t{task} signal t{self.random.choice(sorted(self.process))}"
        if chance < 0.95:
            return self.starts(task) if len(self.process) < 12 else f"t{task} caps"
        if chance < 0.97:
            return self.opens(task)
        if chance < 0.985:
            return self.label(task)
        if chance < 0.99 and len(self.process) > 1:
            return f"t{task} exit"
        return f"t{task} bits"

    def make(self) -> str:
        """The script; at its end each task is asked for all that it has."""
        self.declare()
        self.init()
        while len(self.lines) < self.count:
            line = self.line()
            if line is not None:
                self.lines.append(line)
                words = line.split()
                changes = words[0][1:].isdigit() and words[1] not in ("ids", "caps", "groups")
                if changes and self.random.random() < 0.5:
                    self.lines.append(f"{words[0]} {self.one('ids', 'caps', 'caps')}")
        for task in sorted(self.process):
            self.lines += [f"t{task} {it}" for it in ("ids", "caps", "groups", "bits")]
        return "\n".join([*self.lines, ""])


def made(seed: int, lines: int = 60) -> str:
    """The script of a number."""
    return Maker(seed, lines).make()
