"""As many tasks, open files, holds, prepared labels and overrides as there may be, and one more.

docs/RULES.md: "At most 64 tasks live, 512 holds stand and 64 labels are prepared"; "at most 256
files are open"; "An override may be made over another, at most eight in all".
"""
from collections.abc import Iterator
from dataclasses import dataclass, field

import suite


@dataclass
class Run:
    """A script, and beside it the report that it must get."""

    lines: list[str] = field(default_factory=list)
    entries: list[str] = field(default_factory=list)

    def line(self, text: str, *events: str) -> None:
        """Adds a line, and its entries without their number."""
        self.lines.append(text)
        self.entries += [f"{len(self.lines)} {event}" for event in events]

    def label(self) -> str:
        """The label A of the next line."""
        return f"h{100_000 + 10 * (len(self.lines) + 1)}"

    def case(self, name: str) -> suite.Case:
        """The case of all lines."""
        script, report = ("".join(f"{it}\n" for it in its) for its in (self.lines, self.entries))
        return suite.script(name, script, report, calls=len(self.lines))


def tasks() -> suite.Case:
    """64 tasks live, each in a process of its own, and one more is forked."""
    run = Run()
    for number in range(64):
        init = f"init t{number + 1} p{number + 1} 0 0 n0"
        run.line(init, f"{init} -> ok c{number} s{number}")
    run.line("t1 fork t65 p65", "fork t1 t65 p65 -> too many tasks")
    return run.case("64 tasks")


def threads() -> suite.Case:
    """64 tasks live, all in one process, and one more is created."""
    run = Run()
    for number in range(64):
        init = f"init t{number + 1} p1 0 0 n0"
        run.line(init, f"{init} -> ok c{number} s{number}")
    run.line("t1 spawn t65", "spawn t1 t65 -> too many tasks")
    return run.case("64 threads")


def started(*declared: str) -> Run:
    """A run with these declarations and a task of root's, which has credential 0 in slot 0."""
    run = Run()
    for line in declared:
        run.line(line)
    run.line("init t1 p1 0 0 n0", "init t1 p1 0 0 n0 -> ok c0 s0")
    return run


def opens(run: Run, number: int, answer: str) -> None:
    """Task 1 opens a file under the descriptor of this number."""
    label = run.label()
    run.line(
        f"t1 open a r f{number}",
        f"take {label} t1 -> ok c0 s0",
        f"open {label} a r f{number} -> {answer}",
        f"drop {label} -> ok",
    )


def files() -> suite.Case:
    """256 files are open, and one more is opened."""
    run = started("file a reg 0 0 0600")
    for number in range(1, 257):
        opens(run, number, "ok")
    opens(run, 257, "too many files")
    return run.case("256 files")


def holds() -> suite.Case:
    """512 labels hold, and neither one more nor a question finds room."""
    run = started()
    for label in range(1, 513):
        run.line(f"take h{label} t1", f"take h{label} t1 -> ok c0 s0")
    run.line("take h513 t1", "take h513 t1 -> too many holds")
    run.line("t1 ids", f"take {run.label()} t1 -> too many holds")
    return run.case("512 holds")


def prepared() -> suite.Case:
    """64 labels are prepared, each with a slot of its own, and one more is."""
    run = started()
    run.line("take h1000 t1", "take h1000 t1 -> ok c0 s0")
    for label in range(1, 65):
        run.line("take h1000 t1", "take h1000 t1 -> exists h1000")
        event = f"prepare h{label} t1 h1000"
        run.line(event, f"{event} -> ok s{label}")
    run.line("prepare h65 t1 h1000", "prepare h65 t1 h1000 -> too many prepared")
    return run.case("64 prepared labels")


def leaves(run: Run, number: int, slot: int) -> None:
    """Task 1 gets its next credential, of this number, in this slot."""
    call = "begin t1 setresuid 0 0 0"
    run.line(call, f"{call} -> ok c{number} s{slot} left 0")


def let_go(run: Run, name: str) -> suite.Case:
    """All that referred to credential 0 but the task and hold 1000 is given up and swept. Then its
    slot is free once both have dropped it, and not before."""
    run.line("sweep", "sweep -> ok")
    leaves(run, 1, 1)
    run.line("sweep", "sweep -> ok")
    leaves(run, 2, 2)
    run.line("drop h1000", "drop h1000 -> ok")
    run.line("sweep", "sweep -> ok")
    leaves(run, 3, 0)
    return run.case(name)


def held(*declared: str) -> Run:
    """A run whose task's credential is held by label 1000 too."""
    run = started(*declared)
    run.line("take h1000 t1", "take h1000 t1 -> ok c0 s0")
    return run


def overrides_and_back() -> suite.Case:
    """Eight overrides and one too many, and all are reverted."""
    run = held()
    for _ in range(8):
        run.line("override t1 h1000", "override t1 h1000 -> ok c0 s0")
    run.line("override t1 h1000", "override t1 h1000 -> too deep")
    for _ in range(8):
        run.line("revert t1", "revert t1 -> ok")
    return let_go(run, "eight overrides and back")


def holds_and_back() -> suite.Case:
    """511 holds beside that one and one too many, and all are dropped."""
    run = held()
    for label in range(1, 512):
        run.line(f"take h{label} t1", f"take h{label} t1 -> ok c0 s0")
    run.line("take h2000 t1", "take h2000 t1 -> too many holds")
    for label in range(1, 512):
        run.line(f"drop h{label}", f"drop h{label} -> ok")
    return let_go(run, "512 holds and back")


def files_and_back() -> suite.Case:
    """256 files and one too many, and all are closed."""
    run = held("file a reg 0 0 0600")
    for number in range(1, 257):
        opens(run, number, "ok")
    opens(run, 2000, "too many files")
    for number in range(1, 257):
        run.line(f"t1 close f{number}", f"close f{number} -> ok")
    return let_go(run, "256 files and back")


def cases() -> Iterator[suite.Case]:
    """All of them."""
    yield from (tasks(), threads(), files(), holds(), prepared())
    yield from (overrides_and_back(), holds_and_back(), files_and_back())
