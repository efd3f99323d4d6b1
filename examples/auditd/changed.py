"""Stored logs that are changed: what is said of them then."""

from __future__ import annotations

import copy
import random
import re
from collections.abc import Iterator
from pathlib import Path

from auditd.compare import Comparer, Result
from auditd.findings import Class
from auditd.gather import Gatherer
from auditd.living import MOST_THREADS
from auditd.records import ALL, Event
from auditd.script import USUAL, Kind, Limits, Script
from auditd.start import started
from auditd.tasks import Held, Kept, Known

from reasons import CASES, LOST, Change

HERE = Path(__file__).resolve().parent


def lines_of(log: str) -> list[str]:
    """The lines of a stored log."""
    return (HERE / log / "log").read_text(encoding="latin-1").split("\n")


def result_of(lines: list[str], limits: Limits | None = None, start: Path | None = None) -> Result:
    """What comes of a log."""
    known = started(str(start)) if start else None
    comparer = Comparer(started=known, limits=limits or USUAL)
    return comparer.run(Gatherer().events(lines))


def edited(lines: list[str], change: Change) -> tuple[list[str], str]:
    """The changed log, and the stamp of the event that was changed."""
    places = [at for at, text in enumerate(lines) if re.search(change.line, text)]
    assert len(places) > change.which, f"no line has {change.line}"
    at = places[change.which]
    assert change.old in lines[at], f"{change.old} isn't in {lines[at]}"
    found = [*lines]
    found[at] = lines[at].replace(change.old, change.new, 1) if change.old else lines[at]
    stamp = re.search(r"audit\([\d.:]+\)", lines[at])
    assert stamp is not None
    return found, stamp[0]


def reasons() -> str:
    """Each reason holds where it must, and doesn't where it just doesn't."""
    for case in CASES:
        lines, stamp = edited(lines_of(case.log), case.change)
        start = HERE / case.log / "start" if case.start else None
        result = result_of(lines, start=start)
        told = [(one.found, one.reason) for one in result.findings
                if one.event.stamp == stamp or case.change.new == LOST[1]]  # fmt: skip
        wanted = [(case.found, case.reason)] if case.found else []
        assert told[:1] == wanted, f"{case.log}, {case.name}: {told}, and not {wanted}"
    return f"{len(CASES)} changed logs have the reasons that they must have"


def counted(result: Result) -> tuple[int, list[tuple[str, Class]]]:
    """How many records agree, and the findings."""
    return result.agree[Kind.IDS], [(one.event.stamp, one.found) for one in result.findings]


def mixed(seed: int, lines: list[str]) -> list[str]:
    """The same records, some of them later."""
    chance = random.Random(seed)
    places = [(at + chance.randrange(60), at) for at in range(len(lines))]
    return [lines[at] for _, at in sorted(places)]


def mixtures() -> str:
    """Records that are mixed make the same of a log."""
    count = 0
    for log in ("sudo", "nginx", "threads", "files-changed"):
        lines = lines_of(log)
        wanted = counted(result_of(lines))
        for seed in range(3):
            found = counted(result_of(mixed(seed, lines)))
            assert found == wanted, f"{log}, mixed by {seed}: {found}, and not {wanted}"
            count += 1
    return f"{count} logs whose records are mixed say the same"


STAMP = re.compile(r"audit\((\d+)(\.\d+):(\d+)\)")


def moved(lines: list[str], seconds: int, numbers: int) -> list[str]:
    """The same log at another time, with other serial numbers."""
    def stamp(found: re.Match[str]) -> str:
        return f"audit({int(found[1]) + seconds}{found[2]}:{int(found[3]) + numbers})"

    return [STAMP.sub(stamp, line) for line in lines]


def first_serial(lines: list[str]) -> int:
    """The least serial number."""
    return min(int(found[3]) for line in lines if (found := STAMP.search(line)))


def again() -> str:
    """Serial numbers begin again at a boot; pids come again, also where no record says that the
    first process ended."""
    for log in ("sudo", "sshd", "many"):
        lines = lines_of(log)
        agree, _ = counted(result_of(lines))
        boot = moved(lines, 3600, 1 - first_serial(lines))
        found = counted(result_of([*lines, *boot]))
        assert found == (2 * agree, []), f"{log}, twice with a boot: {found}"
        later = moved(lines, 3600, 100_000)
        found = counted(result_of([*lines, *later]))
        assert found[0] >= 2 * agree and not found[1], f"{log}, twice: {found}"
        killed = [line for line in lines if "syscall=231 " not in line]
        classes = result_of([*killed, *later]).classes()
        assert not classes[Class.UNEXPLAINED], f"{log}, twice without ends: {classes}"
    return "serial numbers and pids that begin again are told apart"


# Small scripts, by each of their limits.
SMALL = {
    "lines": Limits(lines=60), "files": Limits(files=3), "tasks": Limits(tasks=4),
    "bytes": Limits(bytes=1200), "events": Limits(events=150, behind=100),
}  # fmt: skip


def cuts() -> str:
    """Scripts that are cut at each limit say the same, and an attack at a cut is found."""
    scripts = attacks = 0
    for log in ("sudo", "sshd", "python-threads", "many", "begun", "set-user-id"):
        lines = lines_of(log)
        start = HERE / log / "start" if log == "begun" else None
        wanted = counted(result_of(lines, start=start))
        for name, limits in SMALL.items():
            result = result_of(lines, limits, start)
            assert counted(result) == wanted, f"{log}, cut by {name}: {counted(result)}: {wanted}"
            scripts += result.scripts
            for at in behind_cuts(lines, limits):
                attacks += attack_is_found(log, lines, at, limits)
    assert scripts > 80 and attacks > 30, f"only {scripts} scripts and {attacks} attacks"
    return f"{scripts} scripts that are cut say the same, and {attacks} attacks at cuts are found"


def behind_cuts(lines: list[str], limits: Limits) -> Iterator[int]:
    """The first record behind each cut of a task that isn't root."""
    sizes: list[int] = []

    def keep(script: Script) -> None:
        """How many records a script has."""
        sizes.append(len({one.event.place for one in script.checks}))

    comparer = Comparer(keep, limits=limits)
    events = list(Gatherer().events(lines))
    comparer.run(iter(events))
    at = 0
    for size in sizes[:-1]:
        at += size
        seen = {event.pid for event in events[:at]}
        for place in range(at, min(at + 12, len(events))):
            if events[place].pid in seen and 0 not in events[place].ids[:3]:
                yield place
                break


def attack_is_found(log: str, lines: list[str], at: int, limits: Limits) -> bool:
    """Whether the attack isn't explained, nor unseen; of one that isn't unexplained at once a call
    may be missing."""
    events = list(Gatherer().events(lines))
    pid, stamp = events[at].pid, events[at].stamp
    found = Comparer(limits=limits).run(overwritten(events, pid, at))
    classes = {one.found for one in found.findings if one.event.stamp == stamp}
    told = {Class.UNEXPLAINED, Class.MISSING, Class.DOUBTFUL}
    assert classes & told, f"{log}, {stamp}: {classes}"
    return Class.UNEXPLAINED in classes


def overwritten(events: list[Event], pid: int, at: int) -> Iterator[Event]:
    """The process is root from there on."""
    for place, event in enumerate(events):
        if place >= at and event.pid == pid:
            event.ids = (0, 0, 0, 0, 0, 0, 0, 0)
        yield event


def inside() -> str:
    """Logs of containers that begin in the middle have nothing unexplained; scripts that are cut
    say the same, also where they are cut as namespaces fill."""
    count = 0
    for log in ("container", "rootless", "unshare", "bwrap"):
        events = list(Gatherer().events(lines_of(log)))
        for at in range(1, len(events), 9):
            found = Comparer().run(copy.copy(event) for event in events[at:])
            faults = [one for one in found.findings if one.found is Class.UNEXPLAINED]
            assert not faults, f"{log}, from {events[at].stamp}: {faults[0].event.stamp}"
            count += 1
    for log, limits in (("bwrap", Limits(spaces=1)), ("container", Limits(lines=60))):
        lines = lines_of(log)
        result = result_of(lines, limits)
        assert counted(result) == counted(result_of(lines)), f"{log}, cut by {limits}"
        assert result.scripts > 50, f"{log}: only {result.scripts} scripts"
    return (
        f"{count} logs of containers that begin in the middle have nothing unexplained, and 2 that "
        "are cut say the same"
    )


def plain(lines: list[str], pid: int, parent: int, serial: int, uid: int = 0) -> str:
    """A record of getpid(2) by another process, as a log has it of its first one."""
    line = next(line for line in lines if "type=SYSCALL" in line)
    line = re.sub(r"\((\d+)\.\d+:\d+\)", rf"(\1.999:{serial})", line)
    line = re.sub(r"syscall=\d+ success=\w+ exit=-?\d+", "syscall=39 success=yes exit=9", line)
    line = re.sub(r"ppid=\d+ pid=\d+", f"ppid={parent} pid={pid}", line)
    return re.sub(r"\b(e|s|fs)?([ug])id=\d+", rf"\1\2id={uid}", line)


def crowds() -> str:
    """Processes with many threads go on in a script that has no room for all of them: it ends
    before the record that would make it too long."""
    lines = lines_of("capsh")
    first = next(Gatherer().events(lines))
    held = Held(first.ids, ALL, 0, ALL, ALL, 0)
    kept = Kept((held,) * MOST_THREADS, tuple(range(MOST_THREADS)), None, first.program,
                first.parent, Known(True, True, True))  # fmt: skip
    pids = range(9001, 9006)
    text = [plain(lines, pid, 1, at) for at, pid in enumerate((9000, *pids), 1)]
    comparer = Comparer(started=dict.fromkeys(pids, kept))
    result = comparer.run(Gatherer().events(text))
    assert counted(result) == (len(pids), []), f"many threads: {counted(result)}"
    assert result.scripts == 2, f"many threads: {result.scripts} scripts"
    return f"{len(pids)} processes of {MOST_THREADS} threads each are cut into 2 scripts"


def in_a_container() -> str:
    """A process of the host that has the number that a call in a PID namespace returns is no child
    of the caller."""
    lines = lines_of("container")
    events = list(Gatherer().events(lines))
    made = next(one for one in events if one.name == "vfork" and one.result < 100)
    own = [plain(lines_of("su"), made.result, 1, at, uid=3001) for at in
           (events[0].serial, made.serial + 1, made.serial + 2)]  # fmt: skip
    result = result_of([*lines, *own])
    wanted = counted(result_of(lines))[0] + len(own) - 1
    assert counted(result) == (wanted, []), f"{counted(result)}, and not {wanted}"
    return "a number of a PID namespace isn't taken for that of a process of the host"


def forms() -> str:
    """The same log as other programs write it."""
    lines = lines_of("sudo")
    wanted = counted(result_of(lines))
    raw = [line.partition("\x1d")[0] for line in lines]
    assert raw != lines, "no stored log is ENRICHED"
    others = {
        "RAW": raw,
        "with a node": [f"node=host.example {line}" for line in lines],
        "with lines of ausearch": ["----", *lines, ""],
        "without what no comparison needs": [
            line for line in lines if not line.startswith(("type=CWD", "type=EXECVE"))
        ],
    }
    for name, changed in others.items():
        found = counted(result_of(changed))
        assert found == wanted, f"sudo {name}: {found}, and not {wanted}"
    return f"{len(others)} other forms of a log say the same"


def all_checks() -> Iterator[str]:
    """What each check says."""
    for check in (reasons, forms, mixtures, again, cuts, crowds, inside, in_a_container):
        yield check()
