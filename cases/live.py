"""A running kernel that is checked against the cases: `cases/check --kernel`."""

from __future__ import annotations

import argparse
import os
import re
import signal
import sys
from collections import Counter
from collections.abc import Iterable, Iterator
from dataclasses import dataclass, field, replace
from itertools import islice, zip_longest
from multiprocessing import get_context
from multiprocessing.sharedctypes import Synchronized
from threading import Semaphore

import suite
from program import NO_THREADS, lacks

sys.path.insert(0, str(suite.TOP.parent / "share"))
from kernel import chance, comparison, report, wrong  # noqa: E402
from kernel.runnable import why_not  # noqa: E402
from kernel.isolation import Fault, die_with_parent  # noqa: E402
from kernel.machine import Machine  # noqa: E402
from kernel.model import expected  # noqa: E402
from kernel.process import Built  # noqa: E402
from kernel.rows import MANUAL, row  # noqa: E402
from kernel.script import parse  # noqa: E402
from kernel.setup import Place  # noqa: E402

# Answers that come of the sizes of this program's tables.
LIMITS = re.compile(rb"-> (?:table full|too many|too deep)")
NO_SCRIPT = "bad scripts, and texts without a call"
OF_LIMITS = "limits of this program"
# Subjects that have no case for a kernel.
OTHERS = ("audit", "decode", "encode", "capdata", "words", "limits")
SAME, NOTHING = 1, 2
# How many lines of a long script are asked where few cases are.
BRIEF = 400
# A script that a worker is given: its name, its text, its report, or some entries of it.
Asked = tuple[str, str, str | None, tuple[bytes, ...]]
ENDING = signal.SIGTERM, signal.SIGHUP, signal.SIGINT


@dataclass
class Outcome:
    """What came of all cases."""

    calls: int = 0
    agree: int = 0
    by_rows: int = 0
    rows: Counter[str] = field(default_factory=Counter)
    not_asked: Counter[str] = field(default_factory=Counter)
    differ: list[tuple[str, str]] = field(default_factory=list)

    def add(self, name: str, verdict: comparison.Verdict) -> None:
        """Counts a verdict."""
        self.calls += verdict.calls
        if verdict.kind == comparison.AGREES:
            self.agree += 1
        elif verdict.kind == comparison.ROWS:
            self.by_rows += 1
            self.rows.update(verdict.rows)
        elif verdict.kind == comparison.NOT_ASKED:
            self.not_asked[verdict.told] += 1
        else:
            self.differ.append((name, verdict.told))

    def progress(self) -> None:
        """Says on a terminal how far it is."""
        if sys.stderr.isatty():
            print(f"\r{self.calls:,} calls", end="\r", file=sys.stderr, flush=True)

    def tell(self, what: str) -> int:
        """Says what came of all, and ends with the status."""
        for name, told in self.differ:
            print(f"{what}: {name}: {told}")
        for key, count in sorted(self.rows.items()):
            print(f"{what}: {count:,} show the row of docs/LINUX.md: {row(key)[0]}")
        for reason, count in self.not_asked.most_common():
            print(f"{what}: {count:,} not asked: {reason}")
        asked = self.agree + self.by_rows + len(self.differ)
        print(
            f"{what}: {asked:,} asked, {self.calls:,} calls: {self.agree:,} agree, "
            f"{self.by_rows:,} differ by known rows, {len(self.differ):,} differ"
        )
        return NOTHING if not asked else SAME if self.differ else 0


def not_for_a_kernel(case: suite.Case) -> str | None:
    """Why a case is none that a kernel can be asked, or nothing."""
    if case.words != ("run",) or case.ends() or not case.given.strip():
        return NO_SCRIPT
    if LIMITS.search(case.written or b""):
        return OF_LIMITS
    return None


HOLDER: comparison.Holder | Fault = Fault("the worker has not begun")


def end_with_parent() -> None:
    """In a worker: it ends where its parent does, and at once by a signal."""
    die_with_parent()
    for number in ENDING:
        signal.signal(number, signal.SIG_DFL)


def begin(
    built: Built, place: Place, words: argparse.Namespace, workers: Synchronized[int]
) -> None:
    """In a worker: it has a driver of its own, and ends where its parent does."""
    global HOLDER
    end_with_parent()
    sys.stdin.close()
    stay_on_one_processor(workers)
    try:
        HOLDER = comparison.Holder(Machine(built, words.seconds, place), words.strict)
    except Fault as fault:
        # It is raised where there is something to judge: who begins badly is begun anew.
        HOLDER = fault


def stay_on_one_processor(workers: Synchronized[int]) -> None:
    """One task of a driver runs at a time: it is woken sooner where the one before it ran."""
    with workers.get_lock():
        workers.value += 1
        mine = workers.value
    try:
        allowed = sorted(os.sched_getaffinity(0))
        os.sched_setaffinity(0, {allowed[mine % len(allowed)]})
    except OSError:
        pass


def judge(task: Asked) -> tuple[str, comparison.Verdict]:
    """In a worker: holds its kernel to a script."""
    name, text, wanted, entries = task
    if isinstance(HOLDER, Fault):
        raise HOLDER
    script = parse(text)
    verdict = HOLDER.held(script, wanted)
    if entries and verdict.kind == comparison.AGREES:
        written = report.report_of(script, HOLDER.machine.answers(script)).encode()
        missing = lacks(entries, written)
        if missing is not None:
            told = f"the report lacks {missing.decode()}"
            verdict = comparison.Verdict(comparison.DIFFERS, told=told)
    return name, verdict


def tasks(
    cases: Iterable[suite.Case], outcome: Outcome, place: Place | None = None
) -> Iterator[Asked]:
    """What workers are given: a script, and its report or some entries of it. With a place they are
    such as it can be asked; else workers find that out.
    """
    for case in cases:
        reason = not_for_a_kernel(case)
        text = case.given.decode("ascii") if not reason else ""
        if place and not reason:
            reason = why_not(parse(text), place)
        if reason:
            outcome.not_asked[reason] += 1
        else:
            wanted = None if case.written is None else case.written.decode()
            yield case.name, text, wanted, case.entries


def bounded(given: Iterable[Asked], room: Semaphore) -> Iterator[Asked]:
    """What is given, as far as there is room for it."""
    for it in given:
        room.acquire()
        yield it


def all_cases(only: str) -> Iterator[suite.Case]:
    """The cases whose names begin so, of the subjects that have some for a kernel."""
    for subject in suite.subjects():
        name = f"{subject.name}/"
        if subject.name in OTHERS or not (name.startswith(only) or only.startswith(name)):
            continue
        for case in suite.cases_of(subject):
            if case.name.startswith(only):
                yield case


def cut(case: suite.Case) -> suite.Case:
    """The first lines of a long script, and their entries."""
    lines = case.given.splitlines(keepends=True)
    if len(lines) <= BRIEF or case.written is None:
        return case
    entries = case.written.splitlines(keepends=True)
    some = [it for it in entries if int(it.split(b" ", 1)[0]) <= BRIEF]
    return replace(case, given=b"".join(lines[:BRIEF]), written=b"".join(some))


def brief() -> Iterator[suite.Case]:
    """The cases that stand in files and rows, and the beginning of one script of each table: the
    first of each file, then the second of each, and so on.
    """
    files = []
    for subject in suite.subjects():
        for file in sorted(it for it in subject.iterdir() if it.suffix in suite.READERS):
            if subject.name not in OTHERS:
                found = suite.READERS[file.suffix](file, f"{subject.name}/{file.stem}")
                files.append(map(cut, islice(found, 1) if file.suffix == ".py" else found))
    for some in zip_longest(*files):
        yield from filter(None, some)


def counted(cases: Iterable[Asked], words: argparse.Namespace) -> Iterator[Asked]:
    """So many of them, with random scripts where there are too few."""
    found = [*islice(cases, words.count)]
    yield from found
    for number in range(words.seed, words.seed + words.count - len(found)):
        yield random_task(number)


def run(
    given: Iterable[Asked],
    outcome: Outcome,
    start: tuple[Built, Place, argparse.Namespace],
    workers: int,
) -> Outcome:
    """Has workers judge what is given."""
    context = get_context("fork")
    room = Semaphore(4 * workers)
    with context.Pool(workers, begin, (*start, context.Value("i", 0))) as pool:
        for name, verdict in pool.imap_unordered(judge, bounded(given, room)):
            room.release()
            outcome.add(name, verdict)
            outcome.progress()
        # Those that have begun late begin all the same, before the driver's folder goes.
        pool.close()
        pool.join()
    return outcome


def random_task(number: int) -> Asked:
    """The random script of a number."""
    return f"random script {number}", chance.made(number), None, ()


def given_by(words: argparse.Namespace, outcome: Outcome, place: Place) -> Iterator[Asked]:
    """The scripts that the words ask for."""
    if words.random:
        return map(random_task, range(words.seed, words.seed + words.random))
    if words.count:
        found = (it for it in brief() if it.name.startswith(words.only))
        return counted(tasks(found, outcome, place), words)
    return tasks(all_cases(words.only), outcome, place if words.wrong else None)


def check(words: argparse.Namespace, workers: int) -> int:
    """Checks the running kernel against the cases, and says what came of it."""
    built = Built(words.via)
    try:
        machine = Machine(built, words.seconds, ids=words.ids)
        machine.close()
        place, outcome = machine.place, Outcome()
        print(f"cases: {machine.kernel}", flush=True)
        given = given_by(words, outcome, place)
        return run(given, outcome, (built, place, words), workers).tell("cases")
    finally:
        built.close()


SCRIPTS: list[Asked] = []


def finds(what: str) -> tuple[str, str | None, str]:
    """In a worker: the first script that finds a wrong kernel, or nothing."""
    holder = comparison.Holder(wrong.WrongKernel(what, Place()))
    for name, text, wanted, _ in SCRIPTS:
        verdict = holder.held(parse(text), wanted)
        if verdict.kind == comparison.DIFFERS:
            return what, name, verdict.told
    return what, None, ""


def misses(task: Asked) -> str | None:
    """In a worker: whether the rules of share/kernel give a case another report."""
    name, text, wanted, _ = task
    script = parse(text)
    answers, _ = expected(script, Place(), MANUAL)
    return name if wanted is not None and report.report_of(script, answers) != wanted else None


def check_wrong(words: argparse.Namespace, workers: int) -> int:
    """Checks the rules against the cases, and then each wrong kernel, the smallest cases first: one
    has to find it.
    """
    given = given_by(words, Outcome(), Place())
    SCRIPTS.extend(sorted(given, key=lambda it: len(it[1])))
    missed = 0
    with get_context("fork").Pool(workers, end_with_parent) as pool:
        for name in filter(None, pool.imap(misses, SCRIPTS, 4)):
            print(f"cases: {name}: the rules of share/kernel say otherwise")
            return SAME
        for what, by, told in pool.imap(finds, wrong.WRONG):
            missed += by is None
            if by is None or not words.count:
                print(f"cases: {what}: {f'{by}: {told}' if by else 'not found'}", flush=True)
        # One that is ended while it holds the lock of the tasks leaves the others waiting for it.
        pool.close()
        pool.join()
    print(f"cases: {len(wrong.WRONG)} wrong kernels, {missed} not found")
    return SAME if missed else 0


def has_cases(words: argparse.Namespace) -> None:
    """Something is asked: where the words name no case, that is told, and no random one is
    taken."""
    if words.only and not words.random and next(iter(all_cases(words.only)), None) is None:
        raise Fault(f"no case that a kernel can be asked has a name that begins so: {words.only}")


def ended(number: int, _frame: object) -> None:
    """A signal that ends the check: the folder of a driver under another program is removed."""
    raise SystemExit(128 + number)


def main(words: argparse.Namespace, workers: int) -> int:
    """As check, with a line where nothing can be asked."""
    for number in ENDING:
        signal.signal(number, ended)
    try:
        has_cases(words)
        return check_wrong(words, workers) if words.wrong else check(words, workers)
    except Fault as fault:
        print(f"cases: {fault}", file=sys.stderr)
    except RuntimeError as fault:
        print(f"cases: {fault}: {NO_THREADS}", file=sys.stderr)
    return NOTHING
