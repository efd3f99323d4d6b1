"""Where it is asked from: the script up to a line, the threads of the task's process, the files."""

from __future__ import annotations

import re
from collections.abc import Iterable, Sequence
from dataclasses import dataclass, field
from fnmatch import fnmatchcase

import limits
from why.journal import Journal
from why.program import report_of
from why.script import File, Script

from . import declared, lines
from .asking import LINES, Runner
from .declared import Executable
from .faults import Bad, NotFound
from .state import QUESTIONS, State, state_at

# Two tasks more are needed beside those that live.
MOST_TASKS, NEEDED = limits.TASKS, 2
TASK = re.compile(r"t[1-9][0-9]{0,4}")


@dataclass(frozen=True)
class Options:
    """Of which point of the script it is asked, and of which files."""

    task: str
    line: int | None = None
    alone: bool = False
    plain: bool = True
    skip: tuple[str, ...] = ()
    more: tuple[str, ...] = ()


@dataclass(frozen=True)
class Thread:
    """A thread from whose state a search starts."""

    name: str
    namespace: int
    state: State


@dataclass
class Start:
    """A script up to a line, and what stands there."""

    task: str
    line: int
    given: list[str]
    added: list[str]
    plain: str | None
    prefix: list[str]
    journal: Journal
    declared: dict[str, File]
    free: tuple[int, int]
    threads: list[Thread] = field(default_factory=list)
    files: list[Executable] = field(default_factory=list)

    @property
    def together(self) -> bool:
        """Whether other threads of the process live, also where they are left out."""
        task = self.journal.tasks[self.task]
        return len(self.journal.processes[task.process]) > 1

    def root(self, namespace: int) -> int:
        """The user who is root in a namespace."""
        return self.journal.script.roots[namespace][0]

    def roots(self) -> set[int]:
        """The users who are root for one of the threads."""
        return {self.root(thread.namespace) for thread in self.threads}

    def chains(self) -> list[list[int]]:
        """The root ids of the threads' namespaces, with those of the namespaces above."""
        return [self.journal.script.roots[thread.namespace] for thread in self.threads]


def cut(text: str, line: int | None) -> list[str]:
    """The lines of a script up to one."""
    given = text.split("\n")
    if given[-1] == "":
        given.pop()
    if line is not None and not 1 <= line <= len(given):
        raise Bad(f"the script has no line {line}: it has {len(given)}")
    return given[:line]


def check_task(journal: Journal, task: str, line: int) -> None:
    """Whether a task can make calls behind the line."""
    if task not in journal.tasks:
        made = [birth for birth in journal.births if birth.task == task]
        if not made:
            raise Bad(f"no line makes a task {task}" + (f" up to line {line}" if line else ""))
        gone, how = journal.gone_tasks[task]
        raise Bad(f"{task} is gone: {how} in line {gone}. Ask of a line before: --line {gone - 1}")
    process = journal.tasks[task].process
    cast = journal.casts.get(process)
    if cast is not None:
        raise Bad(
            f"the call that {cast.caller} began in line {cast.line} is not over behind line "
            f"{line}: {', '.join(cast.waiting)} must still make it"
        )
    if len(journal.tasks) > MOST_TASKS - NEEDED:
        raise Bad(
            f"{len(journal.tasks)} tasks live behind line {line}: a script has {MOST_TASKS} at "
            f"most, and {NEEDED} more are needed"
        )


def check_override(journal: Journal, thread: str, line: int) -> None:
    """A task under an override makes no calls on its credential."""
    overrides = journal.tasks[thread].overrides
    if overrides:
        raise Bad(
            f"{thread} is under an override behind line {line}, of line {overrides[-1][1]}: ask of "
            "a line where it is under none"
        )


def given_up(journal: Journal) -> list[str]:
    """Lines that give up all labels and open files: no credential of a task depends on them, and a
    script has room for so many."""
    labels = [
        f"{'drop' if label.slot is None else 'abort'} {name}"
        for name, label in journal.labels.items()
    ]
    task = next(iter(journal.tasks))
    return [*labels, *(f"{task} close {name}" for name in journal.files)]


def declared_more(given: Sequence[str], options: Options) -> tuple[list[str], str | None]:
    """The files that are added to a script, and the name of the plain one among them."""
    added = list(options.more)
    if not options.plain:
        return added, None
    all_lines = [*given, *added]
    if len(declared.declarations(all_lines)) >= declared.MOST_FILES:
        raise Bad(f"{declared.MOST_FILES} files are declared, as many as there may be: --no-plain")
    plain = declared.plain_name(all_lines)
    return [*added, declared.plain_line(plain)], plain


def started(runner: Runner, text: str, options: Options) -> Start:
    """The start of a search."""
    report = report_of(text.encode("latin-1"))
    given = cut(text, options.line)
    added, plain = declared_more(given, options)
    whole = lines.with_declared(given, added)
    here = "\n".join(given) + "\n"
    if options.line is not None:
        report = report_of(here.encode("latin-1"))
    journal = Journal(Script(here), report)
    line = options.line or len(given)
    check_task(journal, options.task, line)
    prefix = [*lines.without_idle(whole), *given_up(journal)]
    if len(prefix) > LINES - 1000:
        raise Bad(f"{len(prefix):,} lines change something: there is no room for calls behind them")
    numbers = lines.free_numbers(whole)
    free = (next(numbers), next(numbers))
    files = Script("\n".join(whole)).files
    start = Start(options.task, line, given, added, plain, prefix, journal, files, free)
    process = journal.processes[journal.tasks[options.task].process]
    others = [] if options.alone else [name for name in process if name != options.task]
    ask(runner, start, [options.task, *others], options.skip)
    return start


def matching(files: Iterable[str], pattern: str) -> list[str]:
    """The files whose names match a pattern, as a shell's."""
    found = [name for name in files if fnmatchcase(name, pattern)]
    if not found:
        raise Bad(f"--skip {pattern}: no line declares such a file")
    return found


def ask(runner: Runner, start: Start, threads: list[str], skip: Sequence[str]) -> None:
    """Asks for the state of each thread and of each file."""
    journal = start.journal
    skipped = {name for pattern in skip for name in matching(start.declared, pattern)}
    for thread in threads:
        check_override(journal, thread, start.line)
    files = [it for it in start.declared.values() if it.kind == "reg"]
    files = [file for file in files if file.name not in skipped]
    asked = [f"{thread} {question}" for thread in threads for question in QUESTIONS]
    answers = runner.answers(
        [*start.prefix, *asked, *(f"{start.task} stat {file.name}" for file in files)]
    )
    first = len(start.prefix) + 1
    for place, thread in enumerate(threads):
        state = state_at(answers, first + place * len(QUESTIONS))
        if state is None:
            raise NotFound(f"{thread} can't be asked in a copy of the script")
        start.threads.append(Thread(thread, journal.tasks[thread].namespace, state))
    first += len(asked)
    for place, file in enumerate(files):
        now = journal.infos.get(file.name, file)
        start.files.append(declared.as_it_stands(file, now, answers[first + place]))
