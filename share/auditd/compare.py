"""A log from its beginning to its end: script after script is made, run and compared."""

from __future__ import annotations

from collections import Counter
from collections.abc import Callable, Iterator
from dataclasses import dataclass, field

from .begin import usual_bounding
from .build import Builder
from .carry import Asked, ask_all, carried
from .findings import Class, Finding
from .judge import Judge
from .living import Carried
from .records import ALL, Event
from .reduced import Ending, ending
from .running import answers_of, fits
from .script import USUAL, Check, Kind, Limits, Script
from .tasks import Kept, Process
from .window import Reader, Window

# How often a script is made anew, until none of its processes differs.
ROUNDS = 300


@dataclass
class Result:
    """What came of a log."""

    findings: list[Finding] = field(default_factory=list)
    counts: Counter[str] = field(default_factory=Counter)
    # The answers that agree, by what they are of; records whose ids agree are those of `ids`.
    agree: Counter[Kind] = field(default_factory=Counter)
    scripts: int = 0
    lines: int = 0
    # Whether a script still differed when it had been made anew too often, and what is said of it.
    unsettled: bool = False
    notes: list[str] = field(default_factory=list)

    def classes(self) -> dict[Class, int]:
        """How many findings each class has."""
        found = dict.fromkeys(Class, 0)
        for finding in self.findings:
            found[finding.found] += 1
        return found


@dataclass(frozen=True)
class Difference:
    """An answer that isn't the log's, and the last record of the process before that agreed."""

    check: Check
    answer: str
    agreed: Event | None


Keep = Callable[[Script], None]


class Comparer:
    """Compares a log, one script after another."""

    def __init__(self, keep: Keep | None = None, started: dict[int, Kept] | None = None,
                 judges: bool = True, limits: Limits = USUAL) -> None:  # fmt: skip
        self.result = Result()
        self._keep, self._judges, self._limits = keep, judges, limits
        self._carried = Carried(started or {})
        self._again: dict[int, bool] = {}
        self._bounding = 0
        self._agree = dict.fromkeys(Kind, 0)

    def run(self, events: Iterator[Event]) -> Result:
        """Compares all of it."""
        reader = Reader(events)
        while window := reader.window(self._limits.events):
            self._bounding = self._bounding or usual_bounding(window.first(len(window)))
            window.drop(self._segment(window))
        self.result.findings.sort(key=lambda finding: finding.event.place)
        return self.result

    def _segment(self, window: Window) -> int:
        """One script: how many events it has."""
        for _ in range(ROUNDS):
            builder, count, last, asked = self._built(window)
            if not self._judges and not asked:
                answers = {}
                break
            answers = answers_of(builder.script.text())
            differences = self._differences(builder.script, answers) if self._judges else []
            if not differences:
                break
            for difference in differences:
                found = self._found(builder.script, difference)
                self._again[difference.check.event.place] = (
                    found.kind is Kind.IDS and found.found in (Class.MISSING, Class.UNEXPLAINED)
                )
        else:
            self._leave(window)
        self._done(builder, answers, asked, last)
        return count

    def _leave(self, window: Window) -> None:
        """A script differs however often its processes began anew."""
        self.result.unsettled = True
        first = next(window.first(1)).stamp
        self.result.notes.append(
            f"the script from {first} on differs in more than {ROUNDS} places one after another: "
            "the others in it aren't told"
        )

    def _built(self, window: Window) -> tuple[Builder, int, int, list[Asked]]:
        """A script, how many events it has, the place of the last one, and what is asked at its
        end. Where the last event makes it longer than the program takes, it is for the next."""
        limits = self._limits
        most = len(window) if window.last else max(1, limits.events - limits.behind)
        while True:
            builder = Builder(window, self._carried, self._again, self._bounding or ALL,
                              limits)  # fmt: skip
            count, last = self._filled(builder, window, most)
            asked = [] if window.last and count == len(window) else ask_all(builder)
            if count <= 1 or builder.script.taken():
                return builder, count, last, asked
            most = count - 1

    def _filled(self, builder: Builder, window: Window, most: int) -> tuple[int, int]:
        """Takes events until the script is full, or so many: how many it took, and the place of
        the last one."""
        script = builder.script
        count = last = 0
        for count, event in enumerate(window.first(most), 1):
            builder.take(event)
            last = event.place
            if script.full():
                break
        return count, last

    def _differences(self, script: Script, answers: dict[int, str]) -> list[Difference]:
        """The first difference of each process, but of what is made by one that differs already."""
        found: list[Difference] = []
        differ: dict[Process, int] = {}
        lead = script.lead() + 1
        agree = self._agree = dict.fromkeys(Kind, 0)
        for check in script.checks:
            process, event = check.task.process, check.event
            answer = answers.get(lead + check.place, "nothing")
            same = answer == check.expected or fits(check.expected, answer)
            if same and check.kind is not Kind.PROGRAM:
                agree[check.kind] += 1
                if event is not process.agreed:
                    process.before, process.agreed = process.agreed, event
            elif not (is_after(process, differ) or is_after(check.other, differ)):
                differ[process] = check.place
                found.append(Difference(check, answer, process.agreed_before(event)))
        return found

    def _found(self, script: Script, difference: Difference) -> Finding:
        """A difference is judged."""
        check, answer = difference.check, difference.answer
        leads = self._ending(script, check, answer)
        what, reason = Judge(leads, answers_of).judged(check, answer)
        log = check.event.program if check.kind is Kind.PROGRAM else check.expected
        rules = check.expected if check.kind is Kind.PROGRAM else answer
        lines = [*leads.head, *leads.body]
        found = Finding(check.event, check.kind, log, rules, what, reason, difference.agreed, lines)
        self.result.findings.append(found)
        return found

    def _ending(self, script: Script, check: Check, answer: str) -> Ending:
        """The lines that lead to an answer: as few as give the same one."""
        whole = Ending(script.head(), script.body[: check.place + 1], check.begin)
        if check.kind is Kind.PROGRAM:
            return whole
        short = ending(whole)
        same = answers_of(short.text()).get(len(short.head) + len(short.body)) == answer
        return short if same else whole

    def _done(self, builder: Builder, answers: dict[int, str], asked: list[Asked],
              last: int) -> None:  # fmt: skip
        """The script is whole: its processes are carried to the next one."""
        self.result.counts.update(builder.counts)
        self.result.agree.update(self._agree)
        self.result.scripts += 1
        self.result.lines += builder.script.lead() + len(builder.script.body)
        if self._keep:
            self._keep(builder.script)
        self._carried = carried(builder, answers, asked, last)


def is_after(process: Process | None, differ: dict[Process, int]) -> bool:
    """Whether a process, or one of whom it descends since, differs already."""
    born: float = float("inf")
    while process is not None:
        if differ.get(process, born) < born or process in differ and born == float("inf"):
            return True
        born, process = process.born, process.forked_by
    return False
