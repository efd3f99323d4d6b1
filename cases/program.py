"""A program that is checked against the cases."""
import difflib
import os
import re
import subprocess
from collections.abc import Iterable
from dataclasses import dataclass

import suite

COMMANDS = ("run", "lanes", "audit", "decode", "encode", "capdata", "gen")
# A script that gives a lane its lines.
LANE = re.compile(rb"^ *lane ", re.M)
# The answer of an entry, and in it the numbers of credentials and of slots.
ANSWER = re.compile(rb" -> .*$", re.M)
NUMBER = re.compile(rb" [cs][0-9]+\b")
# What is told where Python can start no thread.
NO_THREADS = "clone3(2) is refused here, as by a seccomp filter, or there are too many tasks"
# How long one run may take, in seconds.
LIMIT = 60


class Failure(Exception):
    """What the program did otherwise."""


def difference(wanted: bytes, written: bytes) -> str:
    """How what was written differs from what was wanted, a line each, the first of them."""
    one, other = (it.decode(errors="replace").splitlines() for it in (wanted, written))
    lines = difflib.unified_diff(one, other, "wanted", "written", lineterm="")
    return "\n".join([*lines][:40])


def shown(words: tuple[str, ...]) -> str:
    """The words of a command line, as a text: they may be any bytes."""
    return os.fsencode(" ".join(words)).decode("ascii", errors="backslashreplace")


def lacks(entries: Iterable[bytes], report: bytes) -> bytes | None:
    """The first of these entries that the report hasn't, in their order."""
    left = iter(report.splitlines())
    return next((it for it in entries if it not in left), None)


def beside(entry: bytes, report: bytes) -> str:
    """An entry that is missing, and those that the report has of its line."""
    line = entry.split(b" ")[0]
    found = [it for it in report.splitlines() if it.split(b" ")[0] == line]
    return b"\n".join([b"-" + entry, *(b"+" + it for it in found)]).decode(errors="replace")


@dataclass(frozen=True)
class Program:
    """How it is run, and which commands it has.

    Where `answers` is set its answers alone count: the numbers that it gives to credentials and to
    slots are left out of what is compared.
    """

    argv: tuple[str, ...]
    has: tuple[str, ...] = COMMANDS
    answers: bool = False

    def seen(self, text: bytes) -> bytes:
        """What counts of a text."""
        if not self.answers:
            return text
        return ANSWER.sub(lambda answer: NUMBER.sub(b"", answer[0]), text)

    def has_what(self, case: suite.Case) -> bool:
        """Whether it has what the case asks for. Words that get the usage line are asked of a
        program that has every command."""
        if suite.status_of(case.written or b"") == suite.USAGE:
            return self.has == COMMANDS
        return case.words[0] in self.has

    def run(self, words: tuple[str, ...], given: bytes, status: int) -> bytes:
        """What it writes, where it ends with this status."""
        done = subprocess.run(
            [*self.argv, *words], input=given, stdout=subprocess.PIPE, timeout=LIMIT, check=False
        )
        if done.returncode != status:
            told = f"{shown(words)} ends with status {done.returncode}, not {status}"
            raise Failure(f"{told}:\n{done.stdout[:1000].decode(errors='replace')}")
        return done.stdout

    def writes(self, words: tuple[str, ...], given: bytes, wanted: bytes, status: int) -> bytes:
        """What it writes, where that is what is wanted."""
        written = self.run(words, given, status)
        if self.seen(written) != self.seen(wanted):
            told = difference(self.seen(wanted), self.seen(written))
            raise Failure(f"{shown(words)} writes otherwise:\n{told}")
        return written

    def finds_legal(self, given: bytes, report: bytes) -> None:
        """Has it audit the report of a script."""
        script = given if given.endswith(b"\n") or not given else given + b"\n"
        self.writes(("audit",), script + b"report\n" + report, b"legal\n", 0)

    def report(self, case: suite.Case) -> bytes:
        """What `run` writes of a script: the whole that is wanted, or with the entries that are."""
        if case.written is not None:
            return self.writes(case.words, case.given, case.written, case.ends())
        report = self.run(case.words, case.given, case.ends())
        missing = lacks([self.seen(it) for it in case.entries], self.seen(report))
        if missing is not None:
            raise Failure(f"the report lacks an entry, here or at all:\n{beside(missing, report)}")
        return report

    def check_script(self, case: suite.Case) -> None:
        """Holds `run` to a case; then `lanes`, and `audit` to their reports."""
        reports = [self.report(case), *case.reports]
        takes_turns = case.ends() == 0 and LANE.search(case.given)
        if "lanes" in self.has and takes_turns:
            reports += [self.run(("lanes",), case.given, 0) for _ in range(case.runs)]
        elif "lanes" in self.has:
            self.writes(("lanes",), case.given, reports[0], case.ends())
        if "audit" in self.has and case.ends() == 0:
            for it in reports:
                self.finds_legal(case.given, it)

    def check(self, case: suite.Case) -> None:
        """Checks the program against a case."""
        if case.words == ("run",):
            self.check_script(case)
        else:
            self.writes(case.words, case.given, case.written or b"", case.ends())
