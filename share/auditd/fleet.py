"""The command credtrace-fleet: the audit logs of many hosts, compared beside each other."""

from __future__ import annotations

import argparse
import datetime
import json
import sys
from collections import Counter
from dataclasses import dataclass, field
from typing import Any

from tool.inputs import Fault

from .compare_auditd import AGREES, DIFFERS, ENDS_BEFORE, NOT_COMPARED
from .host import Host, Outcome, host_of
from .sources import time_of
from .workers import cluster_at, outcomes, own_workers, processors


def parser() -> argparse.ArgumentParser:
    """The words of the command."""
    words = argparse.ArgumentParser(
        prog="credtrace-fleet",
        description="Compares the audit logs of many hosts with the rules, as tasks of "
        "dask.distributed, and writes what comes of each as lines of JSON.",
    )
    words.add_argument("-ts", metavar="TIME", help="what happened from then on, as of ausearch")
    words.add_argument("-te", metavar="TIME", help="what happened up to then")
    words.add_argument(
        "--strict", action="store_true", help="status 1 also for calls missing and doubtful ones"
    )
    where = words.add_mutually_exclusive_group()
    where.add_argument(
        "--workers", metavar="N", type=int, help="how many workers it starts: else one a processor"
    )
    where.add_argument(
        "--scheduler", metavar="ADDRESS", help="the workers of this scheduler, as tcp://HOST:8786"
    )
    words.add_argument(
        "log", metavar="LOG", nargs="+",
        help="a host's log, or a folder with its logs and, in `start`, what /proc said",
    )  # fmt: skip
    return words


def hosts_of(given: argparse.Namespace) -> list[Host]:
    """The hosts, each once."""
    now, options = datetime.datetime.now(), []
    for option, word in (("-ts", given.ts), ("-te", given.te)):
        if word is not None:
            time_of(word, now)
            options += [option, word]
    options += ["--strict"] if given.strict else []
    return [host_of(name, options) for name in dict.fromkeys(given.log)]


@dataclass
class Total:
    """What came of all hosts."""

    statuses: Counter[int] = field(default_factory=Counter)
    failed: list[str] = field(default_factory=list)
    counts: Counter[str] = field(default_factory=Counter)
    classes: Counter[str] = field(default_factory=Counter)

    def add(self, host: Host, outcome: Outcome) -> None:
        """A host more."""
        self.statuses[outcome["status"]] += 1
        summary = outcome.get("summary")
        if summary is None:
            self.failed.append(host.name)
            return
        self.counts.update({name: summary[name] for name in ("records", "calls")})
        self.counts["agree"] += summary["agree"]["ids"]
        self.classes.update(summary["classes"])

    def status(self) -> int:
        """The exit status."""
        found = self.statuses
        if found[DIFFERS]:
            return DIFFERS
        if found[NOT_COMPARED] == found.total():
            return NOT_COMPARED
        return ENDS_BEFORE if found[NOT_COMPARED] + found[ENDS_BEFORE] else AGREES

    def values(self) -> dict[str, Any]:
        """The last line."""
        return {
            "hosts": self.statuses.total(),
            "statuses": {str(status): self.statuses[status] for status in sorted(self.statuses)},
            "failed": sorted(self.failed),
            **{name: self.counts[name] for name in ("records", "calls", "agree")},
            "classes": dict(self.classes),
        }


def tell(host: Host, outcome: Outcome) -> None:
    """The lines of a host: its findings, and then what it is all in all."""
    for finding in outcome.pop("findings"):
        print(json.dumps({"host": host.name, **finding}))
    print(json.dumps({"host": host.name, **outcome}), flush=True)


def progress(done: int, count: int) -> None:
    """Tells on a terminal how far it is."""
    if sys.stderr.isatty():
        end = "\n" if done == count else ""
        print(f"\r{done} of {count} hosts", end=end, file=sys.stderr, flush=True)


def main(words: list[str]) -> int:
    """Compares the hosts, and tells of each as it is done."""
    given = parser().parse_args(words)
    total = Total()
    try:
        if given.workers is not None and given.workers < 1:
            raise Fault(f"--workers {given.workers}: there must be one")
        hosts = hosts_of(given)
        most = min(given.workers or processors(), len(hosts))
        with cluster_at(given.scheduler) if given.scheduler else own_workers(most) as client:
            for count, (host, outcome) in enumerate(outcomes(client, hosts), 1):
                total.add(host, outcome)
                tell(host, outcome)
                progress(count, len(hosts))
    except Fault as fault:
        print(f"credtrace-fleet: {fault}", file=sys.stderr)
        return NOT_COMPARED
    print(json.dumps({"fleet": total.values()}))
    return total.status()
