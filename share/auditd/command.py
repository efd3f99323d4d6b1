"""What the commands on audit logs have in common: options, and the way from logs to events."""

from __future__ import annotations

import argparse
import datetime
from collections.abc import Iterator
from dataclasses import dataclass

from tool.inputs import Fault

from .gather import Gatherer
from .records import Event
from .sources import Logs, family, time_of, within
from .tasks import Kept


@dataclass
class Input:
    """The logs of a command, and what is known of where they begin."""

    logs: Logs
    gatherer: Gatherer
    since: float | None
    until: float | None
    pid: int | None
    started: dict[int, Kept]

    def events(self) -> Iterator[Event]:
        """The calls that are compared."""
        found = within(self.gatherer.events(self.logs.lines()), self.since, self.until)
        return found if self.pid is None else family(found, self.pid)

    def notes(self) -> list[str]:
        """What is to be said of the logs."""
        told = list(self.logs.cut)
        told += [f"{one}: it is passed over" for one in self.gatherer.damaged]
        for node, count in self.gatherer.others.items():
            told.append(
                f"{count} records are of another host, {node}, and aren't compared: a log of each "
                f"host is compared alone (grep '^node={node} ')"
            )
        return told


def add_options(parser: argparse.ArgumentParser) -> None:
    """The options of a log."""
    parser.add_argument("-ts", metavar="TIME", help="what happened from then on, as of ausearch")
    parser.add_argument("-te", metavar="TIME", help="what happened up to then")
    parser.add_argument(
        "--pid", metavar="PID", type=int, help="this process and its descendants alone"
    )
    parser.add_argument(
        "--start",
        metavar="FOLDER",
        help="what /proc said of the processes where the log begins: PID/task/TID/status, or "
        "PID/status, and PID/uid_map and PID/gid_map",
    )
    parser.add_argument(
        "log", metavar="LOG", nargs="*", help="logs of auditd, in any order; else standard input"
    )


def input_of(given: argparse.Namespace, started: dict[int, Kept], tells: bool = True) -> Input:
    """The logs as they were named; whether it is told how far they are read."""
    now = datetime.datetime.now()
    since, until = (None if word is None else time_of(word, now) for word in (given.ts, given.te))
    if since is not None and until is not None and since > until:
        raise Fault(f"-ts {given.ts} is later than -te {given.te}")
    logs = Logs(given.log or ["-"], tells)
    return Input(logs, Gatherer(), since, until, given.pid, started)
