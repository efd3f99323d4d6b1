"""The command credtrace-reach: whether a task can get an id or a capability, by any calls."""

from __future__ import annotations

import argparse
import sys
from pathlib import Path

from why.inputs import bytes_of, capability, line_number, shown

from .answer import Answer, How, Inquiry, Verdict
from .asking import BYTES, Runner
from .declared import added_from
from .faults import Bad, Limit, NotFound
from .goals import Goal, Kind, Where, for_root
from .search import MOST_STATES
from .start import TASK, Options, Start, started

NAME = "credtrace-reach"
CANT, CAN, BAD, NOT_ASKED, UNKNOWN = range(5)
LAST_ID = 4294967294
MOST_IDS = 3
DESCRIPTION = """Says whether a task of a script can get a user id, a group or a capability (back)
behind a line, by any calls: with calls that lead there, as a script that the program runs, or that
it can't. Status: 0 it can't, 1 it can or has it, 2 the script or the question is bad, 3 the program
couldn't be asked, 4 it isn't known."""


def id_number(word: str) -> int:
    """An id."""
    if word.isascii() and word.isdigit() and int(word) <= LAST_ID and str(int(word)) == word:
        return int(word)
    raise argparse.ArgumentTypeError(f"{shown(word)} is no id")


def task_name(word: str) -> str:
    """The name of a task."""
    if TASK.fullmatch(word):
        return word
    raise argparse.ArgumentTypeError(f"{shown(word)} is no task: t1 to t99999")


def count(word: str) -> int:
    """A number of states."""
    if word.isascii() and word.isdigit() and 0 < len(word) < 8 and int(word):
        return int(word)
    raise argparse.ArgumentTypeError(f"{shown(word)} is no number of states")


def ids_of(word: str) -> list[int]:
    """A few ids, separated by commas."""
    found = list(dict.fromkeys(id_number(part) for part in word.split(",")))
    if len(found) > MOST_IDS:
        raise argparse.ArgumentTypeError(f"a graph has {MOST_IDS} ids at most")
    return found


def calls_of(word: str) -> list[str]:
    """Names of id calls, separated by commas."""
    from .graph import CALLS

    found = word.split(",")
    for name in found:
        if name not in CALLS:
            raise argparse.ArgumentTypeError(f"{shown(name)} is none of {', '.join(CALLS)}")
    return found


def add_questions(parser: argparse.ArgumentParser) -> None:
    """The options that ask."""
    one = parser.add_mutually_exclusive_group()
    one.add_argument("--uid", metavar="N", type=id_number, help="can it act as this user?")
    one.add_argument("--gid", metavar="N", type=id_number, help="can it be in this group?")
    one.add_argument("--cap", metavar="NAME", type=capability, help="can it have this capability?")
    one.add_argument(
        "--root", action="store_true", help="root's user id, and each capability that is as good"
    )
    one.add_argument(
        "--graph", metavar="CALLS", type=calls_of, help="draw, as SVG, the states that these calls "
        "lead through, as setresuid or setuid,seteuid; without a script",
    )  # fmt: skip
    parser.add_argument(
        "--in", dest="where", metavar="SET", choices=[it.value for it in Where],
        help="the set that the capability is asked for in: permitted (else), effective, "
        "inheritable, bounding or ambient",
    )  # fmt: skip
    parser.add_argument(
        "--ids", metavar="IDS", type=ids_of, help="of --graph: over these ids, else 0,1"
    )


def add_scope(parser: argparse.ArgumentParser) -> None:
    """The options that say what an answer is within."""
    parser.add_argument("--task", metavar="T", type=task_name, help="of this task, as t1")
    parser.add_argument("--line", metavar="N", type=line_number, help="behind this line")
    parser.add_argument("--alone", action="store_true", help="without its process's other threads")
    parser.add_argument("--files", metavar="LIST", help="with the files that this list declares")
    parser.add_argument(
        "--skip", action="append", default=[], metavar="FILE",
        help="it doesn't execute this file, or those whose names match, as a shell matches",
    )  # fmt: skip
    parser.add_argument(
        "--no-plain", action="store_true", help="without a plain program of root's beside the files"
    )
    parser.add_argument("--files-stay", action="store_true", help="nobody changes or makes a file")
    parser.add_argument(
        "--limit", metavar="N", type=count, default=MOST_STATES,
        help=f"keep so many states at most, else {MOST_STATES}",
    )  # fmt: skip


def add_output(parser: argparse.ArgumentParser) -> None:
    """The options that say what is written."""
    parser.add_argument("--witness", metavar="FILE", help="write the calls there, as a script")
    parser.add_argument("--box", action="store_true", help="the bounds, and whether they are tight")
    parser.add_argument("--states", action="store_true", help="every state that was found")
    parser.add_argument("--json", action="store_true", help="all of it as JSON")


def parsed(words: list[str]) -> argparse.Namespace:
    """The words of the command line."""
    parser = argparse.ArgumentParser(prog=NAME, description=DESCRIPTION)
    parser.add_argument(
        "script", metavar="SCRIPT", nargs="?", help="the script; - is standard input"
    )
    add_questions(parser)
    add_scope(parser)
    add_output(parser)
    given = parser.parse_args(words)
    if given.graph is None:
        if given.script is None:
            parser.error("no script is named")
        if given.task is None:
            parser.error("no task is named: --task t1")
        if given.uid is given.gid is given.cap is None and not given.root:
            parser.error("nothing is asked: --uid, --gid, --cap or --root")
    elif given.script is not None:
        parser.error("--graph takes no script")
    if given.where and given.cap is None:
        parser.error("--in says where a capability is asked for: with --cap")
    if given.ids and given.graph is None:
        parser.error("--ids is of --graph")
    return given


def goals_of(given: argparse.Namespace, start: Start) -> list[Goal]:
    """What is asked."""
    if given.uid is not None:
        return [Goal(Kind.UID, given.uid)]
    if given.gid is not None:
        return [Goal(Kind.GID, given.gid)]
    if given.cap is not None:
        return [Goal(Kind.CAP, given.cap, Where(given.where or "permitted"))]
    return for_root(start.root(start.threads[0].namespace))


def lines_of(path: str) -> list[str]:
    """The lines of a list of files."""
    try:
        return bytes_of(path, BYTES).decode("latin-1").splitlines()
    except Bad as bad:
        raise Bad(f"--files {shown(path)}: {bad}") from None


def status_of(answers: list[Answer]) -> int:
    """The status: of several questions that of the worst answer."""
    verdicts = {answer.verdict for answer in answers}
    if verdicts & {Verdict.CAN, Verdict.HAS}:
        return CAN
    return UNKNOWN if Verdict.UNKNOWN in verdicts else CANT


def write_witness(path: str, answers: list[Answer]) -> None:
    """Writes the first witness."""
    found = [answer.witness for answer in answers if answer.witness]
    if not found:
        return
    try:
        Path(path).write_text(found[0].text, encoding="latin-1")
    except (OSError, ValueError) as fault:
        why = getattr(fault, "strerror", None) or str(fault)
        raise Bad(f"--witness {shown(path)}: {why}") from None


def inquiry_of(given: argparse.Namespace) -> Inquiry:
    """What is asked, with the script and the files that are named."""
    text = bytes_of(given.script, BYTES).decode("latin-1")
    more: list[str] = []
    if given.files:
        more = added_from(lines_of(given.files), shown(given.files), text.split("\n"))
    options = Options(
        given.task, given.line, given.alone, not given.no_plain, tuple(given.skip), tuple(more)
    )
    runner = Runner()
    start = started(runner, text, options)
    how = How(given.files_stay, given.limit, given.states)
    return Inquiry(runner, start, goals_of(given, start), how)


def answer(given: argparse.Namespace) -> int:
    """Answers the question; the status."""
    from .as_json import as_json
    from .told import told

    inquiry = inquiry_of(given)
    answers = inquiry.answered()
    if given.witness:
        write_witness(given.witness, answers)
    if given.json:
        print(as_json(inquiry, answers, given.box))
    else:
        print("\n".join(told(inquiry, answers, given.box)))
    return status_of(answers)


def draw(given: argparse.Namespace) -> int:
    """Draws the graph."""
    from .drawing import svg
    from .graph import Graph

    print(svg(Graph.of(Runner(), given.graph, given.ids or [0, 1])))
    return 0


def main(words: list[str]) -> int:
    """Answers, or says why not."""
    given = parsed(words)
    name = shown(given.script or "--graph")
    try:
        return answer(given) if given.graph is None else draw(given)
    except Bad as bad:
        print(f"{NAME}: {name}: {bad}", file=sys.stderr)
        return BAD
    except NotFound as fault:
        print(f"{NAME}: {name}: {fault}", file=sys.stderr)
        return NOT_ASKED
    except Limit as limit:
        print(f"{NAME}: {name}: not known: {limit}", file=sys.stderr)
        return UNKNOWN
