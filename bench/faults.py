"""Refuses a program each request for memory, or for a thread, in turn: bench/faults.sh calls it.

Each run is made twice for each of its requests: that one alone is refused, or it and all after it.
Then the program ends with status 5, and what it has written is a prefix of the whole text; or it
has done without, and writes the whole text with the status that goes with it. Lanes have many
reports: what `lanes` writes must be whole entries of a legal one, as `audit` tells. Where a thread
is refused the lanes run all the same. The first run that ends otherwise is told, with status 1.
"""
import mmap
import os
import subprocess
import sys
from collections.abc import Callable
from dataclasses import dataclass
from pathlib import Path

HERE = Path(__file__).resolve().parent
TOP = HERE.parent
PROGRAM, DIR = sys.argv[1], Path(sys.argv[2])
# A run takes a few milliseconds. One that takes so many seconds hangs.
LIMIT = 20
MEMORY = 5
# `lanes` asks for memory more or less often from run to run: it is counted so many times.
COUNTS = 9


class Wrong(Exception):
    """What a run did otherwise."""


@dataclass(frozen=True)
class Ended:
    """The status of a run, what it wrote, and how often it asked for what may be refused."""

    status: int
    written: bytes
    asked: int


class Shim:
    """Runs the program with bench/faults.c loaded into it."""

    def __init__(self) -> None:
        seen = DIR / "seen"
        seen.write_bytes(bytes(8))
        with seen.open("r+b") as file:
            self.seen = mmap.mmap(file.fileno(), 8)
        self.names = {"LD_PRELOAD": str(DIR / "faults.so"), "FAULTS_SEEN": str(seen)}

    def run(
        self,
        words: tuple[str, ...],
        given: bytes,
        of: str = "memory",
        at: int = 0,
        on: bool = False,
    ) -> Ended:
        """A run in which this request is refused, and all after it if `on` is set."""
        self.seen[:] = bytes(8)
        names = {"FAULTS_OF": of, "FAULTS_AT": str(at), "FAULTS_ON": str(int(on))}
        # A write into a file is never cut short, as one into a pipe may be.
        with (DIR / "given").open("w+b") as source, (DIR / "written").open("w+b") as sink:
            source.write(given)
            source.seek(0)
            done = subprocess.run(
                [PROGRAM, *words], stdin=source, stdout=sink, timeout=LIMIT, check=False,
                env={**os.environ, **self.names, **names},
            )
            sink.seek(0)
            return Ended(done.returncode, sink.read(), int.from_bytes(self.seen, sys.byteorder))


SHIM = Shim()


def difference(whole: bytes, ended: Ended) -> str:
    """How a run ended, and where what it wrote leaves the whole text."""
    pairs = zip(whole.splitlines(), ended.written.splitlines())
    lines = ((number, *pair) for number, pair in enumerate(pairs, 1) if pair[0] != pair[1])
    number, wanted, written = next(lines, (0, b"", b""))
    told = f"status {ended.status}, {len(ended.written)} of {len(whole)} bytes"
    return f"{told}; line {number} is {written!r}, not {wanted!r}" if number else told


def judge_text(whole: Ended, ended: Ended) -> None:
    """What must come of words that write one text: all of it, or a prefix where memory ends."""
    if ended.status == MEMORY and whole.written.startswith(ended.written):
        return
    if (ended.status, ended.written) != (whole.status, whole.written):
        raise Wrong(difference(whole.written, ended))


def judge_lanes(script: bytes, ended: Ended) -> None:
    """What must come of lanes, which may take turns in any way: a legal report, or whole entries of
    one where memory ends. An audit counts the beginning of an entry as none; but in these runs no
    write is cut short."""
    audited = SHIM.run(("audit",), script + b"report\n" + ended.written).written
    entries = ended.written.count(b"\n")
    if audited == b"legal\n" and ended.status in (0, MEMORY):
        return
    so_far = audited == b"not legal %d\n" % (entries + 1) and ended.written[-1:] in (b"", b"\n")
    if ended.status != MEMORY or not so_far:
        told = audited.decode(errors="replace").strip()
        raise Wrong(f"status {ended.status}, {entries} entries; audit says: {told}")


def refuse(
    name: str,
    words: tuple[str, ...],
    given: bytes,
    judge: Callable[[Ended], None],
    of: str = "memory",
) -> None:
    """Refuses each request of a run in turn, once and from there on, and says what came of it."""
    asked = max(SHIM.run(words, given, of).asked for _ in range(COUNTS))
    if not asked:
        raise Wrong(f"{name}: it asks for no {of}, or bench/faults.c isn't loaded into it")
    ends = parts = 0
    for at in range(1, asked + 1):
        for on in (False, True):
            where = f"{name}, {of} request {at}{' and all after it' if on else ''} refused"
            try:
                ended = SHIM.run(words, given, of, at, on)
                judge(ended)
            except subprocess.TimeoutExpired:
                raise Wrong(f"{where}: it hangs") from None
            except Wrong as why:
                raise Wrong(f"{where}: {why}") from None
            if of == "threads" and ended.status == MEMORY:
                raise Wrong(f"{where}: status {MEMORY}, and not one lane after another")
            ends += ended.status == MEMORY
            parts += ended.status == MEMORY and ended.written != b""
    print(f"{name}: {of} refused in {2 * asked} runs: {ends} end with status {MEMORY}, {parts} of "
          f"them after a part of the text; {2 * asked - ends} do without", flush=True)


def refuse_text(
    name: str, words: tuple[str, ...], given: bytes, status: int, written: bytes | None = None
) -> bytes:
    """Refuses memory to words that write one text, and returns that."""
    whole = SHIM.run(words, given)
    if whole.status != status or written not in (None, whole.written):
        raise Wrong(f"{name}: nothing is refused, and it ends with status {whole.status}")
    refuse(name, words, given, lambda ended: judge_text(whole, ended))
    return whole.written


def refuse_lanes(name: str, script: bytes, of: str) -> None:
    """Refuses memory, or threads, to the lanes of a script."""
    refuse(name, ("lanes",), script, lambda ended: judge_lanes(script, ended), of)


def rounds(task: int, count: int) -> bytes:
    """Lines of a task, so many that its entries fill a write and the next one is begun."""
    lines = "t{0} setgroups {1}\nt{0} keepcaps 1\nt{0} groups\n"
    return "".join(lines.format(task, number) for number in range(count)).encode()


def main() -> None:
    """Each command, on what asks for memory in most of its places; then the program's stored run,
    and lanes whose decisions take the most memory."""
    script, lanes = ((HERE / name).read_bytes() for name in ("faults.trace", "lanes.trace"))
    more = b"".join(b"lane %d\n" % lane + rounds(lane, 30) for lane in range(1, 5))
    report = refuse_text("run", ("run",), script, 0)
    refuse_text("a longer run", ("run",), script + rounds(3, 200), 0)
    refuse_text("a bad script", ("run",), script + b"frob\n", 2)
    refuse_text("audit", ("audit",), script + b"report\n" + report, 0, b"legal\n")
    rest = report.partition(b"\n")[2]
    refuse_text("audit of another", ("audit",), script + b"report\n" + rest, 7, b"not legal 1\n")
    refuse_text("gen", ("gen", "50"), b"", 0)
    refuse_text("decode", ("decode", "0x0100000200200000000000000000000000000000"), b"", 0)
    refuse_text("encode", ("encode", "cap_net_raw=ep cap_kill+i"), b"", 0)
    refuse_text("encode of none", ("encode", "cap_net_raw"), b"", 2)
    refuse_text("capdata", ("capdata", "3003981900000000000400000004000000000000"), b"", 0)
    refuse_text("capdata of none", ("capdata", "00"), b"", 2)
    refuse_text("no command", ("frob",), b"", 1)
    refuse_lanes("lanes", lanes, "memory")
    refuse_lanes("longer lanes", lanes + more, "memory")
    refuse_lanes("lanes", lanes, "threads")
    refuse_text("the stored run", ("run",), (TOP / "crates/credtrace/stdin").read_bytes(), 0)
    for name in ("execve-beside-a-call", "access-by-two"):
        script = (TOP / f"cases/lanes/{name}.trace").read_bytes()
        for of in ("memory", "threads"):
            refuse_lanes(f"lanes/{name}", script, of)


if __name__ == "__main__":
    try:
        main()
    except Wrong as why:
        sys.exit(f"faults: {why}")
