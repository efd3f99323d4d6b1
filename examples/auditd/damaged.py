"""Damaged logs: each ends in a line or in a right answer, and never in a traceback."""

from __future__ import annotations

import gzip
import random
import tempfile
from collections.abc import Callable
from pathlib import Path

from auditd import compare_auditd, from_auditd

HERE = Path(__file__).resolve().parent
LOGS = ("su", "filter", "threads", "nosuid", "calls-32")
STATUSES = (0, 1, 2, 3)

Run = Callable[..., tuple[int, str, str]]


def damaged(chance: random.Random, text: bytes) -> bytes:
    """The log with some damage."""
    what = chance.randrange(8)
    lines = text.split(b"\n")
    at = chance.randrange(len(lines))
    if what == 0:
        return text[: chance.randrange(len(text))]
    if what == 1:
        for _ in range(chance.randrange(1, 40)):
            place = chance.randrange(len(text))
            text = text[:place] + bytes([chance.randrange(256)]) + text[place + 1 :]
        return text
    if what == 2:
        del lines[at : at + chance.randrange(1, 9)]
    elif what == 3:
        lines[at:at] = lines[chance.randrange(len(lines)) :][: chance.randrange(1, 9)]
    elif what == 4:
        chance.shuffle(lines)
    elif what == 5:
        words = lines[at].split(b" ")
        place = chance.randrange(len(words))
        words[place] = words[place].partition(b"=")[0] + b"=" + chance.choice(WORDS)
        lines[at] = b" ".join(words)
    elif what == 6:
        words = lines[at].split(b" ")
        del words[chance.randrange(len(words))]
        lines[at] = b" ".join(words)
    else:
        lines.insert(at, bytes(chance.randrange(256) for _ in range(chance.randrange(300))))
    return b"\n".join(lines)


WORDS = [
    b"", b"-1", b"0", b"4294967295", b"4294967296", b"99999999999999999999", b"ffffffffffffffff",
    b'"', b'"x', b"(null)", b"2F746D70", b"c000003e", b"40000028", b"59", b"yes", b"no",
]  # fmt: skip


def others(run: Run, place: Path) -> int:
    """Inputs that are no logs, or can't be read, have their status and a line."""
    log = place / "log"
    log.write_bytes(gzip.compress((HERE / "su" / "log").read_bytes()))
    status, _, _ = run(compare_auditd.main, [str(log)])
    assert status == 0, f"a packed log ends with status {status}"
    log.write_bytes(log.read_bytes()[:900])
    status, _, said = run(compare_auditd.main, [str(log)])
    assert status in (0, 2, 3), f"a cut packed log ends with status {status}: {said}"
    wrong = [
        [str(place / "none")], [str(place)], ["-ts", "never", str(log)],
        ["--start", str(place), str(log)], ["--start", str(place / "none"), str(log)],
        ["-ts", "2", "-te", "1", str(log)],
        ["--scripts", "/dev/null/x", str(HERE / "su" / "log")],
    ]  # fmt: skip
    for words in wrong:
        status, out, said = run(compare_auditd.main, words)
        assert (status, out) == (2, ""), f"{words} ends with status {status}: {out}"
        assert said.count("\n") == 1 and said.startswith("credtrace-compare-auditd: "), said
    for text in (b"", b"\n\n", b"nothing of the kind\n", b"\0" * 4096):
        log.write_bytes(text)
        status, _, _ = run(compare_auditd.main, [str(log)])
        assert status == 2, f"{text[:20]!r} ends with status {status}"
        status, _, said = run(from_auditd.main, [str(log)])
        assert status == 2 and said.count("\n") == 1, f"{text[:20]!r}: {status} {said}"
    return len(wrong) + 6


def check(tries: int, run: Run) -> str:
    """Damages the logs so often."""
    texts = [(HERE / log / "log").read_bytes() for log in LOGS]
    with tempfile.TemporaryDirectory() as folder:
        place = Path(folder)
        count = others(run, place)
        log = place / "log"
        for seed in range(tries):
            chance = random.Random(seed)
            log.write_bytes(damaged(chance, texts[seed % len(texts)]))
            main = from_auditd.main if seed % 4 == 0 else compare_auditd.main
            try:
                status, _, _ = run(main, [str(log)])
            except Exception as fault:
                raise AssertionError(f"damaged by {seed}: {fault!r}") from fault
            assert status in STATUSES, f"damaged by {seed}: status {status}"
    return f"{tries} damaged logs and {count} other inputs end in a line or an answer"
