"""Inputs at the limits of bytes and of lines, and others that may seem to want much memory.

docs/FORMATS.md, status 6: "the script has more than 1,048,576 bytes or more than 20,000 lines, or
an input of `audit` more than 402,653,184 bytes; nothing was written. Where no line of an input of
`audit` is `report`, its script is all of it".
"""
from collections.abc import Iterator

import suite

TOO_LARGE = 6
INIT = "init t1 p1 0 0 n0\n"
INIT_ENTRY = "1 init t1 p1 0 0 n0 -> ok c0 s0\n"
GROUP = " 4294967294"
GROUPS = 1024


def too_large(name: str, text: str) -> suite.Case:
    """A script that is too large: nothing is written."""
    return suite.script(name, text, "", status=TOO_LARGE)


def scripts() -> Iterator[suite.Case]:
    """Comments and blank lines up to the limits, and beyond. The size is tested before the
    script."""
    yield suite.script("20,000 lines", "#\n" * 20_000, "")
    yield too_large("20,001 lines", "#\n" * 20_001)
    yield too_large("20,001 bad lines", "frob\n" * 20_001)
    comment = "#" * (1_048_576 - len(INIT))
    yield suite.script("1,048,576 bytes", f"{INIT}{comment[1:]}\n", INIT_ENTRY)
    # An audit would need a line feed more.
    whole = (INIT + comment).encode()
    yield suite.Case("without the last line feed", ("lanes",), whole, INIT_ENTRY.encode())
    yield too_large("1,048,577 bytes", "#" * 1_048_577)
    yield too_large("1,048,577 blank lines", "\n" * 1_048_577)


def question(line: int) -> str:
    """What a root task's question for its ids on this line makes."""
    label = 100_000 + 10 * line
    return (
        f"{line} take h{label} t1 -> ok c0 s0\n"
        f"{line} ask h{label} ids -> ok 0 0 0 0 0 0 0 0\n"
        f"{line} drop h{label} -> ok\n"
    )


def long_reports() -> Iterator[suite.Case]:
    """As many questions as there may be lines, and entries of more than 4,096 bytes, more than
    65,536, and nearly as many as a script may have."""
    questions = "".join(question(line) for line in range(2, 20_001))
    report = INIT_ENTRY + questions
    yield suite.script("19,999 questions", INIT + "t1 ids\n" * 19_999, report, calls=19_999)
    # More groups than may be set are refused, up to as many as the bytes of a script spell.
    call = "t1 setgroups"
    for count in (400, 6_000, (1_048_576 - len(INIT) - len(call)) // len(GROUP)):
        answer = "ok c1 s1 left 0" if count <= GROUPS else "einval"
        entry = f"2 begin {call}{GROUP * count} -> {answer}\n"
        yield suite.script(f"{count} groups", f"{INIT}{call}{GROUP * count}", INIT_ENTRY + entry)


def audited(name: str, given: str, written: str, status: int | None = None) -> suite.Case:
    """An input of `audit`."""
    return suite.Case(name, ("audit",), given.encode(), written.encode(), status=status)


def audits() -> Iterator[suite.Case]:
    """Scripts of audits at their limits. A report may be larger than a script."""
    yield audited("20,000 lines, audited", "#\n" * 20_000 + "report\n", "legal\n")
    yield audited("20,001 lines, audited", "#\n" * 20_001 + "report\n", "", TOO_LARGE)
    yield audited("1,048,576 bytes, audited", "#" * 1_048_575 + "\nreport\n", "legal\n")
    yield audited("1,048,577 bytes, audited", "#" * 1_048_576 + "\nreport\n", "", TOO_LARGE)
    yield audited("20,001 lines and no report", "frob\n" * 20_001, "", TOO_LARGE)
    yield audited("1,048,577 bytes and no report", "#" * 1_048_577, "", TOO_LARGE)
    yield audited("1,048,576 bytes and no report", "#" * 1_048_576, "bad 2 report\n")
    yield audited("a report of 2 MiB", "report\n" + "x\n" * 1_048_576, "not legal 1\n")


def cases() -> Iterator[suite.Case]:
    """All of them."""
    yield from scripts()
    yield from long_reports()
    yield from audits()
