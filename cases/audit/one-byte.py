"""One report, texts that differ from it by one byte, and texts that stop before its end.

docs/AUDIT.md: "one character of an entry changed: that entry"; "the last line feed cut off: the
last entry: a line that doesn't end is no entry"; "the last entries cut off: one more than the
entries that are left"; "there is no `report` line: LINE is one more than the number of lines".
"""
from collections.abc import Iterator

from suite import Case

# A service that starts as root, becomes a user with one capability, and executes its program.
SCRIPT = b"""\
file svc reg 0 0 0755
init t1 p1 0 0 n0
t1 keepcaps 1
t1 setgroups 30 10 20
t1 setresgid 500 500 500
t1 setresuid 500 500 500
t1 capset 400 400 400
t1 ambraise CAP_NET_BIND_SERVICE
t1 nonewprivs 1
t1 exec svc
t1 caps
t1 groups
"""
REPORT = b"""\
2 init t1 p1 0 0 n0 -> ok c0 s0
3 take h100030 t1 -> ok c0 s0
3 prepare h100031 t1 h100030 -> ok s1
3 change h100031 keepcaps 1 -> ok
3 commit h100031 -> ok c1 s1
3 drop h100030 -> ok
4 begin t1 setgroups 30 10 20 -> ok c2 s2 left 0
5 begin t1 setresgid 500 500 500 -> ok c3 s3 left 0
6 begin t1 setresuid 500 500 500 -> ok c4 s4 left 0
7 take h100070 t1 -> ok c4 s4
7 prepare h100071 t1 h100070 -> ok s5
7 change h100071 capset 400 400 400 -> ok
7 commit h100071 -> ok c5 s5
7 drop h100070 -> ok
8 take h100080 t1 -> ok c5 s5
8 prepare h100081 t1 h100080 -> ok s6
8 change h100081 ambraise 10 -> ok
8 commit h100081 -> ok c6 s6
8 drop h100080 -> ok
9 take h100090 t1 -> ok c6 s6
9 prepare h100091 t1 h100090 -> ok s7
9 change h100091 nonewprivs 1 -> ok
9 commit h100091 -> ok c7 s7
9 drop h100090 -> ok
10 take h100100 t1 -> ok c7 s7
10 prepare h100101 t1 h100100 -> ok s8
10 change h100101 exec svc -> ok
10 commit h100101 -> ok c8 s8 ended 0 gain 0 0 0
10 drop h100100 -> ok
11 take h100110 t1 -> ok c8 s8
11 ask h100110 caps -> ok 400 400 400 1ffffffffff 400
11 drop h100110 -> ok
12 take h100120 t1 -> ok c8 s8
12 ask h100120 groups -> ok 10 20 30
12 drop h100120 -> ok
"""
# How many entries are changed, each at one byte after another: the first of them.
CHANGED = 9


def audited(name: str, report: bytes, written: bytes) -> Case:
    """The audit of this text as the script's report."""
    return Case(name, ("audit",), SCRIPT + b"report\n" + report, written)


def changed() -> Iterator[Case]:
    """A digit in place of another byte, the line feeds among them."""
    for place in range(len(b"".join(REPORT.splitlines(True)[:CHANGED]))):
        other = b"1" if REPORT[place : place + 1] == b"0" else b"0"
        text = REPORT[:place] + other + REPORT[place + 1 :]
        entry = REPORT[:place].count(b"\n") + 1
        yield audited(f"byte {place} is {other!r}", text, b"not legal %d\n" % entry)


def cut_off() -> Iterator[Case]:
    """The report stops at each of its bytes."""
    for place in range(len(REPORT)):
        entry = REPORT[:place].count(b"\n") + 1
        yield audited(f"{place} bytes", REPORT[:place], b"not legal %d\n" % entry)


def cut_off_before() -> Iterator[Case]:
    """The input stops at each byte of the script and of the line `report`, whose line feed it may
    lack."""
    given = SCRIPT + b"report"
    for place in range(len(given)):
        lines = len(given[:place].splitlines())
        written = b"bad %d report\n" % (lines + 1)
        yield Case(f"{place} bytes of the input", ("audit",), given[:place], written)
    yield Case("no report", ("audit",), given, b"not legal 1\n")


def cases() -> Iterator[Case]:
    """The report, and the texts that are none."""
    yield audited("the report", REPORT, b"legal\n")
    yield from changed()
    yield from cut_off()
    yield from cut_off_before()
