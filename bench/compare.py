#!/usr/bin/env python3
"""Compares the proved program with the plain one (plain.rs) on scripts made at random.

    bench/compare.py PLAIN [RUNS [SEED]]

PLAIN is plain.rs, built. Each script is a walk through the grammar, some with bad lines. A script
on which the two differ is printed, and the status is then 1. No part of the checks.
"""
import pathlib
import random
import subprocess
import sys
from collections.abc import Callable
from typing import Any

PROVED = pathlib.Path(__file__).resolve().parent.parent / "bin" / "credtrace"

IDS = ["0", "1", "1000", "1001", "-1", "4294967294"]
CAPS = ["0", "6", "7", "8", "13", "40", "41", "4294967295", "CAP_SETUID", "CAP_NET_RAW",
        "CAP_CHOWN"]
SETS = ["0", "1ffffffffff", "2000", "c0", "1c0", "FF", "1fffffffffe", "2021"]
BITS = ["0", "1", "3", "4", "5", "16", "32", "48", "64", "192", "255", "256", "170", "85"]
MODES = ["0644", "0755", "4755", "0000", "0077", "0604", "0640", "777", "0800"]
ATTRS = ["0100000200200000000000000000000000000000", "0x00", "abc", "0X00"]
WANTS = ["r", "w", "x", "rw", "rx", "wx", "rwx"]
BAD = [
    "init t2 p2 0 0 n0", "bogus", "t1", "t1 setuid", "ask h1", "change h1 foo", "begin t1",
    "file q reg 0 0 0644", "take h0 t1", "take h100000 t1", "t1 setuid 01", "t1\tids",
    "commit h1 h2", "t1 setfsuid 4294967295",
]


# Chooses one of several.
Pick = Callable[..., Any]


def id_call(pick: Pick) -> str:
    name = pick(["setuid", "seteuid", "setgid", "setegid", "setreuid", "setregid", "setresuid",
                 "setresgid", "setgroups"])
    if name == "setgroups":
        count = pick([0, 1, 2, 3, 33] * 5 + [1024, 1025])
        return " ".join([name] + [pick(["0", "1", "5", "1000"]) for _ in range(count)])
    count = 3 if "res" in name else 2 if "setre" in name else 1
    return " ".join([name] + [pick(IDS) for _ in range(count)])


def change(pick: Pick) -> str:
    name = pick(["setfsuid", "setfsgid", "capset", "capdrop", "ambraise", "amblower", "ambclear",
                 "securebits", "keepcaps", "nonewprivs"])
    words = {
        "capset": [pick(SETS + ["1ffffffffff"] * 8), pick(SETS), pick(SETS)],
        "ambclear": [],
        "securebits": [pick(BITS)],
        "keepcaps": [pick("0112")],
        "nonewprivs": [pick("0112")],
    }.get(name, [pick(IDS) if name.startswith("setfs") else pick(CAPS)])
    return " ".join([name] + words)


def query(pick: Pick, names: list[str]) -> str:
    name = pick(["ids", "caps", "groups", "bits", "capable", "bset", "ambis", "check"])
    if name == "check":
        return f"check {pick(names or ['none'])} {pick(WANTS)}"
    return f"{name} {pick(CAPS)}" if name in ("capable", "bset", "ambis") else str(name)


def line(pick: Pick, names: list[str], labels: list[str]) -> str:
    h, t = pick(labels), pick(["t1"] * 19 + ["t2"])
    make: Callable[[], str] = pick([
        lambda: f"{t} {id_call(pick)}", lambda: f"{t} {id_call(pick)}",
        lambda: f"{t} {change(pick)}", lambda: f"{t} {change(pick)}",
        lambda: f"{t} {query(pick, names)}", lambda: f"ask {h} {query(pick, names)}",
        lambda: f"take {h} {t}", lambda: f"take {h} {t}", lambda: f"takereal {h} {t}",
        lambda: f"drop {h}", lambda: f"prepare {h} {t} {pick(labels)}",
        lambda: f"change {h} {change(pick)}", lambda: f"change {h} {change(pick)}",
        lambda: f"commit {h}", lambda: f"abort {h}", lambda: f"begin {t} {id_call(pick)}",
        lambda: str(pick(["sweep", "", "# a comment", "   "])),
    ])
    return make()


def script(seed: int) -> bytes:
    chance = random.Random(seed)
    pick = chance.choice
    names = list(dict.fromkeys(pick(["a", "b", "prog", "x.y",
                                     "Z-1_"]) for _ in range(pick(range(5)))))
    files = [f"file {name} {pick(['reg', 'dir'])} {pick(['0', '1', '1000'])} {pick(['0', '1000'])} "
             f"{pick(MODES[:7] * 9 + MODES)}"
             + pick(["", "", "", " nosuid", f" caps {pick(ATTRS[:2] * 9 + ATTRS)}"])
             for name in names]
    lines = files + [f"init t1 p1 {pick(['0', '0', '1000'])} {pick(['0', '1000'])} n0"]
    labels = [f"h{n}" for n in range(1, pick([4, 8, 40]))]
    lines += [line(pick, names, labels) for _ in range(pick([10, 60, 400, 1500]))]
    if pick([True, False, False]):
        for n in range(600):
            lines += [f"take h{1000 + n} t1", pick(["t1 setresuid 0 0 0", f"t1 {change(pick)}",
                                                    "# none"])]
    if pick([True] + [False] * 9):
        lines.insert(pick(range(len(lines))), pick(BAD))
    return ("\n".join(lines) + pick(["\n", "\n", ""])).encode()


def main() -> None:
    plain = sys.argv[1]
    runs = int(sys.argv[2]) if len(sys.argv) > 2 else 200
    seed = int(sys.argv[3]) if len(sys.argv) > 3 else 1
    entries = 0
    for number in range(seed, seed + runs):
        text = script(number)
        ours, theirs = (subprocess.run([program, "run"], input=text, capture_output=True)
                        for program in (str(PROVED), plain))
        if (ours.stdout, ours.returncode) != (theirs.stdout, theirs.returncode):
            sys.stdout.write(text.decode())
            sys.exit(f"seed {number}: the two differ")
        entries += ours.stdout.count(b"\n")
    print(f"{runs} scripts, {entries} lines of output, no difference")


main()
