"""Pages of scripts, for check: each refusal and loss has its sentence, and all sets are told."""

from __future__ import annotations

import io
from collections.abc import Callable
from pathlib import Path
from typing import Any

from . import command, names
from .script import run, told_of
from .window import Window

TOP = Path(__file__).resolve().parents[2]

Wrong = Callable[[str], None]

# README's script, with what its picture shows: the entry of setresuid(2), and why all is gone.
DAEMON = TOP / "examples" / "daemon.trace"
LOST = [5, 0, "", [[0, "0", "1ffffffffff"], [2, "0", "1ffffffffff"]], [], []]
SENTENCE = "permitted and effective emptied: one of the old real, effective and saved user ids"

# A script with names, and the same without them.
NAMED = b"""file prober reg 0 0 0755 caps cap_net_raw=ep
init t1 p1 1000 1000 n0
t1 exec prober
t1 capset CAP_NET_RAW none none
t1 securebits SECBIT_KEEP_CAPS
t1 capable CAP_NET_RAW
"""
PLAIN = b"""file prober reg 0 0 0755 caps 0100000200200000000000000000000000000000
init t1 p1 1000 1000 n0
t1 exec prober
t1 capset 2000 0 0
t1 securebits 16
t1 capable CAP_NET_RAW
"""


def data_of(script: bytes) -> dict[str, Any]:
    """What the page of a script is made of."""
    plain, report = run(script, None)
    told = told_of(plain, report)
    story, texts = command.read(io.BytesIO(report.encode("latin-1")), 1, None)
    story.learn(told.sets)
    return Window(story, 1, len(texts)).data(texts, told.reasons) | names.tables()


def lacking(data: dict[str, Any]) -> str | None:
    """What the page of a script doesn't tell."""
    why = {place: sentences for place, sentences in data["why"]}
    refused = [place for place, kind in enumerate(data["kinds"], 1) if kind == "x"]
    moved = [it[0] for it in data["changes"] if it[3]]
    for place in refused + moved:
        if not why.get(place) or why[place][0].startswith("not told"):
            return f"entry {place} has no reason"
    if any(it[4] for it in data["changes"]):
        return "sets aren't asked for at a change"
    return next((f"the sets of {it[0]} aren't told" for it in data["credentials"]
                 if "caps" not in it[6]), None)  # fmt: skip


def check_scripts(wrong: Wrong) -> None:
    """The pages of the examples, and of a script with names."""
    found = sorted(TOP.glob("examples/*.trace"))
    for path in found:
        lacks = lacking(data_of(path.read_bytes()))
        if lacks:
            wrong(f"{path.name}, drawn: {lacks}")
    data = data_of(DAEMON.read_bytes())
    if data["changes"] != [LOST] or not data["why"][0][1][0].startswith(SENTENCE):
        wrong(f"{DAEMON.name}, drawn, doesn't show the loss: {data['changes']}, {data['why']}")
    if data_of(NAMED) != data_of(PLAIN):
        wrong("a script with names is drawn otherwise than without them")
    print(f"the pages of {len(found)} scripts have a reason at each refusal and each change")
