"""Writes what was recorded beside the cases."""

from __future__ import annotations

import json
import re
from collections.abc import Iterable

from declared.checks.stored import FOLDER, Case

FIELDS = re.compile(r"^(?:Uid|Gid|Groups|NoNewPrivs|Cap...):.*\n", re.MULTILINE)


def keep_status() -> None:
    """What the launchers have, as they are started from here."""
    with open("/proc/self/status", encoding="ascii") as file:
        found = FIELDS.findall(file.read())
    (FOLDER / "start").write_text("".join(found) + "Securebits:\t0\n", encoding="ascii")


def keep_tree(name: str, tree: dict[str, list[object]]) -> None:
    """The programs of a root."""
    path = FOLDER / "trees.json"
    whole = json.loads(path.read_text(encoding="utf-8")) if path.exists() else {}
    whole[name] = tree
    trees = [
        f"{json.dumps(key)}: {{\n"
        + ",\n".join(f"{json.dumps(file)}: {json.dumps(row)}" for file, row in rows.items())
        + "\n}"
        for key, rows in sorted(whole.items())
    ]
    path.write_text("{" + ",\n".join(trees) + "}\n", encoding="utf-8")


def write_cases(kind: str, cases: Iterable[Case]) -> None:
    """The cases of a file, a line each."""
    text = "".join(it.as_json() + "\n" for it in cases)
    (FOLDER / f"{kind}.jsonl").write_text(text, encoding="utf-8")
