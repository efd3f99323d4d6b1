"""--want and its kin: each of their ends, as a build would see it."""

from __future__ import annotations

import json
import tempfile
from dataclasses import dataclass
from pathlib import Path
from typing import Any

from .. import from_oci, from_run, from_unit
from . import ends
from .ends import Main

UNIT = """[Service]
ExecStart={program}
AmbientCapabilities=CAP_KILL
CapabilityBoundingSet=CAP_KILL CAP_CHOWN
NoNewPrivileges=yes
{more}
"""
MISSING = "/nonexistent/program"


@dataclass(frozen=True)
class Wanted:
    """A command line, with the status, and a word of standard error."""

    name: str
    words: tuple[str, ...]
    status: int
    says: str = ""


def unit(folder: Path, name: str, more: str = "", program: str = "/bin/sh") -> str:
    """A unit in this folder."""
    path = folder / f"{name}.service"
    path.write_text(UNIT.format(program=program, more=more), encoding="ascii")
    return str(path)


def config(folder: Path, name: str, process: dict[str, Any]) -> str:
    """A config.json in this folder, over the root of this machine."""
    path = folder / f"{name}.json"
    whole = {"process": {"args": ["/bin/sh"], "cwd": "/", **process}, "root": {"path": "/"}}
    path.write_text(json.dumps(whole, indent=1), encoding="ascii")
    return str(path)


def of_units(folder: Path) -> list[Wanted]:
    """Those of credtrace-from-unit."""
    plain = unit(folder, "plain")
    root = ("--systemd", "252")
    missing = unit(folder, "missing", program=MISSING)
    nobody = unit(folder, "nobody", "User=no-such-user-here")
    pam = unit(folder, "pam", "PAMName=login")
    return [
        Wanted("holds", (plain, *root, "--want", "CAP_KILL"), 0),
        Wanted("holds not", (plain, *root, "--want", "NET_RAW"), 1, "CAP_NET_RAW is wanted"),
        Wanted("not wanted", (plain, *root, "--want-not", "CHOWN"), 1, "CAP_CHOWN is not wanted"),
        Wanted("user", (plain, *root, "--want-user", "0"), 0),
        Wanted("other user", (plain, *root, "--want-user", "7"), 1, "user 7 is wanted"),
        Wanted("no file", (missing, *root, "--want", "KILL"), 5, MISSING),
        Wanted("no file, nothing wanted", (missing, *root), 0),
        Wanted("PAM", (pam, *root, "--want", "KILL"), 5, "PAMName= (pam.service:6)"),
        Wanted("no user", (nobody, *root, "--want", "KILL"), 4, "217/USER"),
        Wanted("no user, nothing wanted", (nobody, *root), 4, "nobody.service:6"),
        Wanted("version", (plain, "--systemd", "255", "--want", "KILL"), 5, "systemd 255"),
        Wanted("version, nothing wanted", (plain, "--systemd", "255"), 0),
        Wanted("no capability", (plain, "--want", "FOO"), 2),
        Wanted("no command", (plain, "--command", "ExecStart:2"), 2, "ExecStart="),
    ]


def of_configs(folder: Path) -> list[Wanted]:
    """Those of credtrace-from-oci."""
    kill = {"bounding": ["CAP_KILL"], "permitted": ["CAP_KILL"], "effective": ["CAP_KILL"]}
    more = {"bounding": ["CAP_KILL"], "inheritable": ["CAP_CHOWN"]}
    user = {"user": {"uid": 1000, "gid": 1000}}
    root = config(folder, "root", {"capabilities": kill})
    other = config(folder, "other", {"capabilities": kill, **user})
    fails = config(folder, "fails", {"capabilities": more})
    return [
        Wanted("holds", (root, "--want", "KILL", "--want-not", "CHOWN"), 0),
        Wanted("holds not", (other, "--want", "KILL"), 1, "CAP_KILL is wanted"),
        Wanted("fails", (fails, "--want", "KILL"), 4, "process.capabilities.inheritable"),
        Wanted("script", (root, "--script", "--want", "KILL"), 2),
    ]


def of_lines() -> list[Wanted]:
    """Those of credtrace-from-run."""
    line = ("--", "docker", "run", "--user", "1000", "--entrypoint", "/bin/sh")
    return [
        Wanted("image", ("--want", "KILL", *line, "x"), 5, "/bin/sh"),
        Wanted("no file", ("--rootfs", "/", "--want", "KILL", *line, "x"), 1, "CAP_KILL"),
        Wanted("user", ("--rootfs", "/", "--want-user", "1000", *line, "x"), 0),
        Wanted("no line", ("--want", "KILL"), 2),
    ]


def faults() -> tuple[str, list[str]]:
    """How many there were, and those that end otherwise."""
    found = []
    with tempfile.TemporaryDirectory() as place:
        folder = Path(place)
        groups: list[tuple[Main, list[Wanted]]] = [
            (from_unit.main, of_units(folder)), (from_oci.main, of_configs(folder)),
            (from_run.main, of_lines()),
        ]  # fmt: skip
        count = sum(len(wanted) for _, wanted in groups)
        for main, wanted in groups:
            for it in wanted:
                end = ends.run(main, list(it.words))
                if end.status != it.status or it.says not in end.error:
                    found.append(f"--want, {it.name}: status {end.status}: {end.error[-300:]}")
    return f"{count} command lines with --want end as they must", found
