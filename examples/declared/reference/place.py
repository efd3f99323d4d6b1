"""The folder in which all is made, and the programs that are executed."""

from __future__ import annotations

import os
import shutil
import subprocess
from dataclasses import dataclass
from pathlib import Path

from declared.checks.configs import BASE
from declared.checks.stored import as_stored
from declared.tree import Disk

HERE = Path(__file__).resolve().parent
# An attribute of two empty sets, which setcap(8) doesn't write.
EMPTY = bytes.fromhex("0000000200000000000000000000000000000000")


@dataclass(frozen=True)
class Program:
    """A file to be executed: `caps` is a text of setcap(8), `script` an interpreter."""

    name: str
    owner: int = 0
    group: int = 0
    mode: int = 0o755
    caps: str = ""
    script: str = ""


PROGRAMS = (
    Program("plain"), Program("capped", caps="cap_net_raw=ep"),
    Program("cappedp", caps="cap_net_raw,cap_net_bind_service=p"),
    Program("cappedi", caps="cap_net_bind_service,cap_kill=ie"),
    Program("cappedall", caps="cap_sys_admin,cap_net_raw=ep"), Program("empty", caps="="),
    Program("suid", mode=0o4755), Program("suid1001", owner=1001, mode=0o4755),
    Program("sgid", mode=0o2755), Program("sgid50", group=50, mode=0o2755),
    Program("suidcap", mode=0o4755, caps="cap_net_raw=ep"),
    Program("script", caps="cap_net_raw=ep", script="plain"),
    Program("suidscript", mode=0o4755, script="plain"), Program("scriptcap", script="capped"),
    Program("private", mode=0o700), Program("grp50", group=50, mode=0o750),
)  # fmt: skip
NAMES = [it.name for it in PROGRAMS]
PASSWD = "root:x:0:0::/:/bin/sh\nu1000:x:1000:1000::/:/bin/sh\nplain:x:1002:77::/:/bin/sh\n"
GROUP = "root:x:0:\nu1000:x:1000:\nextra:x:77:u1000\nother:x:88:u1000,plain\n"


def make_program(folder: Path, it: Program, probe: Path, base: int, prefix: str) -> None:
    """One program."""
    path = folder / it.name
    path.unlink(missing_ok=True)
    if it.script:
        path.write_text(f"#!{prefix}{it.script}\n", encoding="ascii")
    else:
        shutil.copy(probe, path)
    os.chown(path, it.owner + base, it.group + base)
    path.chmod(it.mode)
    if it.caps == "=":
        os.setxattr(path, "security.capability", EMPTY)
    elif it.caps:
        subprocess.run(["setcap", it.caps, path], check=True)


def make_users(root: Path) -> None:
    """The users and groups of a root."""
    (root / "etc/passwd").write_text(PASSWD, encoding="ascii")
    (root / "etc/group").write_text(GROUP, encoding="ascii")


class Place:
    """A folder on a file system that keeps attributes, which all may search."""

    def __init__(self, folder: Path) -> None:
        self.folder = folder
        folder.mkdir(parents=True, exist_ok=True)
        folder.chmod(0o755)
        self.probe = folder / "probe"
        source = HERE / "probe.c"
        subprocess.run(["gcc", "-O1", "-static", "-o", self.probe, source], check=True)

    def programs(self, folder: Path, base: int = 0, prefix: str = "/") -> None:
        """All programs, in a folder that is a path of the root that they are executed in."""
        folder.mkdir(parents=True, exist_ok=True)
        for it in PROGRAMS:
            make_program(folder, it, self.probe, base, prefix)

    def rootfs(self, name: str, base: int = 0) -> Path:
        """A root for containers."""
        root = self.folder / name
        shutil.rmtree(root, ignore_errors=True)
        for it in ("proc", "dev", "sys", "etc", "tmp", "bin"):
            (root / it).mkdir(parents=True)
        make_users(root)
        for path in [root, *root.rglob("*")] if base else []:
            os.chown(path, base, base)
        self.programs(root, base)
        return root


def stored_tree(root: Path, folder: str) -> dict[str, list[object]]:
    """The programs of a folder below a root, as they are stored."""
    disk = Disk(str(root))
    paths = [f"{folder}/{name}" for name in NAMES]
    return {path: as_stored(disk.find(path)) for path in paths}


def mapped_base() -> int:
    """The first id of a mapped container's root."""
    return BASE
