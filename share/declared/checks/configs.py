"""The config.json of a case."""

from __future__ import annotations

import json
from typing import Any

from why.names import ALL, LAST, cap_name

KINDS = ("bounding", "effective", "permitted", "inheritable", "ambient")
# The first id of the host that a mapped container has, and how many it has.
BASE, SIZE = 100000, 65536


def names(caps: str | list[str]) -> list[str]:
    """A set that is stored, as names."""
    if isinstance(caps, list):
        return caps
    mask = int(caps, 16) & ALL
    return [cap_name(number) for number in range(LAST + 1) if mask >> number & 1]


def maps(case: dict[str, Any]) -> list[dict[str, int]]:
    """The id map of a case; one with a hole has no id for the container's root."""
    first = 1 if case.get("hole") else 0
    return [{"containerID": first, "hostID": BASE + first, "size": SIZE - first}]


def config(case: dict[str, Any], root: str) -> dict[str, Any]:
    """The config of a case, with its root at a path."""
    process: dict[str, Any] = {
        "terminal": False, "user": case["user"], "args": [case.get("args", "/" + case["file"])],
        "env": [] if case.get("nopath") else ["PATH=/"], "cwd": "/",
    }  # fmt: skip
    if case.get("caps") is not None:
        process["capabilities"] = {key: names(it) for key, it in case["caps"].items()}
    if "nnp" in case:
        process["noNewPrivileges"] = case["nnp"]
    linux: dict[str, Any] = {
        "namespaces": [{"type": it} for it in ("pid", "ipc", "uts", "mount")]
    }
    if case.get("mapped"):
        linux["namespaces"].append({"type": "user"})
        linux["uidMappings"] = linux["gidMappings"] = maps(case)
    mounts = [{"destination": "/proc", "type": "proc", "source": "proc"}]
    return {
        "ociVersion": "1.0.0", "root": {"path": root, "readonly": False}, "hostname": "t",
        "process": process, "mounts": mounts, "linux": linux,
    }  # fmt: skip


def text(case: dict[str, Any], root: str) -> str:
    """The text of config.json."""
    return json.dumps(config(case, root), indent=1)
