"""The graphs: their counts, and the pictures in docs/.

Those over two ids of setuid, seteuid and setresuid were counted by hand too, and of the calls over
three ids a running kernel made the same of each.
"""

from __future__ import annotations

from ..asking import Runner
from ..drawing import svg
from ..graph import CALLS, Counts, Graph
from .scripts import TOP

COUNTED = {
    ("setuid", 2): Counts(8, 16, 14, 10, 10), ("setuid", 3): Counts(27, 81, 57, 46, 46),
    ("seteuid", 2): Counts(8, 16, 15, 7, 7), ("seteuid", 3): Counts(27, 81, 65, 38, 38),
    ("setreuid", 2): Counts(8, 72, 64, 42, 25), ("setreuid", 3): Counts(27, 432, 296, 236, 150),
    ("setresuid", 2): Counts(8, 216, 197, 133, 49),
    ("setresuid", 3): Counts(27, 1728, 1172, 956, 422),
}  # fmt: skip


def faults() -> list[str]:
    """What is counted otherwise, and pictures that are others."""
    found = []
    graphs = {key: Graph.of(Runner(False), [key[0]], list(range(key[1]))) for key in COUNTED}
    for (name, count), graph in graphs.items():
        if graph.counts() != COUNTED[name, count]:
            found.append(f"{name} over {count} ids: {graph.counts()}")
        refused = [it for it in graph.made if it.after is None and it.before.effective == 0]
        found += [f"{name}: {it.call} is refused in {it.before}" for it in refused]
    for name in CALLS:
        path = TOP / "docs" / f"{name}.svg"
        if not path.exists() or path.read_text(encoding="utf-8") != svg(graphs[name, 2]) + "\n":
            found.append(f"docs/{name}.svg is not what --graph {name} draws")
    three = Graph.of(Runner(False), list(CALLS), [0, 1, 2])
    pairs = {(it.before, it.after) for it in three.arrows()}
    by_one = {(it.before, it.after) for it in graphs["setresuid", 3].arrows()}
    if pairs != by_one:
        found.append("setresuid(2) makes other changes than all four calls do")
    return found
