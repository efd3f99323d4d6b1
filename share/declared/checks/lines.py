"""Lines of docker run and podman run, compared with what both did."""

from __future__ import annotations

from ..answers import Answer
from ..places import Bad
from ..run import line
from ..run.convert import Source, convert
from ..run.image import Image
from . import stored
from .compare import Sum, fault
from .stored import Case


def words(case: Case, engine: str) -> list[str]:
    """The words of a case."""
    program = "/" + case.declared["file"]
    rootfs = ["--rootfs"] if engine == "podman" else []
    return [engine, "run", *case.declared["words"], *rootfs, "image", program]


def answered(case: Case, engine: str) -> tuple[Answer | str, bool]:
    """The answer to a case, and whether all of it may be otherwise. The image has no settings."""
    names = stored.users_of("image-passwd", "image-group")
    source = Source("/", stored.tree("image"), names, True, Image())
    try:
        it = convert(line.parsed(words(case, engine)), source, stored.launcher())
        return it.answer(), it.unsure
    except Bad as bad:
        return str(bad), False


def refuses(truth_said: str, found: Answer | str) -> bool:
    """Whether a line is bad for both: the engine refuses it, and so does the tool."""
    return isinstance(found, str) and bool(truth_said)


def compared(case: Case) -> Sum:
    """A case."""
    total = Sum()
    for engine, truth in case.truths.items():
        found, unsure = answered(case, engine)
        refused = refuses(truth.said, found) and not truth.started
        why = "" if refused else fault(found, truth, unsure)
        total.add(engine, case, truth, found, why)
    return total
