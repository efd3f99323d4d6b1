"""Configurations for runc and for crun, compared with what both did."""

from __future__ import annotations

from ..answers import Answer
from ..oci import config, convert
from ..oci.orders import Runtime
from ..places import Bad
from . import configs, stored
from .compare import Sum, fault
from .stored import Case


def answered(case: Case, runtime: Runtime) -> tuple[Answer | str, bool]:
    """The answer to a case, and whether all of it may be otherwise."""
    where = stored.tree("mapped" if case.declared.get("mapped") else "plain")
    try:
        found = config.parsed(configs.text(case.declared, "/rootfs"), "config.json", "/")
        it = convert.convert(found, runtime, stored.launcher(), where)
        return it.answer(), it.unsure
    except Bad as bad:
        return str(bad), False


def compared(case: Case) -> Sum:
    """A case, with each runtime."""
    total = Sum()
    for runtime in Runtime:
        truth = case.truths.get(runtime.value)
        if truth is not None:
            found, unsure = answered(case, runtime)
            why = fault(found, truth, unsure)
            total.add(f"containers, {runtime.value}", case, truth, found, why)
    return total
