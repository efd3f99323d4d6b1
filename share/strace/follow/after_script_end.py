"""The rest of a log, behind the line where its script ends.

Files are known as they are after the log, so what changes them there matters too: to what they were
where the script used them.
"""

from __future__ import annotations

import copy
from typing import TYPE_CHECKING

from ..log.reader import Call, Item
from ..script.script import Stop
from .path_calls import FOLLOWED
from .places import Located, Mounts, Where

if TYPE_CHECKING:
    from ..script.converter import Converter


def look_on(converter: Converter, items: list[Item]) -> None:
    """Goes through what is left, for the changes alone: the script stays as it is."""
    # What never changes needs no copy, and a long script has many lines.
    memo = {id(one): one for one in (converter.files, *converter.script.body)}
    kept = copy.deepcopy((converter.script, converter.tasks.told, converter.notes), memo)
    others, strangers = copy.deepcopy(converter.not_converted), set(converter.strangers)
    converter.due = {}
    for converter.at, item in enumerate(items[converter.at + 1 :], converter.at + 1):
        try:
            converter.item(item)
        except Stop:
            task = converter.tasks.by_pid.get(item.pid)
            if task and isinstance(item, Call) and item.name in FOLLOWED:
                # Nobody knows where its paths lead now.
                lost = Located(f"@{item.first}:/")
                task.where = Where(Mounts(lost), lost, None)
    converter.script, converter.tasks.told, converter.notes = kept
    converter.not_converted, converter.strangers = others, strangers
