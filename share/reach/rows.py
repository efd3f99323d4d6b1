"""The rows of docs/LINUX.md by which a kernel may leave a task more than the program does."""

from __future__ import annotations

from dataclasses import dataclass

from linux import rows

from .answer import Answer, By, Inquiry
from .goals import Kind, Where


@dataclass(frozen=True)
class Row:
    """A row by its key, and what it means for a 'can't'."""

    key: str
    text: str

    @property
    def name(self) -> str:
        """What the page says of the program."""
        return rows.row(self.key)[0]


NAMESPACES = Row(
    rows.FIRST_TASK,
    "who makes a user namespace has every capability in it, and none more outside",
)
PRIVILEGED = Row(
    rows.SET_ID,
    "the ambient set stays over an execve that changes no id",
)
UNDER_NNP = Row(
    rows.NO_NEW_PRIVS_FILE,
    "a file's attribute that counts gives of what was permitted",
)
ROWS = (NAMESPACES, PRIVILEGED, UNDER_NNP)


def rows_of(inquiry: Inquiry, answers: list[Answer]) -> list[Row]:
    """Those that bear on some answers."""
    kinds = {answer.goal.kind for answer in answers}
    searched = any(answer.by is By.SEARCH for answer in answers)
    ambient = any(
        answer.goal.kind is Kind.CAP and answer.goal.where is Where.AMBIENT for answer in answers
    )
    files = inquiry.start.files
    set_id = any(file.mode & 0o6000 for file in files)
    found = [NAMESPACES] if Kind.CAP in kinds else []
    found += [PRIVILEGED] if set_id and (ambient or searched) else []
    nnp = inquiry.bounds.nnp or inquiry.scope.nnp_may_help
    has_attribute = any(file.attribute for file in files)
    return found + ([UNDER_NNP] if nnp and has_attribute and (ambient or searched) else [])
