"""What the records of an event say of the file that is executed or changed."""

from __future__ import annotations

from .records import Event, Path, read_path

REGULAR = 0o10
SET_IDS = 0o6000
# What the dynamic loader is called, on all architectures.
LOADERS = ("ld-", "ld.so", "ld64")


def paths_of(event: Event) -> list[Path]:
    """The files of an event, in the order of their items."""
    found = [path for text in event.paths if (path := read_path(text))]
    return sorted(found, key=lambda path: path.item)


def program_of(event: Event) -> Path | None:
    """The program that was executed: the last item but for the dynamic loader. So of a script file
    it is the interpreter."""
    found = paths_of(event)
    if len(found) > 1 and found[-1].name.rpartition("/")[2].startswith(LOADERS):
        found.pop()
    return found[-1] if found and found[-1].mode >> 12 == REGULAR else None


def changed_of(event: Event) -> Path | None:
    """The file that chmod(2), chown(2) or their kin change."""
    found = [path for path in paths_of(event) if path.kind in ("NORMAL", "")]
    return found[0] if len(found) == 1 and found[0].mode >> 12 == REGULAR else None


def declared(path: Path, more: int = 0, less: int = 0) -> str:
    """The file as a line of a script declares it."""
    attribute = f" caps {path.attribute}" if path.attribute else ""
    mode = (path.mode & 0o7777 | more) & ~less
    return f"reg {path.owner} {path.group} {mode:04o}{attribute}"


def has_set_ids(path: Path) -> bool:
    """Whether a set-id bit is in force for whom nothing keeps it from."""
    return bool(path.mode & 0o4000) or path.mode & 0o2010 == 0o2010
