"""What a task may do with a file, and execve(2): see cred.py."""

from __future__ import annotations

from . import rows
from .cred import KEEP_CAPS, NO_FIXUP, NOROOT, Cred, Refused
from .rules import ALL, Attribute, counts, read
from .script import File

DAC_OVERRIDE, DAC_READ_SEARCH = 1, 2
WANTED = {"r": 4, "w": 2, "x": 1}


def may(cred: Cred, file: File, want: int, on: frozenset[str]) -> bool:
    """path_resolution(7), "Permissions" and "Bypassing permission checks"."""
    if cred.users[3] == file.owner:
        bits = file.mode >> 6
    elif file.group == cred.group_ids[3] or file.group in cred.groups:
        bits = file.mode >> 3
    else:
        bits = file.mode
    if not want & ~bits:
        return True
    if rows.CAPABILITY in on and not (cred.mapped(file.owner) and cred.mapped(file.group)):
        return False
    if cred.has(DAC_OVERRIDE) and (file.is_dir or not want & 1 or file.mode & 0o111):
        return True
    return cred.has(DAC_READ_SEARCH) and (want == 4 or file.is_dir and not want & 2)


def check(cred: Cred, file: File, letters: str, on: frozenset[str]) -> str:
    """The answer to a check."""
    return "ok" if may(cred, file, sum(map(WANTED.__getitem__, letters)), on) else "eacces"


def by_real_ids(cred: Cred) -> Cred:
    """The credential that access(2) decides by."""
    cred = cred.copy()
    cred.users[3], cred.group_ids[3] = cred.users[0], cred.group_ids[0]
    if not cred.bits & NO_FIXUP:
        cred.effective = cred.permitted if cred.users[0] == cred.root else 0
    return cred


def attribute_of(cred: Cred, file: File, roots: list[int], on: frozenset[str]) -> Attribute | None:
    """The attribute that execve meets, or none."""
    ignored = cred.no_new_privs and rows.NO_NEW_PRIVS_FILE not in on
    if file.attribute is None or file.nosuid or ignored:
        return None
    if rows.LONG_ATTRIBUTE in on and len(file.attribute) > 24:
        raise Refused("errno 34")
    found = read(file.attribute)
    if found is None:
        raise Refused("einval")
    return found if counts(found, roots) else None


def by_set_id(cred: Cred, file: File, on: frozenset[str]) -> tuple[int, int, bool]:
    """The effective user and group by the file's set-id bits, and whether one is in force."""
    user, group = cred.users[1], cred.group_ids[1]
    ignored = file.nosuid or cred.no_new_privs
    if rows.UNMAPPED_FILE in on and not (cred.mapped(file.owner) and cred.mapped(file.group)):
        ignored = True
    by_user = bool(file.mode & 0o4000) and not ignored
    by_group = file.mode & 0o2010 == 0o2010 and not ignored
    return file.owner if by_user else user, file.group if by_group else group, by_user or by_group


def is_root(cred: Cred, user: int, attribute: Attribute | None) -> bool:
    """Whether the rule for root applies: capabilities(7), "execution of programs by root"."""
    if cred.bits & NOROOT or cred.root not in (cred.users[0], user):
        return False
    return not (attribute is not None and user == cred.root != cred.users[0])


def permitted_by(cred: Cred, attribute: Attribute | None, root: bool) -> int:
    """P'(permitted), but for the ambient set."""
    if root:
        return cred.bounding | cred.inheritable
    if attribute is None:
        return 0
    return cred.bounding & attribute.permitted | cred.inheritable & attribute.inheritable


def execute(cred: Cred, file: File, roots: list[int], on: frozenset[str]) -> Cred:
    """execve(2): capabilities(7), "Transformation of capabilities during execve()"."""
    if file.is_dir or not may(cred, file, 1, on):
        raise Refused("eacces")
    attribute = attribute_of(cred, file, roots, on)
    user, group, by_bit = by_set_id(cred, file, on)
    if attribute is not None and attribute.effective:
        if attribute.permitted & ~permitted_by(cred, attribute, False):
            raise Refused("eperm")
    root = is_root(cred, user, attribute)
    new = permitted_by(cred, attribute, root)
    effective = attribute is not None and attribute.effective or root and user == cred.root
    in_group = group == cred.group_ids[3] or group in cred.groups
    # Linux asks whether ids change, and not whether a bit is in force: `id_changed`.
    changed_user, changed_group = user != cred.users[1], not in_group
    is_plain = not (by_bit or attribute is not None)
    by_ids = changed_user or changed_group
    if is_plain or cred.no_new_privs:
        clears = by_ids if rows.PLAIN_FILE in on else False
    else:
        clears = by_ids if rows.SET_ID in on else by_bit
    clears = clears or attribute is not None
    if cred.no_new_privs:
        falls = by_ids or new & ~cred.permitted
        if falls and rows.NO_NEW_PRIVS_IDS in on:
            user, group = cred.users[0], cred.group_ids[0]
        new &= cred.permitted
    after = cred.copy()
    after.users[1:], after.group_ids[1:] = [user] * 3, [group] * 3
    after.ambient = 0 if clears else cred.ambient
    after.permitted = (new | after.ambient) & ALL
    after.effective = after.permitted if effective else after.ambient
    after.bits &= ~KEEP_CAPS
    return after
