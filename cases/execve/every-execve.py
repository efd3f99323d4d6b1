"""Every execve(2) of a table of processes and programs: 377,856 of one capability each.

A process may have a capability in its sets in sixteen ways, and what becomes of one capability
depends on no other, but for the test of capability-dumb binaries. So a process has its 41
capabilities in all sixteen ways at once, where that test isn't made. Where it is, it has them in
the eight ways that the test lets pass, and then eight processes more have one capability in a way
that it doesn't.

The table stands once for each of four places: two in the initial user namespace, where the
attributes count and where they don't, one in a container's, and one in a namespace below that. Who
is root elsewhere is nobody special there, as a user and as a file's owner.
"""
from collections.abc import Iterable, Iterator
from dataclasses import dataclass
from itertools import product

from processes import ALL, KEEP_CAPS, NO_SETUID_FIXUP, Refused, Way, ways
from reports import LINES, Script
from suite import Case

NOROOT = 1
CAPABILITIES = range(41)
# The user ids of the process where they are nobody's, each another, and its group ids; a saved and
# a filesystem id that no effective id is, and a supplementary group.
REAL_USER, EFFECTIVE_USER, REAL_GROUP, EFFECTIVE_GROUP = 1000, 2000, 10, 20
OTHER, SUPPLEMENTARY = 77, 60
# The program's owner where it is nobody, and its group.
OWNER, GROUP = 500, 50
# The root ids of a container's namespace and of one below it, which every script declares.
CONTAINER, NESTED = 100_000, 200_000
NAMESPACES = f"ns 1 {CONTAINER} 0", f"ns 2 {NESTED} 1"


@dataclass(frozen=True)
class Place:
    """Where a table stands: a user namespace, by its number, its root id and those of its
    ancestors; the root id of the attributes; who is root elsewhere, if anybody; and the owners of
    the programs.
    """

    name: str
    namespace: int
    root: int
    ancestors: tuple[int, ...]
    attribute_root: int
    elsewhere: tuple[int, ...]
    owners: tuple[int, ...]

    def users(self) -> Iterator[tuple[int, int]]:
        """The real and the effective user ids of the processes."""
        other = (*self.elsewhere, REAL_USER)[0]
        yield from product((self.root, other), (self.root, EFFECTIVE_USER))
        yield from ((REAL_USER, it) for it in self.elsewhere)


PLACES = (
    Place("in n0", 0, 0, (), 0, (), (0, OWNER)),
    Place("in n0, attributes of n1", 0, 0, (), CONTAINER, (), (0, OWNER)),
    Place("in n1", 1, CONTAINER, (0,), CONTAINER, (0,), (CONTAINER, 0, OWNER)),
    Place("in n2, attributes of n1", 2, NESTED, (CONTAINER, 0), CONTAINER, (CONTAINER,),
          (NESTED, CONTAINER)),
)


@dataclass(frozen=True)
class Sets:
    """The capability sets of a process."""

    permitted: int
    inheritable: int
    effective: int
    bounding: int
    ambient: int

    def told(self) -> str:
        """The five sets, as a report has them."""
        sets = self.permitted, self.inheritable, self.effective, self.bounding, self.ambient
        return "ok " + " ".join(f"{it:x}" for it in sets)


@dataclass(frozen=True)
class Process:
    """A process that calls execve."""

    real_user: int
    effective_user: int
    noroot: bool
    keep_caps: bool
    no_new_privs: bool
    place: Place
    sets: Sets


@dataclass(frozen=True)
class Attribute:
    """The capability attribute of a file: its sets and its effective bit."""

    name: str
    permitted: int = 0
    inheritable: int = 0
    effective: bool = False

    def spelt(self, root: int) -> str:
        """Its bytes, in version 3 (linux/capability.h); a damaged one has no version's revision."""
        words = [self.effective | (4 if self.name == "damaged" else 3) << 24]
        for half in (0, 32):
            words += [it >> half & 0xFFFFFFFF for it in (self.permitted, self.inheritable)]
        return b"".join(it.to_bytes(4, "little") for it in [*words, root]).hex()


NO_ATTRIBUTE = Attribute("none")
DUMB = Attribute("pe", permitted=ALL, effective=True)
ATTRIBUTES = (
    NO_ATTRIBUTE,
    Attribute("damaged"),
    Attribute("empty"),
    Attribute("p", permitted=ALL),
    DUMB,
    Attribute("ie", inheritable=ALL, effective=True),
)


# What all may do, with the set-group-ID bit or without it; with it and without the group's execute
# bit it stands for mandatory locking.
MODES = {"": 0o755, "-sgid": 0o2755, "-lock": 0o2745}


@dataclass(frozen=True)
class Program:
    """A program file."""

    owner: int
    set_user_id: bool
    set_group_id: str
    nosuid: bool
    attribute: Attribute

    def name(self) -> str:
        """Its name tells all but its group."""
        suid, nosuid = "-suid" * self.set_user_id, "-nosuid" * self.nosuid
        return f"u{self.owner}{suid}{self.set_group_id}{nosuid}-{self.attribute.name}"

    def declared(self, root: int) -> str:
        """The line that declares it, its attribute with this root id."""
        mode = 0o4000 * self.set_user_id + MODES[self.set_group_id]
        has_none = self.attribute == NO_ATTRIBUTE
        attribute = "" if has_none else f" caps {self.attribute.spelt(root)}"
        nosuid = " nosuid" * self.nosuid
        return f"file {self.name()} reg {self.owner} {GROUP} {mode:04o}{nosuid}{attribute}"


# What is gained by the file's permitted set, by its inheritable set, and as root's.
Gains = tuple[int, int, int]


@dataclass(frozen=True)
class After:
    """The process after execve, and what its permitted set gained by the file's permitted set, by
    its inheritable set and as root's.
    """

    user: int
    group: int
    sets: Sets
    gained: Gains


def is_ignored(process: Process, program: Program) -> bool:
    """execve(2): "The aforementioned transformations of the effective IDs are not performed (i.e.,
    the set-user-ID and set-group-ID bits are ignored) if any of the following is true: the
    no_new_privs attribute is set for the calling thread (see prctl(2)); the underlying filesystem
    is mounted nosuid [..]. The capabilities of the program file (see capabilities(7)) are also
    ignored if any of the above are true."
    """
    return process.no_new_privs or program.nosuid


def changes_user(process: Process, program: Program) -> bool:
    """ "If the set-user-ID bit is set on the program file referred to by pathname, then the
    effective user ID of the calling process is changed to that of the owner of the program file."
    """
    return program.set_user_id and not is_ignored(process, program)


def changes_group(process: Process, program: Program) -> bool:
    """ "Similarly, if the set-group-ID bit is set on the program file [..]". inode(7): "For a file
    that does not have the group execution bit (S_IXGRP) set, the set-group-ID bit indicates
    mandatory file/record locking."
    """
    return program.set_group_id == "-sgid" and not is_ignored(process, program)


def met(process: Process, program: Program) -> Attribute:
    """The attribute as the process meets it. capabilities(7), "Namespaced file capabilities":
    "capabilities are conferred only if the binary is executed by a process that resides in a user
    namespace whose UID 0 maps to the root user ID that is saved in the extended attribute, or when
    executed by a process that resides in a descendant of such a namespace".
    """
    attribute = program.attribute
    if is_ignored(process, program):
        return NO_ATTRIBUTE
    if attribute.name == "damaged":
        raise Refused("einval")
    place = process.place
    counts = place.attribute_root in (place.root, *place.ancestors)
    return attribute if counts else NO_ATTRIBUTE


def check_dumb(sets: Sets, attribute: Attribute) -> None:
    """capabilities(7), "Safety checking for capability-dumb binaries": "The kernel recognizes a
    file which has the effective capability bit set as capability-dumb [..]. If the process did not
    obtain the full set of file permitted capabilities, then execve(2) fails with the error EPERM."
    """
    obtained = attribute.permitted & sets.bounding | attribute.inheritable & sets.inheritable
    if attribute.effective and attribute.permitted & ~obtained:
        raise Refused("eperm")


def is_all_ones(process: Process, user: int, attribute: Attribute) -> bool:
    """ "Capabilities and execution of programs by root": "If the real or effective user ID of the
    process is 0 (root), then the file inheritable and permitted sets are ignored; instead they are
    notionally considered to be all ones". "SECBIT_NOROOT: If this bit is set, then the kernel does
    not grant capabilities [..] when a process with an effective or real UID of 0 calls execve(2)."
    UID 0 is that of the process's user namespace: "A namespace's root user ID is the value that
    user ID 0 inside that namespace maps to in the initial user namespace."
    """
    root = process.place.root
    if process.noroot or root not in (process.real_user, user):
        return False
    # "Set-user-ID-root programs that have file capabilities": "If (a) the binary that is being
    # executed has capabilities attached and (b) the real user ID of the process is not 0 (root)
    # and (c) the effective user ID of the process is 0 (root), then the file capability bits are
    # honored".
    return not (attribute != NO_ATTRIBUTE and process.real_user != root and user == root)


def transformed(
    process: Process, program: Program, user: int, attribute: Attribute
) -> tuple[Sets, Gains]:
    """The sets after, by "Transformation of capabilities during execve()", and the gains."""
    sets, all_ones = process.sets, is_all_ones(process, user, attribute)
    # "If the effective user ID of the process is 0 (root) or the file effective bit is in fact
    # enabled, then the file effective bit is notionally defined to be one", for root.
    effective = attribute.effective or all_ones and user == process.place.root
    honored = attribute.permitted, attribute.inheritable
    permitted, inheritable = (ALL, ALL) if all_ones else honored
    # "a privileged file is one that has capabilities or has the set-user-ID or set-group-ID bit
    # set."
    by_id = changes_user(process, program) or changes_group(process, program)
    ambient = 0 if attribute != NO_ATTRIBUTE or by_id else sets.ambient
    # "P'(permitted) = (P(inheritable) & F(inheritable)) | (F(permitted) & P(bounding)) |
    # P'(ambient)"
    new = sets.inheritable & inheritable | permitted & sets.bounding | ambient
    # prctl(2): "With no_new_privs set to 1, execve(2) promises not to grant privileges to do
    # anything that could not have been done without the execve(2) call".
    if process.no_new_privs:
        new &= sets.permitted
    # "P'(effective) = F(effective) ? P'(permitted) : P'(ambient)"; the others are "unchanged".
    after = Sets(new, sets.inheritable, new if effective else ambient, sets.bounding, ambient)
    gain = new & ~sets.permitted
    of_file = gain & permitted & sets.bounding
    return after, (0, 0, gain) if all_ones else (of_file, gain & ~of_file, 0)


def page(process: Process, program: Program) -> After:
    """The process after the execve of the program."""
    attribute = met(process, program)
    check_dumb(process.sets, attribute)
    user = program.owner if changes_user(process, program) else process.effective_user
    group = GROUP if changes_group(process, program) else EFFECTIVE_GROUP
    return After(user, group, *transformed(process, program, user, attribute))


def sets_of(its: Iterable[Way]) -> Sets:
    """The sets of a process that has the capabilities in these ways, one after another."""
    its = [*its]
    sets = [0] * 5
    for capability in CAPABILITIES:
        for place, has in enumerate(its[capability % len(its)]):
            sets[place] |= has << capability
    return Sets(*sets)


def short_of(way: Way, sets: Sets) -> Sets:
    """The sets, with CAP_NET_RAW in this way instead."""
    fields = vars(sets).values()
    return Sets(*(it & ~(1 << 13) | has << 13 for it, has in zip(fields, way)))


def programs(place: Place) -> list[Program]:
    """Each program of the table."""
    kinds = product(place.owners, (False, True), MODES, (False, True), ATTRIBUTES)
    return [Program(*it) for it in kinds]


def rows(place: Place) -> Iterator[tuple[Sets, list[Program]]]:
    """The sets of a process, and the programs that it executes."""
    dumb = [it for it in programs(place) if it.attribute == DUMB]
    bounded = sets_of(it for it in ways() if it[3])
    yield sets_of(ways()), [it for it in programs(place) if it.attribute != DUMB]
    yield bounded, dumb
    for way in (it for it in ways() if not it[3]):
        yield short_of(way, bounded), dumb


def processes(place: Place, sets: Sets) -> Iterator[Process]:
    """Each process of the table with these sets."""
    either = False, True
    for (real, effective), noroot, keeps, no_new in product(place.users(), either, either, either):
        yield Process(real, effective, noroot, keeps, no_new, place, sets)


# Root's task, one with the groups and the sets that shrink alone, a process of the table, and the
# child that executes.
ROOT, BODY, TASK, CHILD = 1, 2, 3, 4


def begun(place: Place) -> Script:
    """A script with the programs, the namespaces and a task of the place's root."""
    script = Script()
    script.declares(*NAMESPACES, *(it.declared(place.attribute_root) for it in programs(place)))
    script.init(ROOT, 1, place.root, 0, place.namespace)
    script.changes(ROOT, f"securebits {NO_SETUID_FIXUP}")
    return script


def make_body(script: Script, sets: Sets) -> None:
    """Makes a child of root that has these inheritable, bounding and ambient sets."""
    script.fork(ROOT, BODY, 2)
    script.ids(BODY, f"setgroups {SUPPLEMENTARY}")
    script.ids(BODY, f"setresgid {REAL_GROUP} {EFFECTIVE_GROUP} {OTHER}")
    script.changes(BODY, f"setfsgid {OTHER}", answer=f"ok was {EFFECTIVE_GROUP}")
    script.changes(BODY, f"capset {ALL:x} {sets.inheritable:x} {ALL:x}")
    for capability in CAPABILITIES:
        if not sets.bounding >> capability & 1:
            script.changes(BODY, f"capdrop {capability}")
        if sets.ambient >> capability & 1:
            script.changes(BODY, f"ambraise {capability}")


def make(script: Script, process: Process) -> None:
    """Makes a child of that one this process."""
    sets = process.sets
    script.fork(BODY, TASK, 3)
    script.ids(TASK, f"setresuid {process.real_user} {process.effective_user} {OTHER}")
    script.changes(TASK, f"setfsuid {OTHER}", answer=f"ok was {process.effective_user}")
    script.changes(TASK, f"securebits {NOROOT * process.noroot | KEEP_CAPS * process.keep_caps}")
    if process.no_new_privs:
        script.changes(TASK, "nonewprivs 1")
    script.changes(TASK, f"capset {sets.permitted:x} {sets.inheritable:x} {sets.effective:x}")


def executes(script: Script, process: Process, program: Program) -> None:
    """The process executes the program, in a child where that isn't refused."""
    call = f"exec {program.name()}"
    try:
        after = page(process, program)
    except Refused as why:
        script.changes(TASK, call, str(why))
        return
    script.fork(TASK, CHILD, 4)
    script.changes(CHILD, call, then=" ended 0 gain " + " ".join(f"{it:x}" for it in after.gained))
    # "The effective user ID of the process is copied to the saved set-user-ID; similarly, the
    # effective group ID is copied to the saved set-group-ID", and so the filesystem ids
    # (security/commoncap.c). "The process's real UID and real GID, as well as its supplementary
    # group IDs, are unchanged".
    user, group = (f"{it} {it} {it}" for it in (after.user, after.group))
    script.asks(CHILD, "ids", f"ok {process.real_user} {user} {REAL_GROUP} {group}")
    script.asks(CHILD, "groups", f"ok {SUPPLEMENTARY}")
    script.asks(CHILD, "caps", after.sets.told())
    # "During an execve(2), all of the flags are preserved, except SECBIT_KEEP_CAPS which is always
    # cleared."
    script.asks(CHILD, "bits", f"ok {NOROOT * process.noroot} {process.no_new_privs:d}")
    script.exit(CHILD)


def table(place: Place) -> Iterator[Case]:
    """All rows in this place."""
    script, calls, part = begun(place), 0, 1
    for sets, some in rows(place):
        make_body(script, sets)
        for process in processes(place, sets):
            # A process takes seven lines to make and to end, and so does each program; then a body.
            if len(script.lines) + 7 * len(some) + 100 > LINES:
                yield script.case(f"{place.name}, part {part}", calls)
                script, calls, part = begun(place), 0, part + 1
                make_body(script, sets)
            make(script, process)
            for program in some:
                executes(script, process, program)
            script.exit(TASK)
            calls += len(some)
        script.exit(BODY)
    yield script.case(f"{place.name}, part {part}", calls)


def cases() -> Iterator[Case]:
    """The table in each place."""
    for it in PLACES:
        yield from table(it)
