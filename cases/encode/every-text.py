"""Texts of a file's capabilities: each part of the grammar, each name, each place at which a text
goes wrong, and what several clauses and actions say together.

The source is cap_text_formats(7), whose sentences stand in captext.py beside the lines that follow
them.
"""
import itertools
from collections.abc import Iterator

from captext import NAMES, case
from suite import Case

# Texts that are cut at each byte, and into which other bytes are put at each place.
CUT = (
    "=", "=p", "=ep", "all=p", "all+p", "all=eip-i", "cap_net_raw=ep", "cap_chown,cap_kill+p",
    "cap_chown=p cap_kill=p", "cap_chown=p =", "= cap_chown+ep", "all= cap_bpf,cap_perfmon=i",
    "cap_sys_admin=eip cap_sys_admin-e", "cap_chown=+p-i", "cap_checkpoint_restore=p",
    "cap_net_bind_service,cap_net_broadcast,cap_net_admin=ip", "cap_mac_override-e=p",
    "cap_setuid+eip cap_setgid+eip", "cap_wake_alarm=i cap_block_suspend=p cap_audit_read=ip",
    "cap_chown==p", "cap_sys_chroot+p cap_sys_chroot=",
)  # fmt: skip
# Bytes that end something, begin something, or neither.
OTHERS = "=+,ea x"
# Texts that only a part of the grammar tells from others.
TELLING = (
    # "all" is the whole of its list.
    "all", "all,", "all,cap_chown=p", "cap_chown,all=p", "allp", "al=p", "ALL=p", "a",
    # A list needs names, and a comma another one.
    ",cap_chown=p", "cap_chown,=p", "cap_chown,,cap_kill=p", "cap_chown cap_kill=p", "chown=p", "c",
    "cap_=p", "é=p", "cap_chown=é", "cap_chownx=p", "cap_chow=p", "CAP_CHOWN=p", "Cap_chown=p",
    "cap_CHOWN=p", "0=p",
    # "require an explicit preceding capability list": `=` alone has none.
    "+p", "-p", "+", "-", "p", "=+p", "=-p", "=p+i", "=p-p",
    # "one or more explicit trailing flags"
    "all+", "all-", "cap_chown+", "cap_chown+-p", "cap_chown+=p", "cap_chown=p+", "cap_chown-p=",
    "cap_chown=pp", "cap_chown=pip", "cap_chown=eipeip", "cap_chown=P", "cap_chown=x",
    # One space stands between two clauses.
    "cap_chown=p ", " cap_chown=p", "cap_chown=p  cap_kill=p", "cap_chown=p\tcap_kill=p", " ",
    "cap_chown =p", "cap_chown= p", "cap_chown=p\n", "= =", "= = =",
    # The last action on a capability decides, of those on it alone.
    "cap_chown=p cap_chown=i", "cap_chown=p cap_kill=i", "cap_chown=p =i", "all=p cap_chown-p",
    "cap_chown+p cap_chown+i", "cap_chown+p-p", "cap_chown-p+p", "cap_chown=p-p", "cap_chown+e=p",
    "cap_chown,cap_chown=p", "cap_kill,cap_chown=p",
    # A file's effective set is all or nothing.
    "cap_chown=p cap_chown=e", "cap_chown=e", "cap_chown=ei", "cap_chown=ep cap_kill=p",
    "cap_chown=ep cap_kill=ei", "cap_chown=ep cap_kill=i", "cap_chown=p cap_kill+e", "=e", "=e-e",
    "cap_chown=ep cap_chown-p", "cap_chown=ep cap_chown-e", "all=eip cap_kill-e",
    "all=eip cap_kill=", "all=eip cap_chown-eip", "=p cap_kill=i", "cap_bpf=+p+i",
    # As getcap(8) writes them.
    "cap_chown,cap_kill=p", "cap_net_bind_service=ei", "cap_chown=p cap_fowner=ip cap_fsetid=i",
    "cap_setuid=ep cap_setgid=eip cap_checkpoint_restore=ei",
)  # fmt: skip


def cuts() -> Iterator[str]:
    """Each prefix of a text, and other bytes put into it at each place."""
    for text in CUT:
        for place in range(len(text) + 1):
            if place:
                yield text[:place]
            for byte in OTHERS:
                yield text[:place] + byte + text[place:]


def names() -> Iterator[str]:
    """Each name by itself, each with the next, and what is nearly one."""
    for number, name in enumerate(NAMES):
        yield f"{name}=ep"
        yield f"{name}+i"
        yield f"all=p {name}-p"
        yield f"{name},{NAMES[number - 1]}=eip"
        yield f"{name}_=p"
        yield f"{name[:-1]}=p"
        yield f"{name.upper()}=p"
        yield f"{name.removeprefix('cap_')}=p"


def clauses() -> Iterator[str]:
    """Two clauses on lists that have a capability in common, of every two actions each."""
    lists = ("cap_chown", "cap_chown,cap_bpf", "all", "")
    actions = ("=", "=p", "+e", "+ip", "-p", "-ei", "=eip-i", "-i=p")
    for first, second in itertools.product(lists, repeat=2):
        for one, other in itertools.product(actions, repeat=2):
            yield f"{first}{one} {second}{other}"


def cases() -> Iterator[Case]:
    texts = dict.fromkeys([*TELLING, *cuts(), *names(), *clauses()])
    for text in texts:
        # A word that is empty or begins with `-` is no text of a command line.
        if text and not text.startswith("-"):
            yield case(text.encode("unicode_escape").decode(), text)
