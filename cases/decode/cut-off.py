"""An attribute that is cut off at each of its bytes: as it is told, and where a program that has it
is executed.

The source is docs/RULES.md: "Fewer than 4 bytes are a wrong length; then another revision is a
wrong revision; then another length than the version's is a wrong length"; and of execve(2): "bytes
that spell nothing are EINVAL".
"""
from collections.abc import Iterator

from suite import UNREAD, Case, script

# cap_net_raw=ep in version 3, for the user namespace whose root is user 100000. The revision stands
# in the fourth byte: what is left of 20 bytes is none of version 2, nor of 12 bytes of version 1.
WHOLE = "0100000300200000000000000000000000000000a0860100"
LENGTH = len(WHOLE) // 2
SCRIPT = """\
ns 1 100000 0
file ping reg 0 0 0755 caps {}
init t1 p1 1000 1000 n1
t1 exec ping
"""
TOLD = """\
3 init t1 p1 1000 1000 n1 -> ok c0 s0
4 take h100040 t1 -> ok c0 s0
4 prepare h100041 t1 h100040 -> ok s1
4 change h100041 exec ping -> {}
4 drop h100040 -> ok
"""
# What a whole one gives, and what another leaves.
GIVEN = "ok\n4 commit h100041 -> ok c1 s1 ended 0 gain 2000 0 0"
REFUSED = "einval\n4 abort h100041 -> ok"


def cases() -> Iterator[Case]:
    """Each number of bytes from 1 on, told and executed."""
    for length in range(1, LENGTH + 1):
        bytes_left = WHOLE[: 2 * length]
        is_whole = length == LENGTH
        line = "version 3 perm 2000 inh 0 effective 1 root 100000"
        line = line if is_whole else f"bad length {length}"
        yield Case(f"{length} bytes", ("decode", bytes_left), UNREAD, f"{line}\n".encode())
        report = TOLD.format(GIVEN if is_whole else REFUSED)
        yield script(f"{length} bytes, executed", SCRIPT.format(bytes_left), report)
