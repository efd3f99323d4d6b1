"""Scripts whose lanes run as threads many times over: each report must be legal.

docs/LANES.md: "its report is the text of one journal of the script, and of no other, and that one
is legal". No run takes one of the orders for granted. Nor can a case tell whether lanes overlapped:
where no thread can be made, they run one after another.
"""
from collections.abc import Callable, Iterator

from suite import Case, script

RUNS = 200
# How often each of four scripts runs that share the runs.
QUARTER = RUNS // 4
LANES = range(1, 17)
# How often each lane makes its twelve lines.
ROUNDS = 5
# So many slots are in use for good that, beside those of sixteen tasks, none of the 256 is left.
FULL = 240

# Short scripts, in which the order of the lanes decides what is refused.
SHORT = {
    # A thread executes a program, in which it remains alone, while another sets the ids of both.
    "an execve beside a call": """\
file prog reg 0 0 0755
init t1 p1 0 0 n0
t1 spawn t2
lane 1
t1 open prog r f1
t1 exec prog
lane 2
t2 setresuid 5 5 5
t2 ids
""",
    # A call of every thread ends the process where the second thread has no right to it by then,
    # and needn't wait for the third where that has ended.
    "one that may not follow": """\
init t1 p1 0 0 n0
t1 spawn t2
t1 spawn t3
lane 1
t1 setresuid 5 5 5
t1 ids
lane 2
t2 capset 0 0 0
t2 ids
lane 3
t3 exit
""",
    # Two lanes make the steps of the call that a third has begun, and one of them a call too.
    "steps by other lanes": """\
init t1 p1 0 0 n0
t1 spawn t2
t1 spawn t3
lane 1
begin t1 setresuid 5 5 5
t1 ids
lane 2
act 5
t2 ids
lane 3
act 5
act 5
t3 setresuid -1 5 -1
t3 ids
""",
    # One descriptor, which two lanes open and close, and a signal to a task that leaves root.
    "one descriptor": """\
file prog reg 0 0 0755
init t1 p1 0 0 n0
init t2 p2 0 0 n0
lane 1
t1 open prog r f1
t1 fcap f1 21
t1 close f1
t1 setresuid 5 5 5
lane 2
t2 open prog r f1
t2 fcap f1 21
t2 close f1
t2 signal t1
t2 exit
""",
}

# What a lane makes in each round. Its task leaves root, a label holds what it was then, and it
# comes back. Outside root a group is refused; but where the tasks are of one process, another lane
# may have brought them back by then. It comes back again, since there may have been no slot before,
# and has a thread beside it for a while.
ROUND = """\
t{lane} setresuid -1 1000 -1
take h{lane} t{lane}
t{lane} keepcaps 1
t{lane} setregid -1 {lane}
t{lane} caps
t{lane} setreuid -1 0
drop h{lane}
t{lane} setresuid -1 0 -1
t{lane} spawn t10{lane}
t10{lane} ids
t10{lane} exit
sweep
"""


def sixteen(process_of: Callable[[int], int], held: int = 0) -> str:
    """Sixteen lanes of a task each. The setup leaves so many slots in use for good: the first task
    gets as many credentials, each of which a label holds."""
    tasks = "".join(f"init t{lane} p{process_of(lane)} 0 0 n0\n" for lane in LANES)
    holds = "".join(f"take h9{number} t1\nt1 setresuid 0 0 0\n" for number in range(held))
    lanes = "".join(f"lane {lane}\n" + ROUND.format(lane=lane) * ROUNDS for lane in LANES)
    return tasks + holds + lanes


def cases() -> Iterator[Case]:
    """The short scripts, sixteen threads, sixteen processes, and those where few slots are left."""
    for name, text in SHORT.items():
        yield script(name, text, runs=RUNS)
    yield script("sixteen threads", sixteen(lambda _: 1), runs=RUNS)
    yield script("sixteen processes", sixteen(lambda lane: lane), runs=RUNS)
    for left in range(4):
        text = sixteen(lambda lane: lane, FULL - left)
        yield script(f"{left} slots left", text, runs=QUARTER)
