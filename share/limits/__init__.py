"""The limits of a script and of a run (docs/FORMATS.md), for all tools.

They are the program's, of crates/cred_ids/src/limits.rt and crates/cred_caps/src/secure.rt: a unit
test compares them.
"""

# Of a script: its bytes, its lines, its files, and the last lane and namespace that it names.
BYTES = 1 << 20
LINES = 20_000
FILES = 256
LAST_LANE = 16
LAST_NAMESPACE = 15
# The last number of a task, a process, a label or a descriptor in a script.
LAST_NUMBER = 99_999

# Of a run: a task's groups, the tasks that live, a task's overrides, the open files, the labels
# that hold and that prepare a credential, and the slots of credentials.
GROUPS = 1024
TASKS = 64
DEPTH = 8
OPEN_FILES = 256
HOLDS = 512
PREPARED = 64
SLOTS = 256

# The greatest number of securebits.
LAST_BITS = 255
