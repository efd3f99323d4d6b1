"""The places in the manual that sentences rest on. `check` compares them with the pages."""

CAPABILITIES = "capabilities(7)"
USER_IDS = f'{CAPABILITIES}, "Effect of user ID changes on capabilities"'
FROM_ROOT, EFFECTIVE_LEFT, EFFECTIVE_ROOT, FILESYSTEM = (f"{USER_IDS}, {n}" for n in range(1, 5))
SECUREBITS = f'{CAPABILITIES}, "The securebits flags"'
THREAD_SETS = f'{CAPABILITIES}, "Thread capability sets"'
ADJUSTING = f'{CAPABILITIES}, "Programmatically adjusting capability sets"'
CAPSETS = tuple(f"{ADJUSTING}, {n}" for n in range(1, 5))
EXECVE_SETS = f'{CAPABILITIES}, "Transformation of capabilities during execve()"'
BY_ROOT = f'{CAPABILITIES}, "Capabilities and execution of programs by root"'
ROOT_FILE_CAPS = f'{CAPABILITIES}, "Set-user-ID-root programs that have file capabilities"'
DUMB = f'{CAPABILITIES}, "Safety checking for capability-dumb binaries"'
VERSIONS = f'{CAPABILITIES}, "File capability extended attribute versioning"'
LIST = f'{CAPABILITIES}, "Capabilities list"'
NAMESPACED = f'{CAPABILITIES}, "Namespaced file capabilities"'

IDS = 'credentials(7), "User and group identifiers"'
PERMISSIONS = 'path_resolution(7), "Permissions"'
BYPASSING = 'path_resolution(7), "Bypassing permission checks: superuser and capabilities"'
THREADS = 'nptl(7), "NPTL and process credential changes"'

BOUND_DROP = "prctl(2), PR_CAPBSET_DROP"
BOUND_READ = "prctl(2), PR_CAPBSET_READ"
RAISE = "prctl(2), PR_CAP_AMBIENT_RAISE"
LOWER = "prctl(2), PR_CAP_AMBIENT_LOWER"
CLEAR = "prctl(2), PR_CAP_AMBIENT_CLEAR_ALL"
IS_SET = "prctl(2), PR_CAP_AMBIENT_IS_SET"
SET_BITS = "prctl(2), PR_SET_SECUREBITS"
KEEP = "prctl(2), PR_SET_KEEPCAPS"
NO_NEW_PRIVS = "prctl(2), PR_SET_NO_NEW_PRIVS"

CAPSET = "capset(2), ERRORS"
EXECVE = "execve(2), ERRORS"
EXECVE_IGNORED = "execve(2), DESCRIPTION"
OPEN = "open(2), ERRORS"
CLOSE = "close(2), ERRORS"
KILL = "kill(2), DESCRIPTION"
TRACE = 'ptrace(2), "Ptrace access mode checking"'
DUMPABLE = "prctl(2), PR_SET_DUMPABLE"
ACCESS = "access(2), DESCRIPTION"
CLONE = "clone(2), CLONE_THREAD"

RST = "Documentation/security/credentials.rst"
ALTERING = f'{RST}, "Altering Credentials"'
MANAGING = f'{RST}, "Managing Credentials"'
ACCESSING = f'{RST}, "Accessing Task Credentials"'
OPEN_FILES = f'{RST}, "Open File Credentials"'
OVERRIDING = f'{RST}, "Overriding the VFS\'s Use of Credentials"'
# What the manual has nothing of: labels, limits and slots are this program's.
HOLDING = 'docs/RULES.md, "Holding credentials"'
FIRST = 'docs/RULES.md, "Credentials"'
TASKS = 'docs/RULES.md, "Tasks and processes"'
BROADCASTS = "docs/RULES.md, \"A call of one thread is every thread's\""
FILES = 'docs/RULES.md, "Open files"'


def errors(call: str) -> str:
    """The errors of a call's page."""
    return f"{call}(2), ERRORS"


def text(call: str) -> str:
    """What a call's page says that it does."""
    return f"{call}(2), DESCRIPTION"
