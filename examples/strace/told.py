"""Logs whose results differ from the report's, or that end early, with what is told of them."""

from __future__ import annotations

from capabilities import CAPABILITIES
from strace.follow import namespace_entries
from texts import BEGINS

# Where strace began: as user 1000 without a capability, and as root with all.
USER = """Uid:\t1000\t1000\t1000\t1000
Gid:\t1000\t1000\t1000\t1000
Groups:\t
NoNewPrivs:\t0
CapInh:\t0
CapPrm:\t0
CapEff:\t0
CapBnd:\t1ffffffffff
CapAmb:\t0
"""
ROOT = USER.replace("1000", "0").replace("CapPrm:\t0", "CapPrm:\t1ffffffffff").replace(
    "CapEff:\t0", "CapEff:\t1ffffffffff"
)
FILES = """/bin/sh reg 0 0 0755
/bin/su reg 0 0 4755
/mnt/tool reg 0 0 0755 noexec
/mnt/su reg 0 0 4755 nosuid
/home/tool reg 0 0 0755
/ dir 0 0 0755
/home dir 0 0 0750
/srv/prober before reg 0 0 0755 caps 0100000200200000000000000000000000000000
/srv/prober reg 1000 1000 0755
/srv/link -> /srv/prober
/bin/own reg 1000 1000 4755
/bin/hex reg 0 0 0755 caps 0x0100000200200000000000000000000000000000
/srv/kept before reg 0 0 4755
/srv/kept reg 0 0 0755
"""
IDS = "7 getresuid([1000], [1000], [1000]) = 0\n"
RUNS = '7 execve("{}", [], 0x7 /* 9 vars */) = {}\n'
REFUSED = "-1 EACCES (Permission denied)"
NO_ROW = "no row explains it"
TRACED = "execve is of a program: there are no scripts, and nobody traces the task"
COUNTS = "a capability counts alike for every file and every task"
BITS = "a securebit above bit 7 is EPERM"

# A child of user 1000 that executes a program, and asks what it has then.
CHILD = ("7 fork() = {0}\n{0} setuid(1000) = 0\n{0} execve(\"{1}\", [], 0x7 /* 9 vars */) = 0\n"
         "{0} capget({{version=_LINUX_CAPABILITY_VERSION_3, pid=0}}, "
         "{{effective={2}, permitted={2}, inheritable=0}}) = 0\n")
HAS, LACKS = "1<<CAP_NET_RAW", "0"
OWNED = '7 chown("/srv/prober", 1000, 1000) = 0\n'
STAT = '7 newfstatat(AT_FDCWD, "{}", {{st_mode=S_IFREG|{}, st_uid={}, st_gid={}, ...}}, 0) = 0\n'
THREAD = "7 clone(child_stack=NULL, flags=CLONE_VM|CLONE_FS|CLONE_FILES|CLONE_THREAD) = {}\n"
DENIED = "-1 EPERM (Operation not permitted)"
# Bit 8 makes it a call that the program refuses, and then setuid leaves the sets.
FIXED = "7 prctl(PR_SET_SECUREBITS, SECBIT_NO_SETUID_FIXUP|0x100) = 0\n"
SETS = ("7 capget({{version=_LINUX_CAPABILITY_VERSION_3, pid=0}}, "
        "{{effective={0}, permitted={0}, inheritable=1<<CAP_KILL}}) = 0\n")
AMBIENT = "".join(f"Cap{name}:\t20\n" for name in ("Inh", "Prm", "Eff", "Amb"))
AMBIENT = USER.split("CapInh")[0] + AMBIENT + "CapBnd:\t1ffffffffff\n"
OWN = "a set-id bit in force makes a file privileged"
ALL = "|".join(f"1<<CAP_{name}" for name in CAPABILITIES)

# A log with where it begins, the status of credtrace-compare, what it says and what it mustn't.
DIFFERENCES: list[tuple[str, str, str, int, list[str], list[str]]] = [
    ("a user's strace", USER, RUNS.format("/bin/su", 0) + IDS, 0,
     [TRACED, "root's strace leaves"], []),
    ("root's strace", ROOT, BEGINS + "7 setresuid(1000, 1000, 1000) = 0\n"
     + RUNS.format("/bin/su", 0) + IDS, 1, [NO_ROW], [TRACED]),
    ("a strace that came later", ROOT, "7 setresuid(1000, 1000, 1000) = 0\n"
     + RUNS.format("/bin/su", 0) + IDS, 0, [f"it may be: {TRACED}"], []),
    ("a drop that a row explains, and what is read then", USER, RUNS.format("/bin/su", 0)
     + "7 prctl(PR_CAPBSET_DROP, CAP_CHOWN) = -1 EPERM (Operation not permitted)\n"
     "7 prctl(PR_CAPBSET_READ, CAP_CHOWN) = 1\n", 0,
     [TRACED, "agree: 2 calls, explained by docs/LINUX.md: 1,"], []),
    ("securebits above bit 7", ROOT, BEGINS
     + "7 prctl(PR_SET_SECUREBITS, 0x100 /* SECBIT_??? */) = 0\n"
     "7 prctl(PR_GET_SECUREBITS) = 0x100\n7 prctl(PR_SET_SECUREBITS, SECBIT_NOROOT|0xf00) = 0\n"
     "7 prctl(PR_GET_SECUREBITS) = 0xf01 (SECBIT_NOROOT|0xf00)\n", 0,
     [BITS, "bits 8 to 11 exist", "explained by docs/LINUX.md: 4"], []),
    ("capget by version 1", ROOT, BEGINS + "7 capget({version=_LINUX_CAPABILITY_VERSION_1, pid=0}, "
     "{effective=0xffffffff, permitted=0xffffffff, inheritable=0}) = 0\n", 0, ["agree: 2"], []),
    ("capset with bits above the last capability", ROOT, BEGINS + "7 capset({version="
     "_LINUX_CAPABILITY_VERSION_3, pid=0}, {effective=1<<CAP_KILL|0x80000000 /* CAP_??? */, "
     "permitted=1<<CAP_KILL|1<<CAP_BPF|0xfffffe00, inheritable=0x80000000 /* CAP_??? */}) = 0\n"
     "7 capget({version=_LINUX_CAPABILITY_VERSION_3, pid=0}, "
     "{effective=1<<CAP_KILL, permitted=1<<CAP_KILL|1<<CAP_BPF, inheritable=0}) = 0\n", 0,
     ["agree: 3"], []),
    ("clear all with a further argument", ROOT, BEGINS + "7 prctl(PR_CAP_AMBIENT, "
     "PR_CAP_AMBIENT_CLEAR_ALL, 0x5, 0, 0) = -1 EINVAL (Invalid argument)\n", 0, ["agree: 1"], []),
    ("noexec", ROOT, BEGINS + RUNS.format("/mnt/tool", REFUSED), 0,
     ["the log: the mount of /mnt/tool has noexec, which refuses so (execve(2))"], ["directories"]),
    ("noexec, and a file that is read", ROOT, BEGINS
     + '7 openat(AT_FDCWD, "/mnt/tool", O_RDONLY) = ' + REFUSED + "\n", 0,
     ["its directories are not"],
     ["noexec, which"]),
    ("a folder that may not be searched", USER, BEGINS + RUNS.format("/home/tool", REFUSED), 0,
     ["its directories are not searched", "here: /home may not be searched"], ["noexec and"]),
    ("folders that may be searched", ROOT, BEGINS + RUNS.format("/home/tool", REFUSED), 0,
     ["access control lists", "every directory of the path may be searched"], ["its directories"]),
    ("seccomp", ROOT, BEGINS + "7 prctl(PR_SET_NO_NEW_PRIVS, 1, 0, 0, 0) = 0\n"
     "7 prctl(PR_SET_SECCOMP, SECCOMP_MODE_FILTER, {len=1}) = 0\n"
     "7 setuid(5) = -1 EPERM (Operation not permitted)\n", 0,
     ["the log: line 3 of it installs a seccomp filter"], []),
    ("no seccomp", ROOT, BEGINS + "7 setuid(5) = -1 EPERM (Operation not permitted)\n", 1,
     [NO_ROW], []),
    ("SIGCONT within the session", ROOT, BEGINS + "7 fork() = 8\n8 setuid(5) = 0\n"
     "8 kill(7, SIGCONT) = 0\n", 0, ["SIGCONT is also allowed"], []),
    ("SIGCONT to another session", ROOT, BEGINS + "7 fork() = 8\n8 setsid() = 8\n8 setuid(5) = 0\n"
     "8 kill(7, SIGCONT) = 0\n", 1, [NO_ROW], ["SIGCONT is also allowed"]),
    ("no_new_privs and a plain file", ROOT, BEGINS
     + "7 prctl(PR_SET_NO_NEW_PRIVS, 1, 0, 0, 0) = 0\n" + RUNS.format("/bin/sh", 0)
     + "7 getuid() = 5\n", 1, [NO_ROW], ["under no_new_privs"]),
    ("setresuid that changes something", ROOT, BEGINS + "7 setfsuid(5) = 0\n"
     "7 setresuid(5, -1, 5) = 0\n7 setfsuid(-1) = 5\n", 1, [NO_ROW], ["setreuid has no such"]),
    ("setresuid that changes nothing", ROOT, BEGINS + "7 setfsuid(5) = 0\n"
     "7 setresuid(0, -1, 0) = 0\n7 setfsuid(-1) = 5\n", 0, ["setreuid has no such"], []),
    ("no --start", "", BEGINS + "7 getuid() = 1000\n7 geteuid() = 1000\n", 1,
     ["since no --start was given", "line 2 is the first of 2 calls"], [NO_ROW]),
    ("another --start", USER, BEGINS + "7 getuid() = 5\n7 setuid(5) = 0\n7 getuid() = 5\n", 1,
     ["line 2 is the first of 3 calls that differ, and no call before it changed a credential: the "
      "log begins with another one than "], [NO_ROW]),
    ("paths as addresses", ROOT, BEGINS + "7 execve(0x7ff, 0x7ff, 0x7ff) = 0\n", 3,
     ["line 2: execve: its arguments are addresses: record without -e verbose=none and -e raw"],
     []),
    ("addresses", ROOT, BEGINS + "7 capset(0x7ffd0, 0x7ffd8) = 0\n", 3,
     ["line 2: capset: its arguments are addresses: record without -e verbose=none"], []),
    ("numbers", ROOT, BEGINS + "7 prctl(0x8, 0x1) = 0\n", 3,
     ["line 2: prctl: its constants are numbers: record without -X raw or -X verbose"], []),
    ("an early end", ROOT, BEGINS + "7 setns(5, 0) = 0\n7 getuid() = 0\n", 3,
     ["left: 2 of 3 lines of the log, with 1 calls"], []),
    ("a result that strace made up", ROOT, BEGINS + "7 setuid(5) = 0 (INJECTED)\n7 getuid() = 0\n",
     0, ["agree: 2"], []),
    ("pid 1 without a PID namespace", ROOT, BEGINS + "7 fork() = 8\n8 setuid(5) = 0\n"
     "8 kill(1, SIGTERM) = -1 EPERM (Operation not permitted)\n", 0, ["agree: 3"], []),
    ("pid 1 of a PID namespace", ROOT, BEGINS + "7 clone(flags=CLONE_NEWPID|SIGCHLD) = 8\n"
     "8 fork() = 9\n9 setuid(5) = 0\n9 kill(1, SIGTERM) = -1 EPERM (Operation not permitted)\n"
     "9 kill(7, SIGTERM) = -1 ESRCH (No such process)\n", 0, ["agree: 5"], []),
    ("pids of a PID namespace that is entered", ROOT, BEGINS + "7 setns(3, CLONE_NEWPID) = 0\n"
     "7 fork() = 8\n8 setuid(5) = 0\n8 kill(7, SIGTERM) = 0\n", 0, ["agree: 3"], []),
    ("a map after a program was executed", ROOT, BEGINS
     + "7 clone(flags=CLONE_NEWUSER|SIGCHLD) = 8\n" + RUNS.replace("7 ", "8 ").format("/bin/sh", 0)
     + '7 openat(AT_FDCWD, "/proc/8/uid_map", O_WRONLY) = 3\n7 write(3, "0 0 1", 5) = 5\n', 3,
     ["user 0 becomes root of the namespace, and has executed a program there at line 3"], []),
    ("another user's map after a program was executed", ROOT, BEGINS
     + "7 clone(flags=CLONE_NEWUSER|SIGCHLD) = 8\n" + RUNS.replace("7 ", "8 ").format("/bin/sh", 0)
     + '7 openat(AT_FDCWD, "/proc/8/uid_map", O_WRONLY) = 3\n7 write(3, "0 5 1", 5) = 5\n'
     "8 capget({version=_LINUX_CAPABILITY_VERSION_3, pid=0}, "
     "{effective=0, permitted=0, inheritable=0}) = 0\n", 0, ["agree: 3"], []),
    ("nobody is root of a namespace", ROOT, BEGINS
     + "7 setresuid(4294967294, 4294967294, 4294967294) = 0\n7 unshare(CLONE_NEWUSER) = 0\n"
     + RUNS.format("/bin/sh", 0) + "7 capget({version=_LINUX_CAPABILITY_VERSION_3, pid=0}, "
     "{effective=0, permitted=0, inheritable=0}) = 0\n", 0, ["agree: 4"], []),
    ("a capability that doesn't count for a file", ROOT, BEGINS + "7 setuid(1000) = 0\n"
     '7 unshare(CLONE_NEWUSER) = 0\n7 open("/home/tool", O_WRONLY) = ' + REFUSED + "\n", 0,
     [COUNTS, "here: the file's owner or group isn't mapped"], ["looks at the kind"]),
    ("a capability that doesn't count for a task", ROOT, BEGINS + "7 fork() = 8\n8 setuid(5) = 0\n"
     "8 unshare(CLONE_NEWUSER) = 0\n8 kill(7, SIGTERM) = -1 EPERM (Operation not permitted)\n", 0,
     [COUNTS], [NO_ROW]),
    ("who made the target's namespace", ROOT, BEGINS + "7 fork() = 8\n7 setuid(5) = 0\n"
     "8 setresuid(6, 5, 6) = 0\n8 unshare(CLONE_NEWUSER) = 0\n7 kill(8, SIGTERM) = 0\n", 0,
     [COUNTS], [NO_ROW]),
    ("a thread's execve by -ff", ROOT, BEGINS
     + "7 clone(child_stack=NULL, flags=CLONE_VM|CLONE_FS|CLONE_FILES|CLONE_THREAD) = 8\n"
     '8 execve("/bin/sh", [], 0x7 /* 9 vars */ <pid changed to 7 ...>\n'
     "7 +++ superseded by execve in pid 8 +++\n7 <... execve resumed>) = 0\n7 getuid() = 0\n", 0,
     ["agree: 4"], []),
    ("a call that nothing is known of", ROOT, BEGINS + "7 ???() = ?\n7 getuid() = 0\n", 0,
     ["agree: 2"], []),
    ("the user namespace of another namespace", ROOT, BEGINS
     + '7 openat(AT_FDCWD, "/proc/self/ns/user", O_RDONLY) = 3\n7 ioctl(4, NS_GET_USERNS) = 3\n'
     "7 setns(3, 0) = 0\n", 3, [namespace_entries.UNKNOWN_KIND], []),
    ("a user namespace that is entered by its descriptor alone", ROOT, BEGINS
     + "7 fork() = 8\n8 unshare(CLONE_NEWUSER) = 0\n"
     '7 openat(AT_FDCWD, "/proc/8/ns/user", O_RDONLY) '
     "= 3\n7 setns(3, 0) = 0\n7 getuid() = 65534\n7 capget({version=_LINUX_CAPABILITY_VERSION_3, "
     "pid=0}, {effective=0x1ffffffffff, permitted=0x1ffffffffff, inheritable=0}) = 0\n".replace(
         "0x1ffffffffff", ALL), 0, ["agree: 4"], []),
    ("one of which only strace tells the kind", ROOT, BEGINS
     + "7 setns(3<user:[4026532000]>, 0) = 0\n", 3, [namespace_entries.UNKNOWN], []),
    ("a thread that changes while another asks about their process", ROOT, BEGINS
     + "7 setreuid(1001, -1) = 0\n" + THREAD.format(8)
     + "7 prctl(PR_GET_DUMPABLE <unfinished ...>\n"
     "8 setresuid(-1, 1000, -1) = 0\n7 <... prctl resumed>) = 0 (SUID_DUMP_DISABLE)\n", 0,
     ["the log: line 5 changes the process of t1 while this call is under way"], [NO_ROW]),
    ("a change of a file that another process executes then", ROOT, BEGINS + "7 fork() = 8\n"
     "7 capset({version=_LINUX_CAPABILITY_VERSION_3, pid=0}, {effective=1<<CAP_CHOWN, "
     'permitted=1<<CAP_CHOWN, inheritable=0}) = 0\n7 chown("/bin/own", 5, -1) = ' + DENIED + "\n"
     + RUNS.replace("7 ", "8 ").format("/bin/own", 0) + '8 chmod("/home/tool", 0700) = ' + DENIED
     + "\n", 0, ["CAP_CHOWN is enough for a chown", "agree: 5 calls"], [NO_ROW]),
    ("a network namespace", ROOT, BEGINS + "7 setns(3<net:[4026532000]>, 0) = 0\n7 getuid() = 0\n",
     0, ["agree: 2"], []),
    ("looks into other tasks", ROOT, BEGINS + "7 fork() = 8\n7 fork() = 9\n8 setuid(5) = 0\n"
     "8 kcmp(8, 7, KCMP_VM, 0, 0) = -1 EPERM (Operation not permitted)\n"
     "8 ptrace(PTRACE_ATTACH, 9) = -1 EPERM (Operation not permitted)\n"
     '8 readlink("/proc/7/exe", 0x7ffe, 64) = -1 EACCES (Permission denied)\n'
     '7 readlink("/proc/8/exe", "/bin/sh", 64) = 7\n'
     '7 openat(AT_FDCWD, "/proc/9/maps", O_RDONLY) = 3\n'
     "7 process_vm_readv(8, [{iov_base=0x7ff, iov_len=1}], 1, [], 1, 0) = 1\n"
     '8 readlink("/proc/self/exe", "/bin/sh", 64) = 7\n', 0, ["agree: 10"], []),
    ("creations of a PID namespace that are under way at a time", ROOT, BEGINS
     + "7 unshare(CLONE_NEWPID) = 0\n7 fork() = 8\n" + THREAD.replace("7 ", "8 ", 1).format(2)
     + "8 fork( <unfinished ...>\n9 fork() = 3\n8 <... fork resumed>) = 4\n10 setuid(5) = 0\n"
     "11 getuid() = 0\n10 getuid() = 5\n", 0, ["agree: 8"], ["left: "]),
    ("a map with the end of its string", ROOT, BEGINS
     + "7 clone(flags=CLONE_NEWUSER|SIGCHLD) = 8\n"
     '7 openat(AT_FDCWD, "/proc/8/uid_map", O_RDWR) = 3\n7 write(3, "0 5 1\\n\\0", 7) = 7\n'
     "8 setuid(0) = 0\n8 getuid() = 0\n", 0, ["agree: 3"], []),
    ("a look into a task that executes a program meanwhile", ROOT, BEGINS + "7 setuid(1000) = 0\n"
     '7 prctl(PR_SET_DUMPABLE, SUID_DUMP_USER) = 0\n7 fork() = 8\n'
     '8 execve("/bin/su", [], 0x7 /* 9 vars */ <unfinished ...>\n'
     "7 kcmp(7, 8, KCMP_VM, 0, 0) = -1 EPERM (Operation not permitted)\n"
     "8 <... execve resumed>) = 0\n8 geteuid() = 0\n", 0,
     ["agree: 6", "the log: line 5 changes t2 while this call is under way"],
     ["one rule for each look"]),
    ("a look into a task whose execve fails meanwhile", ROOT, BEGINS + "7 setuid(1000) = 0\n"
     '7 prctl(PR_SET_DUMPABLE, SUID_DUMP_USER) = 0\n7 fork() = 8\n'
     '8 execve("/bin/gone", [], 0x7 /* 9 vars */ <unfinished ...>\n'
     "7 kcmp(7, 8, KCMP_VM, 0, 0) = -1 EPERM (Operation not permitted)\n"
     "8 <... execve resumed>) = -1 ENOENT (No such file or directory)\n8 geteuid() = 1000\n", 0,
     ["one rule for each look"], ["while this call is under way"]),
    ("a number in the host's /proc", ROOT, BEGINS + "7 unshare(CLONE_NEWPID) = 0\n7 fork() = 8\n"
     "8 setuid(5) = 0\n8 fork() = 2\n"
     '9 readlink("/proc/1/exe", 0x7ffe, 64) = -1 EACCES (Permission denied)\n', 0, ["agree: 4"],
     ["one rule for each look"]),
    ("a number in a /proc of its own", ROOT, BEGINS + "7 unshare(CLONE_NEWPID) = 0\n7 fork() = 8\n"
     '8 mount("proc", "/proc", "proc", 0, NULL) = 0\n8 fork() = 2\n8 setuid(5) = 0\n'
     '9 readlink("/proc/1/exe", "/bin/sh", 64) = 7\n', 0, ["agree: 5"], []),
    ("a number in a /proc of its own by fsmount", ROOT, BEGINS + "7 unshare(CLONE_NEWPID) = 0\n"
     '7 fork() = 8\n8 fsopen("proc", FSOPEN_CLOEXEC) = 3\n8 fsmount(3, FSMOUNT_CLOEXEC, 0) = 4\n'
     '8 move_mount(4, "", AT_FDCWD, "/proc", MOVE_MOUNT_F_EMPTY_PATH) = 0\n8 fork() = 2\n'
     '8 setuid(5) = 0\n9 readlink("/proc/1/exe", "/bin/sh", 64) = 7\n', 0, ["agree: 5"], []),
    ("what a filter refused changes nothing", ROOT, BEGINS
     + "7 prctl(PR_SET_SECCOMP, SECCOMP_MODE_FILTER, {len=1}) = 0\n"
     "7 setuid(5) = -1 EPERM (Operation not permitted)\n7 getuid() = 0\n", 0,
     ["agree: 2 calls, explained by docs/LINUX.md: 1,", "the log: line 2 of it"], []),
    ("another process changes a file", ROOT, BEGINS + "7 fork() = 8\n7 fork() = 9\n"
     + RUNS.replace("7 ", "8 ").format("/bin/su", 0) + '9 chmod("/bin/su", 0755) = 0\n'
     + RUNS.replace("7 ", "8 ").format("/bin/su", 0), 3, ["line 5 changes /bin/su"], []),
    ("a nosuid mount", ROOT, BEGINS + "7 setuid(5) = 0\n" + RUNS.format("/mnt/su", 0)
     + "7 geteuid() = 5\n", 0, ["agree: 4"], []),
    ("a nosuid mount that is mounted again without", ROOT, BEGINS
     + '7 mount("/mnt", "/home", NULL, MS_BIND, NULL) = 0\n'
     '7 mount(NULL, "/home", NULL, MS_REMOUNT|MS_BIND, NULL) = 0\n7 setuid(5) = 0\n'
     + RUNS.format("/home/su", 0) + "7 geteuid() = 0\n", 0, ["agree: 4"], []),
    ("strace detaches", ROOT, BEGINS + "7 setuid(5) = 0\n7 vfork( <unfinished ...>\n"
     "8 getuid() = 5\n7 <... vfork resumed> <detached ...>\n8 vfork( <detached ...>\n", 0,
     ["agree: 4"], ["left: "]),
    ("strace is killed in a fork", ROOT, BEGINS + "7 clone(child_stack=NULL, flags=SIGCHLD "
     "<unfinished ...>\n8 setuid(5) = 0\n8 getuid() = 5\n", 0, ["agree: 4"], ["left: "]),
    ("a parent that is killed in a vfork", ROOT, BEGINS + "7 vfork( <unfinished ...>\n"
     "8 setuid(5) = 0\n7 +++ killed by SIGKILL +++\n8 getuid() = 5\n", 0, ["agree: 4"], ["left: "]),
    ("strace is killed in two forks", ROOT, BEGINS + "7 fork() = 8\n8 vfork( <unfinished ...>\n"
     "7 vfork( <unfinished ...>\n9 setuid(5) = 0\n9 getuid() = 5\n", 3,
     ["agree: 2", "left: the calls of 1 tasks"], []),
    ("a thread's own filesystem id", ROOT, BEGINS
     + "7 clone(child_stack=NULL, flags=CLONE_VM|CLONE_FS|CLONE_FILES|CLONE_THREAD) = 8\n"
     "8 setfsgid(5) = 0\n8 exit(0) = ?\n7 unshare(CLONE_NEWUSER) = 0\n"
     '7 openat(AT_FDCWD, "/proc/self/gid_map", O_WRONLY) = 3\n7 write(3, "0 0 1", 5) = 5\n'
     "7 setfsgid(0) = 0\n", 0, ["agree: 4"], []),
    ("a pidfd by clone", ROOT, BEGINS + "7 clone(child_stack=NULL, flags=CLONE_PIDFD|CLONE_NEWUSER|"
     "SIGCHLD, parent_tid=[3<anon_inode:[pidfd]>]) = 8\n7 setns(3<anon_inode:[pidfd]>, "
     "CLONE_NEWUSER) = 0\n7 getuid() = 65534\n", 0, ["agree: 2"], []),
    ("a pidfd by clone3", ROOT, BEGINS + "7 clone3({flags=CLONE_PIDFD|CLONE_NEWUSER, pidfd=0x7ffd, "
     "exit_signal=SIGCHLD, stack=NULL, stack_size=0} => {pidfd=[3]}, 88) = 8\n"
     "7 setns(3, CLONE_NEWUSER) = 0\n7 getuid() = 65534\n", 0, ["agree: 2"], []),
    ("tasks that nobody made", ROOT, BEGINS + "8 getuid() = 0\n", 3,
     ["left: the calls of 1 tasks that no call made"], []),
    ("the status of who wrote it down", "Pid:\t5\n" + ROOT, BEGINS + "7 getuid() = 0\n", 0,
     ["agree: 2"], []),
    ("a thread that goes on before the last", ROOT, BEGINS
     + "7 clone(child_stack=NULL, flags=CLONE_VM|CLONE_FS|CLONE_FILES|CLONE_THREAD) = 8\n"
     "8 setuid(5) = 0\n8 getuid() = 5\n7 setuid(5) = 0\n", 0, ["agree: 4"], []),
    ("one thread alone", ROOT, BEGINS + THREAD.format(8)
     + "8 setuid(5) = 0\n8 getuid() = 5\n7 getuid() = 0\n", 0, ["agree: 5"], ["left: "]),
    ("threads that leave by themselves", ROOT, BEGINS + THREAD.format(8) + THREAD.format(9)
     + "8 setresuid(5, 5, 5) = 0\n9 setresuid(6, 6, 6) = 0\n8 setuid(0) = " + DENIED
     + "\n7 setgid(7) = 0\n9 getuid() = 6\n8 getgid() = 0\n7 getegid() = 7\n", 0,
     ["agree: 10"], ["left: "]),
    ("libc's call that one thread can't make", ROOT, BEGINS + THREAD.format(8)
     + "8 setresuid(5, 5, 5) = 0\n8 setresuid(7, 7, 7) = " + DENIED
     + "\n7 setresuid(7, 7, 7) = 0\n7 getuid() = 7\n8 getuid() = 5\n", 0, ["agree: 7"], []),
    ("libc's call, between whose parts a thread does more", ROOT, BEGINS + THREAD.format(8)
     + THREAD.format(9) + "8 setuid(5) = 0\n9 getuid() = 0\n7 getuid() = 0\n9 setuid(5) = 0\n"
     "7 setuid(5) = 0\n8 getuid() = 5\n9 getuid() = 5\n", 0, ["agree: 8"], []),
    ("the same call by each thread at its time", ROOT, BEGINS + THREAD.format(8)
     + "8 setuid(5) = 0\n8 getuid() = 5\n7 getuid() = 0\n7 setuid(5) = 0\n", 0,
     ["agree: 6"], []),
    ("a thread that is made in the middle", ROOT, BEGINS + THREAD.format(8)
     + "8 setuid(5) = 0\n" + THREAD.format(9) + "7 setuid(5) = 0\n9 getuid() = 0\n"
     "8 getuid() = 5\n", 0, ["agree: 7"], []),
    ("what a chown takes", ROOT, BEGINS + CHILD.format(8, "/srv/prober", HAS) + OWNED
     + CHILD.format(9, "/srv/link", LACKS), 0, ["agree: 10"], ["left: "]),
    ("what stat tells after a chown", ROOT, BEGINS + STAT.format("/srv/link", "0755", 0, 0) + OWNED
     + STAT.format("/srv/link", "0755", 1000, 1000), 0, ["agree: 3"], []),
    ("what stat tells otherwise", ROOT, BEGINS + OWNED
     + STAT.format("/srv/prober", "S_ISUID|0755", 1000, 1000), 1, [NO_ROW], []),
    ("what getxattr tells after a chown", ROOT, BEGINS + OWNED + '7 getxattr("/srv/prober", '
     '"security.capability", 0x7ffe, 24) = -1 ENODATA (No data available)\n', 0, ["agree: 3"], []),
    ("a stranger's chmod", ROOT, BEGINS + "7 fork() = 8\n8 setuid(1001) = 0\n"
     '8 fchmodat(AT_FDCWD, "/srv/prober", 0777) = ' + DENIED + "\n" + OWNED
     + '8 openat(AT_FDCWD, "/srv/prober", O_RDONLY) = 3\n8 fchmod(3, 04755) = ' + DENIED + "\n",
     0, ["agree: 7"], []),
    ("a name more", ROOT, BEGINS + '7 link("/srv/prober", "/srv/again") = 0\n'
     '7 setxattr("/srv/again", "security.capability", "\\1\\0\\0\\2\\0\\4\\0\\0\\0\\0\\0\\0\\0\\0'
     '\\0\\0\\0\\0\\0", 20, 0) = 0\n' + CHILD.format(8, "/srv/prober", "1<<CAP_NET_BIND_SERVICE")
     + '7 unlink("/srv/prober") = 0\n7 removexattr("/srv/again", "security.capability") = 0\n'
     + CHILD.format(9, "/srv/again", LACKS), 0, ["agree: 11"], ["left: "]),
    ("a chown that keeps both ids", ROOT, BEGINS + '7 chown("/srv/kept", -1, -1) = 0\n'
     + STAT.format("/srv/kept", "0755", 0, 0), 0,
     ["a chown that keeps both ids changes nothing", "it takes set-id bits"], [NO_ROW]),
    ("a chown of a set-user-ID file by who has CAP_CHOWN alone", ROOT, BEGINS
     + '7 chown("/srv/kept", 5, 5) = ' + DENIED + "\n", 0, ["CAP_CHOWN is enough"], [NO_ROW]),
    ("bytes that are no attribute", ROOT, BEGINS + "7 fork() = 8\n8 setuid(5) = 0\n8 setxattr("
     '"/srv/prober", "security.capability", "\\1", 1, 0) = -1 EINVAL (Invalid argument)\n', 0,
     ["setxattr of bytes that are no attribute"], [NO_ROW]),
    ("a file that isn't mapped", ROOT, BEGINS + "7 setuid(1000) = 0\n7 unshare(CLONE_NEWUSER) = 0\n"
     '7 chmod("/home/tool", 0777) = ' + DENIED + "\n", 0,
     ["chown, chmod and setxattr ask for their capability alone"], [NO_ROW]),
    ("a set-user-ID program of who isn't mapped", USER, BEGINS + "7 unshare(CLONE_NEWUSER) = 0\n"
     '7 openat(AT_FDCWD, "/proc/self/uid_map", O_WRONLY) = 3\n7 write(3, "5 1000 1", 8) = 8\n'
     + RUNS.format("/bin/su", 0) + "7 geteuid() = 5\n7 capget({version="
     "_LINUX_CAPABILITY_VERSION_3, pid=0}, {effective=0, permitted=0, inheritable=0}) = 0\n", 0,
     ["agree: 4 calls, explained by docs/LINUX.md: 0"], []),
    ("an attribute with 0x before it", ROOT, BEGINS + CHILD.format(8, "/bin/hex", HAS), 0,
     ["agree: 5"], []),
    ("who runs already is dumpable", USER, "7 prctl(PR_GET_DUMPABLE) = 1\n7 getuid() = 1000\n", 0,
     ["agree: 2"], []),
    ("who enters a namespace stays dumpable", USER, BEGINS + "7 unshare(CLONE_NEWUSER) = 0\n"
     "7 prctl(PR_GET_DUMPABLE) = 1\n7 prctl(PR_SET_DUMPABLE, SUID_DUMP_DISABLE) = 0\n"
     "7 unshare(CLONE_NEWUSER) = 0\n7 prctl(PR_GET_DUMPABLE) = 0\n", 0, ["agree: 4"], []),
    ("a saved id by CAP_SETUID, in a namespace", ROOT, BEGINS
     + "7 prctl(PR_SET_SECUREBITS, SECBIT_NO_SETUID_FIXUP) = 0\n7 setresuid(0, 100, 100) = 0\n"
     "7 setuid(0) = 0\n7 unshare(CLONE_NEWUSER) = 0\n"
     '7 openat(AT_FDCWD, "/proc/self/uid_map", O_WRONLY) = 3\n7 write(3, "0 0 1", 5) = 5\n'
     "7 getresuid([0], [0], [0]) = 0\n", 0, ["agree: 5"], []),
    ("a saved id without it", ROOT, BEGINS
     + "7 prctl(PR_SET_SECUREBITS, SECBIT_NO_SETUID_FIXUP) = 0\n7 setresuid(0, 100, 100) = 0\n"
     "7 capset({version=_LINUX_CAPABILITY_VERSION_3, pid=0}, "
     "{effective=0, permitted=0, inheritable=0}) = 0\n7 setuid(0) = 0\n"
     "7 unshare(CLONE_NEWUSER) = 0\n"
     '7 openat(AT_FDCWD, "/proc/self/uid_map", O_WRONLY) = 3\n7 write(3, "5 100 1", 7) = 7\n'
     "7 getresuid([65534], [65534], [5]) = 0\n", 0, ["agree: 6"], []),
    ("a row that holds for all threads", ROOT, BEGINS + FIXED + THREAD.format(8)
     + "".join(f"{one} {call} = 0\n" for call in ("setuid(5)", "setgid(6)") for one in (8, 7))
     + "8 getgid() = 6\n", 0, [BITS], [NO_ROW]),
    ("a file that only the kernel changes", ROOT, BEGINS + FIXED + "7 setuid(5) = 0\n"
     '7 chmod("/srv/kept", 0700) = 0\n' + STAT.format("/srv/kept", "0700", 0, 0), 0,
     [BITS], [NO_ROW]),
    ("what CAP_SETGID decides", ROOT, BEGINS + FIXED + "7 setresuid(0, 5, 0) = 0\n7 setgid(6) = 0\n"
     "7 setresuid(5, 5, 5) = 0\n7 setgid(7) = 0\n7 getgid() = 7\n", 0, [BITS], [NO_ROW]),
    ("threads that only the program ends", ROOT, BEGINS + FIXED + THREAD.format(8)
     + "8 setresuid(5, 5, 5) = 0\n7 setresuid(5, 5, 5) = 0\n8 capset({version="
     "_LINUX_CAPABILITY_VERSION_3, pid=0}, {effective=1<<CAP_SETUID, permitted=1<<CAP_SETUID, "
     "inheritable=0}) = 0\n8 setuid(7) = 0\n7 setuid(7) = 0\n8 getuid() = 7\n7 getuid() = 7\n", 0,
     [BITS], [NO_ROW]),
    ("what an execve leaves in the ambient set", AMBIENT, RUNS.format("/bin/own", 0)
     + SETS.format("1<<CAP_KILL"), 0, [OWN], [NO_ROW]),
    ("more than an execve leaves in the ambient set", AMBIENT, RUNS.format("/bin/own", 0)
     + SETS.format("1<<CAP_KILL|1<<CAP_CHOWN"), 1, [NO_ROW], [OWN]),
    ("a set-user-ID bit, and a group id", USER, RUNS.format("/bin/su", 0) + "7 getegid() = 7\n", 1,
     [NO_ROW], [TRACED]),
    ("a user's strace, and a plain file", USER.replace("Uid:\t1000\t1000", "Uid:\t1000\t1001"),
     RUNS.format("/bin/sh", 0) + "7 geteuid() = 1000\n", 1, ["the log begins with another one"],
     [TRACED]),
    ("a user's strace, and a group id", USER.replace("Gid:\t1000\t1000", "Gid:\t1000\t1001"),
     RUNS.format("/bin/su", 0) + "7 getegid() = 1000\n", 0, [TRACED], [NO_ROW]),
    ("another process changes a file, and the list tells what it was", ROOT, BEGINS
     + "7 fork() = 8\n7 fork() = 9\n8 setuid(1000) = 0\n"
     + RUNS.replace("7 ", "8 ").format("/srv/prober", 0)
     + '9 chown("/srv/prober", 1000, 1000) = 0\n', 3, ["line 6 changes /srv/prober"], []),
]
