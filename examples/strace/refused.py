"""Logs with calls that the kernel refused, and what credtrace-why --log has to tell of each."""

from __future__ import annotations

from dataclasses import dataclass, field

from texts import BEGINS
from told import DENIED, REFUSED, ROOT, THREAD, USER

# A user whom the machine that is asked about files hardly has.
STRANGER = USER.replace("1000", "54321")
OTHER = USER.replace("1000", "5").replace("CapBnd", "TracerPid:\t{}\nCapBnd")
OWN = "own filter: seccomp(SECCOMP_SET_MODE_FILTER, 0, {len=4, filter=0x7f}) = 0"
EXCLUSIVE = (
    '7 openat(AT_FDCWD, "/srv/made", O_WRONLY|O_CREAT|O_EXCL, 0600) = 3\n'
    '7 fchmod(3, 0755) = 0\n7 execve("/srv/made", [], 0x7 /* 9 vars */) = 0\n'
    '7 setxattr("/srv/made", "security.capability", "\\1\\0\\0\\2\\0 \\0\\0\\0\\0\\0\\0'
    '\\0\\0\\0\\0\\0\\0\\0\\0", 20, 0) = 0\n'
    '7 execve("/srv/made", [], 0x7 /* 9 vars */) = 0\n'
)
ATTRIBUTE = "0100000200200000000000000000000000000000"
# A script file with an attribute, and one of its interpreters, which is a script file too.
SCRIPT_FILES = (
    f"/srv/run reg 0 0 4755 caps {ATTRIBUTE} #! /bin/sh\n/srv/outer reg 0 0 0755 #! /srv/run\n"
    "/srv/plain reg 0 0 0755 #! /bin/sh\n"
)
# Paths through links of a process that isn't of the log, by its folder of /proc.
THROUGH = (
    f'7 openat(AT_FDCWD, "/proc/99/ns/net", O_RDONLY) = {REFUSED}\n'
    f'7 chdir("/proc/99/root") = {REFUSED}\n'
    f'7 openat(AT_FDCWD, "/proc/99/cwd/file", O_RDONLY) = {REFUSED}\n'
    f'7 newfstatat(AT_FDCWD, "/proc/99/task/99/fd/3", 0x7ffe, 0) = {REFUSED}\n'
    '7 openat(AT_FDCWD, "/proc/99", O_RDONLY|O_PATH|O_DIRECTORY) = 3\n'
    f'7 openat(3, "exe", O_RDONLY) = {REFUSED}\n'
)
# What by which error no rule is about.
ENTRIES = (
    f'7 linkat(AT_FDCWD, "/bin/sh", AT_FDCWD, "/tmp/sh", 0) = {DENIED}\n'
    f'7 unlinkat(AT_FDCWD, "/tmp/a", 0) = {DENIED}\n7 mkdir("/proc/a", 0777) = {DENIED}\n'
    f'7 openat(AT_FDCWD, "/gone/a", O_RDONLY|O_NOATIME) = {DENIED}\n'
    f'7 write(3</proc/7/oom_score_adj>, "-1", 2) = {REFUSED}\n'
)
UNNAMED = (
    "7 fchmod(3, 04755) = 0\n7 fchown(3, 0, 0) = 0\n"
    '7 fsetxattr(3, "security.capability", "\\1", 20, 0) = 0\n'
    '7 fsetxattr(3, "user.a", "\\1", 1, 0) = 0\n7 fchmod(4<pipe:[5]>, 0600) = 0\n'
)


@dataclass(frozen=True)
class Case:
    """A log, where it begins, the processes beside it, and what is told, and what isn't."""

    what: str
    start: str
    log: str
    told: list[str]
    untold: list[str] = field(default_factory=list)
    proc: dict[int, str] = field(default_factory=dict)
    words: list[str] = field(default_factory=list)
    # What standard error has to tell; and whether the list of files is given.
    noted: list[str] = field(default_factory=list)
    listed: bool = True


PROBES = "".join(
    f"7 prctl(PR_CAPBSET_READ, {number}) = -1 EINVAL (Invalid argument)\n"
    for number in (0x30, 0x2C)
)
CASES = [
    Case("a script file with an attribute", USER,
         BEGINS + '7 execve("/srv/run", [], 0x7 /* 9 vars */) = 0\n',
         ["no refused calls", 'line 2: pid 7 execve("/srv/run"', "/srv/run is a script "
          "file: its interpreter, sh, is executed in its place, and its set-user-ID bit and its "
          'capability attribute count for nothing. execve(2), "Interpreter scripts"']),
    Case("a script file behind another, by root who has all", ROOT, BEGINS
         + '7 setresuid(1000, 1000, 1000) = 0\n7 execve("/srv/outer", [], 0x7 /* 9 vars */) = 0\n',
         ["/srv/outer is a script file: its interpreter, /srv/run, is executed in its place. "
          "execve", "/srv/run is a script file: its interpreter, sh, is executed"]),
    Case("a script file, of one capability", ROOT,
         BEGINS + '7 execve("/srv/plain", [], 0x7 /* 9 vars */) = 0\n7 setuid(1000) = 0\n',
         ["vanished at"], words=["--cap", "NET_RAW"]),
    Case("a script file without either", USER,
         BEGINS + '7 execve("/srv/plain", [], 0x7 /* 9 vars */) = 0\n',
         ["no refused calls"], ["script file"]),
    Case("a mount without the capability", USER,
         BEGINS + '7 mount("a", "/mnt", "tmpfs", 0, NULL) = ' + DENIED + "\n",
         ["1 refused call:", "line 2: pid 7 mount(",
          "mount(2) asks for CAP_SYS_ADMIN (capabilities(7)), which isn't", "agree: 1 calls"]),
    Case("a mount with it", ROOT, BEGINS + '7 mount("a", "/mnt", "tmpfs", 0, NULL) = ' + DENIED
         + "\n", ["which is effective in t1 there, so", "something else refuses it"]),
    Case("a port below 1024", USER, BEGINS + "7 bind(3, {sa_family=AF_INET, sin_port=htons(80), "
         'sin_addr=inet_addr("0.0.0.0")}, 16) = ' + REFUSED + "\n",
         ["a port below 1024 asks for CAP_NET_BIND_SERVICE", "isn't effective in t1 there"]),
    Case("ping", USER, BEGINS + "7 socket(AF_INET, SOCK_DGRAM, IPPROTO_ICMP) = " + REFUSED + "\n"
         "7 socket(AF_INET, SOCK_RAW, IPPROTO_ICMP) = " + DENIED + "\n",
         ["2 refused calls:", "net.ipv4.ping_group_range", "(icmp(7))",
          "a raw or a packet socket asks for CAP_NET_RAW"]),
    Case("a signal to a process that isn't of the log", USER, BEGINS + "7 kill(99, SIGTERM) = "
         + DENIED + "\n", ["its target 99 isn't a task of the log"]),
    Case("the same where it is known", USER, BEGINS + "7 kill(99, SIGTERM) = " + DENIED + "\n",
         ["t1 signal t2", "1000 and 1000, are neither the target's real",
          "nor its saved user id, 5"],
         ["isn't a task of the log"], {99: OTHER.format(0)}),
    Case("a look into a process that isn't of the log", USER, BEGINS + "7 process_vm_readv(99, "
         "[], 1, [], 1, 0) = " + DENIED + "\n", ["its target, pid 99, isn't a task of the log"]),
    Case("the same where it is known", USER, BEGINS + "7 process_vm_readv(99, [], 1, [], 1, 0) = "
         + DENIED + "\n", ["t1 ptrace real t2", "EPERM"], ["not modelled"], {99: OTHER.format(0)}),
    Case("a process that another traces", ROOT, BEGINS + "7 ptrace(PTRACE_ATTACH, 99) = " + DENIED
         + "\n", ["pid 55 traces t2 already, and a task has one tracer"], ["Yama"],
         {99: OTHER.format(55)}),
    Case("a task that strace traces", ROOT,
         BEGINS + "7 fork() = 8\n7 ptrace(PTRACE_SEIZE, 8, NULL, 0) = " + DENIED + "\n",
         ["strace traces t2 already, and a task has one tracer"], ["Yama"]),
    Case("a task that wants a tracer", ROOT, BEGINS + "7 ptrace(PTRACE_TRACEME) = " + DENIED + "\n",
         ["strace traces this task already"]),
    Case("an execve behind a seccomp filter", ROOT, BEGINS
         + "7 seccomp(SECCOMP_SET_MODE_FILTER, 0, {len=4, filter=0x7f}) = 0\n"
         '7 execve("/bin/own", [], 0x7 /* 9 vars */) = ' + DENIED + "\n",
         ["the log: line 2 of it installs a seccomp filter, which can refuse so"],
         ["not modelled"]),
    Case("another call behind a seccomp filter", ROOT, BEGINS
         + "7 seccomp(SECCOMP_SET_MODE_FILTER, 0, {len=4, filter=0x7f}) = 0\n"
         "7 acct(NULL) = " + DENIED + "\n", ["line 2 of the log installs a seccomp filter"]),
    Case("a call that another task's line breaks off", ROOT, BEGINS + "7 fork() = 8\n"
         "7 acct(NULL <unfinished ...>\n8 getuid() = 0\n7 <... acct resumed>) = " + DENIED + "\n",
         ["line 3: pid 7 acct(NULL) = -1 EPERM", "acct(2) asks for CAP_SYS_PACCT"]),
    Case("a refusal that strace made up", ROOT, BEGINS + "7 acct(NULL) = " + DENIED
         + " (INJECTED)\n", ["no refused calls"], ["not modelled"]),
    Case("refused behind the end of the script", ROOT,
         BEGINS + '7 execve("/bin/none", [], 0x7 /* 9 vars */) = 0\n'
         + "7 setuid(5) = " + DENIED + "\n",
         ["line 3: pid 7 setuid(5) = -1 EPERM", "it stands behind the end of the script"]),
    Case("refused again and again", USER, BEGINS + ("7 acct(NULL) = " + DENIED + "\n") * 3,
         ["3 refused calls:", "refused so 2 times more, last, in line 4"]),
    Case("each by itself", USER, BEGINS + ("7 acct(NULL) = " + DENIED + "\n") * 3,
         ["line 3: pid 7 acct", "line 4: pid 7 acct"], ["times more"], words=["--all"]),
    Case("a task that no call made", ROOT, BEGINS + "9 acct(NULL) = " + DENIED + "\n",
         ["line 2: pid 9 acct(NULL)", "no call of the log made its task"]),
    Case("a call that no rule is about", ROOT, BEGINS + "7 userfaultfd(0) = " + DENIED + "\n",
         ["no rule is about userfaultfd(2); see its ERRORS"]),
    Case("where a capability went", ROOT, BEGINS + "7 setuid(1000) = 0\n",
         ["1 call by which a task lost or gained capabilities:", "line 2: pid 7 setuid(1000) = 0",
          "permitted: all -> none"]),
    Case("the life of one", ROOT, BEGINS + "7 setuid(1000) = 0\n",
         ["CAP_NET_RAW in t1:", "line 2: pid 7 setuid(1000) = 0 (line 4: t1 setuid 1000)",
          "CAP_NET_RAW vanished at line 2"], words=["--cap", "net_raw"]),
    Case("libcap's questions", ROOT, BEGINS + PROBES,
         ["2 questions about capabilities that there aren't (44, 48)", "no refused calls"]),
    Case("links of a process that isn't of the log", USER, BEGINS + THROUGH,
         ["5 refused calls:", "t1 ptrace fs t2", "refused so 2 times more"],
         ["not modelled"], {99: OTHER.format(0)}),
    Case("the same where nothing is known of it", USER, BEGINS + THROUGH,
         ["5 refused calls:", "its target, pid 99, isn't a task of the log"], ["t1 ptrace"]),
    Case("links of a process that may be looked into", USER, BEGINS + THROUGH,
         ["5 refused calls:"], ["t1 ptrace"], {99: USER}),
    Case("the same from a user namespace below", USER, BEGINS + "7 unshare(CLONE_NEWUSER) = 0\n"
         + THROUGH, ["5 refused calls:", "ptrace fs t3"], ["not modelled"], {99: OTHER.format(0)}),
    Case("an entry that no rule is about", USER, BEGINS + ENTRIES,
         ["5 refused calls:", "fs.protected_hardlinks", "a directory with the sticky bit",
          "the file system there makes no such entry", "O_NOATIME is for the owner",
          "to lower this number asks for CAP_SYS_RESOURCE (proc(5))"]),
    Case("an open that makes nothing writes no directory", STRANGER, BEGINS
         + f'7 openat(AT_FDCWD, "PLACE/none", O_RDONLY) = {REFUSED}\n',
         ["what its path leads to isn't known here"], ["t1 check"], listed=False),
    Case("one that makes a file does", STRANGER, BEGINS
         + f'7 openat(AT_FDCWD, "PLACE/none", O_WRONLY|O_CREAT, 0666) = {REFUSED}\n',
         ["t1 check", " wx)", "no w."], ["not modelled"], listed=False),
    Case("groups of which not all are written", USER, BEGINS
         + f"7 setgroups(40, [1, 2, ...]) = {DENIED}\n", ["1 refused call:", "line 2: pid 7 setgr",
                                                          "its arguments, or the ids"]),
    Case("a call that libc has both threads make", USER, BEGINS + THREAD.format(8)
         + f"8 setuid(0) = {DENIED}\n7 setuid(0) = {DENIED}\n7 exit_group(0) = ?\n",
         ["1 refused call:", "line 4: pid 7 setuid(0)", "t1 setuid 0",
          "so were the other threads of its process, in line 3"], ["not modelled"]),
    Case("descriptors of which nothing is known", ROOT, BEGINS + UNNAMED, ["no refused calls"],
         noted=["line 2: 3 calls change files by a descriptor of which the log doesn't tell what "
                "it is of (fchmod, fchown, fsetxattr)"]),
    Case("descriptors that -y tells", ROOT, BEGINS + UNNAMED.replace("(3", "(3</srv/other>"),
         ["no refused calls"], ["by a descriptor"]),
    Case("a family that was traced in part", ROOT,
         BEGINS + "7 close(3) = 0\n7 read(3, 0x7, 1) = 1\n"
         '7 fchown(3</srv/other>, 1, 1) = 0\n7 tkill(7, SIGCONT) = 0\n', ["no refused calls"],
         noted=["of the calls that change a file fchown, and none of chmod, fchmod",
                "of the calls that signal a task tkill, and none of kill, tgkill"]),
    Case("all calls", ROOT, BEGINS + '7 brk(NULL) = 0x7\n7 fchown(3</srv/other>, 1, 1) = 0\n',
         ["no refused calls"], ["only what -e trace"]),
    Case("a file that the log makes", ROOT, BEGINS + EXCLUSIVE, ["agree: 5 calls"],
         ["the script ends"]),
]  # fmt: skip
