"""Texts that examples/strace/check gives to the tools, with what has to come of them."""

from __future__ import annotations

from strace.follow import namespace_entries
from strace.script import credential_lines
from strace.follow.paths import NO_DESCRIPTOR, no_folder

# What is said of a log that is none, or not a whole one.
BEGINS = '7 execve("/bin/sh", ["sh"], 0x7ffd /* 9 vars */) = 0\n'
CUT = "the log is cut in the middle of this line"
NO_LINE = "this is no line of strace -f"
NO_END = "this call has no end: the line is cut, or another text is mixed in"
NOT_READ = "the arguments or the result of setuid can't be read"
NOT_BEGUN = "goes on with a call of {}, which it hasn't begun"
NO_PID = "it has no pid, and more than one process is there, or none"
HOSTILE = [
    ("an empty file", "", "line 1: the log has no call"),
    ("a line without its end", "7 setuid(1000) = 0", f"line 1: {CUT}"),
    ("a call without its result", f"{BEGINS}7 setuid(10\n7 getuid() = 0\n", f"line 2: {NO_END}"),
    (
        "a call that goes on as another one",
        f"{BEGINS}7 setuid(5 <unfinished ...>\n7 <... setgid resumed>) = 0\n",
        f"line 3: pid 7 {NOT_BEGUN.format('setgid')}",
    ),
    (
        "the end of a call alone",
        f"{BEGINS}8 <... setuid resumed>) = 0\n",
        f"line 2: pid 8 {NOT_BEGUN.format('setuid')}",
    ),
    (
        "two calls of one task at a time",
        f"{BEGINS}7 setuid(5 <unfinished ...>\n7 setuid(6) = 0\n",
        "line 3: pid 7 hasn't ended its call of line 2 yet",
    ),
    ("the program's output", f"{BEGINS}uid=0(root)\n7 getuid() = 0\n", f"line 2: {NO_LINE}"),
    ("a log of ltrace", "[pid 7] SYS_brk(0) = 0x5581\n", f"line 1: {NO_LINE}"),
    ("a script", "init t1 p1 0 0 n0\nt1 setuid 5\n", f"line 1: {NO_LINE}"),
    ("a line of dmesg", "[    0.000000] Linux version 6.18\n", f"line 1: {NO_LINE}"),
    ("bytes of a program", "\x7fELF\x02\x01\x01\x00\x00\n", f"line 1: {NO_LINE}"),
    ("open brackets", f"{BEGINS}7 setuid({'(' * 5000} = 0\n", f"line 2: {NOT_READ}"),
    ("a result that is none", f"{BEGINS}7 setuid(5) = zero\n", f"line 2: {NOT_READ}"),
    ("a result of many digits", f"{BEGINS}7 setuid(5) = {'9' * 5000}\n", f"line 2: {NOT_READ}"),
    ("a pid of many digits", f"[pid {'9' * 40}] setuid(5) = 0\n", f"line 1: {'9' * 20} is no pid"),
    (
        "two processes and no pid",
        '[pid 7] execve("/bin/sh", [], 0x7 /* 9 vars */) = 0\n[pid 8] getuid() = 0\ngetuid() = 0\n',
        f"line 3: {NO_PID}",
    ),
]

# What a script can't hold: a log, the line at which the script ends, and why.
FORKS = "".join(f"7 fork() = {pid}\n" for pid in range(100, 164))
GROUPS = ", ".join(map(str, range(1025)))
ENDS = [
    ("a line without its end", f"{BEGINS}7 setuid(1000) = 0", f"line 2: {CUT}"),
    ("64 tasks", BEGINS + FORKS, "line 65: a script holds 64 tasks that live"),
    # The script has a line for the file and one that begins, and then one for each of the log.
    (
        "20,000 lines",
        BEGINS + "7 setuid(0) = 0\n" * 20_000,
        "line 19999: a script holds 20000 lines",
    ),
    (
        "1,024 groups",
        f"{BEGINS}7 setgroups(1025, [{GROUPS}]) = 0\n",
        "line 2: setgroups: 1025 groups (docs/LINUX.md: at most 1,024 groups, else EINVAL)",
    ),
    (
        "a namespace that isn't known",
        f"{BEGINS}7 setns(5, CLONE_NEWUSER) = 0\n",
        f"line 2: setns: {namespace_entries.UNKNOWN}",
    ),
    (
        "a file that isn't listed",
        f'{BEGINS}7 execve("/bin/ls", ["ls"], 0x7ffd /* 9 vars */) = 0\n',
        "line 2: execve: /bin/ls isn't in the list of files",
    ),
]

# Eight lines of what long logs are full of.
LONG = (
    '7 openat(AT_FDCWD, "/usr/share/doc", O_RDONLY) = 3\n'
    '7 newfstatat(3, "", {st_mode=S_IFDIR|0755, st_size=4096, ...}, AT_EMPTY_PATH) = 0\n'
    + '7 read(3, "text"..., 1024) = 1024\n' * 3 + "7 getdents64(3, [], 32768) = 0\n"
    "7 close(3) = 0\n7 futex(0x7f0, FUTEX_WAKE_PRIVATE, 1) = 0\n"
)  # fmt: skip

# A line of a script, the test that it fails, and what is told of its form.
BAD_LINES = [
    ("t1 setresuid 5 5", "count", "T setresuid ARG ARG ARG", "Word 5, the ARG, lacks."),
    ("t1 setuid 5 6", "count", "T setuid ARG", "Word 4, `6`, is too many."),
    ("t1 setgroups -1", "word", "T setgroups ID ...", "Word 3, `-1`, is no ID."),
    ("t1 capset 0 0 zz", "word", "T capset SET SET SET", "Word 5, `zz`, is no SET."),
    ("t1 capset CAP_NET_RAW none zz", "word", "T capset", "Word 5, `zz`, is no SET."),
    ("t1 ambraise net_raw", "word", "T ambraise CAP", "is no CAP. Is CAP_NET_RAW meant?"),
    ("t1 setuid 05", "word", "T setuid ARG", "is no ARG. Is 5 meant?"),
    ("t1 setuid root", "word", "T setuid ARG", "Word 3, `root`, is no ARG."),
    ("t1 exec nofile", "name", "T exec NAME", "No line above declares `nofile`."),
    ("t1 setrsuid 5", "word", "No form", "Is setfsuid or setresuid or setreuid meant?"),
    ("t1 frobnicate 5", "word", "No form of docs/FORMATS.md begins so.", ""),
    ("t1 setuid 5 # leaves", "count", "T setuid ARG", "A comment is a line of its own"),
    ("begin t1 setuid", "count", "begin T setuid ARG", "Word 4, the ARG, lacks."),
    ("init t2 p2 0 0 n1", "name", "init T P ID ID N", "`ns 1 ROOT PARENT` would."),
    ("init t2 p2 0 0 1", "word", "init T P ID ID N", "`1`, is no N. Is n1 meant?"),
    ("file a reg 0 0 755", "word", "file NAME KIND", "`755`, is no MODE. Is 0755 meant?"),
    ("file a reg 0 0 0755 caps zz", "word", "file NAME KIND", "Word 8, `zz`, is no HEX."),
    ("file a file 0 0 0755", "word", "file NAME KIND", "`file`, is no KIND. Is reg meant?"),
    ("t1\tcaps", "byte", "Byte 3 of the line is 0x09.", ""),
]

# Logs of which only the file system knows the files: FOLDER is a folder that has a root of its own,
# `jail`, where `bin` is a link to `/usr/bin` and `usr/bin/tool` is set-user-ID, and `usr/bin/tool`
# beside it, which is plain. What is said, or the `file` line of the tool.
AT = "7 chdir(\"FOLDER\") = 0\n"
TOOL = '7 execve("{}", [], 0x7 /* 9 vars */) = 0\n'
MOUNTS = '8 mount("FOLDER/jail/usr", "FOLDER/usr", NULL, MS_BIND, NULL) = 0\n'
SEEN = '{} mount(NULL, "/", NULL, MS_REC|{}, NULL) = 0\n'
CHILD_MOUNTS = "7 fork() = 8\n8 unshare(CLONE_NEWNS) = 0\n{}" + MOUNTS
PLACES = [
    ("a path", TOOL.format("FOLDER/usr/bin/tool"), "0755"),
    ("a root", '7 chroot("FOLDER/jail") = 0\n' + TOOL.format("/bin/tool"), "4755"),
    ("a root and a folder", f'{AT}7 chroot("jail") = 0\n7 chdir("/usr/bin") = 0\n'
     + TOOL.format("./tool"), "4755"),
    ("above a root", '7 chroot("FOLDER/jail") = 0\n' + TOOL.format("/../../bin/tool"), "4755"),
    ("a link and above", '7 chroot("FOLDER/jail") = 0\n7 chdir("/bin") = 0\n'
     + TOOL.format("../bin/tool"), "4755"),
    ("a link behind a descriptor", '7 chroot("FOLDER/jail") = 0\n'
     '7 openat(AT_FDCWD, "/bin/tool", O_RDONLY) = 3\n'
     '7 execveat(3, "", [], 0x7 /* 9 vars */, AT_EMPTY_PATH) = 0\n', "4755"),
    ("a relative path", TOOL.format("jail/usr/bin/tool"), no_folder("jail/usr/bin/tool", 7)),
    ("a folder", AT + TOOL.format("usr/bin/tool"), "0755"),
    ("a descriptor's folder", '7 openat(AT_FDCWD, "FOLDER/jail", O_PATH) = 3\n7 fchdir(3) = 0\n'
     + TOOL.format("usr/bin/tool"), "4755"),
    ("an unknown folder", "7 fchdir(3) = 0\n" + TOOL.format("tool"), no_folder("tool", 7)),
    ("a new root", f'{AT}7 pivot_root("jail", "jail") = 0\n' + TOOL.format("/bin/tool"), "4755"),
    ("a bind", '7 mount("FOLDER/jail", "FOLDER/usr", NULL, MS_BIND, NULL) = 0\n'
     + TOOL.format("FOLDER/usr/usr/bin/tool"), "4755"),
    ("a nosuid mount",
     '7 mount("none", "FOLDER/usr", NULL, MS_REMOUNT|MS_BIND|MS_NOSUID, NULL) = 0\n'
     + TOOL.format("FOLDER/usr/bin/tool"), "0755 nosuid"),
    ("a mount of other owners", '7 open_tree(AT_FDCWD, "FOLDER/jail", OPEN_TREE_CLONE) = 3\n'
     '7 mount_setattr(3, "", AT_EMPTY_PATH, {attr_set=MOUNT_ATTR_IDMAP, attr_clr=0, propagation=0, '
     'userns_fd=4}, 32) = 0\n7 move_mount(3, "", AT_FDCWD, "FOLDER/usr", MOVE_MOUNT_F_EMPTY_PATH) '
     "= 0\n" + TOOL.format("FOLDER/usr/usr/bin/tool"), "through the mount that line 2 changes"),
    ("a mount that isn't nosuid any more",
     '7 mount("none", "FOLDER/usr", NULL, MS_REMOUNT|MS_BIND|MS_NOSUID|MS_NOEXEC, NULL) = 0\n'
     '7 mount_setattr(AT_FDCWD, "FOLDER/usr", 0, {attr_set=0, attr_clr=MOUNT_ATTR_NOSUID, '
     'propagation=0, userns_fd=0}, 32) = 0\n' + TOOL.format("FOLDER/usr/bin/tool"), "0755"),
    ("a tmpfs", '7 mount("none", "FOLDER/usr", "tmpfs", 0, NULL) = 0\n'
     + TOOL.format("FOLDER/usr/bin/tool"), "lies on what line 1 mounts or enters"),
    ("another mount namespace", "7 setns(3, CLONE_NEWNS) = 0\n" + TOOL.format("/bin/tool"),
     "lies on what line 1 mounts or enters"),
    ("a child's own root", "7 clone(child_stack=NULL, flags=SIGCHLD) = 8\n"
     '8 chroot("FOLDER/jail") = 0\n' + TOOL.format("FOLDER/usr/bin/tool"), "0755"),
    ("a root that is shared", "7 clone(child_stack=NULL, flags=CLONE_FS|SIGCHLD) = 8\n"
     '8 chroot("FOLDER/jail") = 0\n' + TOOL.format("/bin/tool"), "4755"),
    ("a change", TOOL.format("FOLDER/usr/bin/tool") + '7 chmod("FOLDER/usr/bin/tool", 0755) = 0\n',
     "line 2 changes FOLDER/usr/bin/tool, and of what it was before that nobody tells the"),
    ("a change before", '7 chmod("FOLDER/usr/bin/tool", 0755) = 0\n'
     + TOOL.format("FOLDER/usr/bin/tool"), "0755"),
    ("a change by a descriptor", TOOL.format("FOLDER/usr/bin/tool")
     + '7 openat(AT_FDCWD, "FOLDER/usr/bin/tool", O_RDONLY) = 3\n7 fchown(3, 5, 5) = 0\n',
     "line 3 changes FOLDER/usr/bin/tool"),
    ("another attribute", TOOL.format("FOLDER/usr/bin/tool")
     + '7 setxattr("FOLDER/usr/bin/tool", "user.note", "", 0, 0) = 0\n', "0755"),
    ("a descriptor", '7 openat(AT_FDCWD, "FOLDER/jail/usr/bin/tool", O_PATH) = 3\n7 dup(3) = 4\n'
     '7 execveat(4, "", [], 0x7 /* 9 vars */, AT_EMPTY_PATH) = 0\n', "4755"),
    ("an unknown descriptor", '7 execveat(4, "", [], 0x7 /* 9 vars */, AT_EMPTY_PATH) = 0\n',
     NO_DESCRIPTOR),
    ("no path by -y", '7 openat(AT_FDCWD, "FOLDER/usr/bin/tool", O_PATH) = 6</>\n'
     '7 execveat(6</>, "", [], 0x7 /* 9 vars */, AT_EMPTY_PATH) = 0\n', "0755"),
    ("a path by -y", '7 execveat(6<FOLDER/usr/bin/tool>, "", [], 0x7 /* 9 vars */, AT_EMPTY_PATH)'
     " = 0\n", "0755"),
    ("a memfd", '7 memfd_create("kept", MFD_CLOEXEC) = 5\n'
     '7 execveat(5</memfd:kept>(deleted), "", [], 0x7 /* 9 vars */, AT_EMPTY_PATH) = 0\n', "0777"),
    ("a descriptor by a message", '7 openat(AT_FDCWD, "FOLDER/usr/bin/tool", O_PATH) = 3\n'
     "7 recvmsg(5, {msg_name=NULL, msg_control=[{cmsg_len=24, cmsg_level=SOL_SOCKET, "
     "cmsg_type=SCM_RIGHTS, cmsg_data=[4<socket:[9]>, 3]}], msg_flags=0}, 0) = 1\n"
     '7 execveat(3, "", [], 0x7 /* 9 vars */, AT_EMPTY_PATH) = 0\n', NO_DESCRIPTOR),
    ("a descriptor of another process's", '7 openat(AT_FDCWD, "FOLDER/usr/bin/tool", O_PATH) = 3\n'
     '7 pidfd_getfd(5, 9, 0) = 3\n7 execveat(3, "", [], 0x7 /* 9 vars */, AT_EMPTY_PATH) = 0\n',
     NO_DESCRIPTOR),
    ("a root for openat2", '7 openat(AT_FDCWD, "FOLDER/jail", O_PATH) = 3\n'
     '7 openat2(3, "/../bin/tool", {flags=O_PATH, resolve=RESOLVE_IN_ROOT}, 24) = 4\n'
     '7 execveat(4, "", [], 0x7 /* 9 vars */, AT_EMPTY_PATH) = 0\n', "4755"),
    ("a file that is written", TOOL.format("FOLDER/usr/bin/tool")
     + '7 openat(AT_FDCWD, "FOLDER/usr/bin/tool", O_WRONLY|O_TRUNC) = 3\n',
     "line 2 changes FOLDER/usr/bin/tool"),
    ("a file that was written before", '7 openat(AT_FDCWD, "FOLDER/usr/bin/tool", O_WRONLY) = 3\n'
     + TOOL.format("FOLDER/usr/bin/tool"), "0755"),
    ("a folder that is renamed", TOOL.format("FOLDER/usr/bin/tool")
     + '7 renameat(AT_FDCWD, "FOLDER/usr", AT_FDCWD, "FOLDER/old") = 0\n',
     "line 2 changes FOLDER/usr/bin/tool"),
    ("a link that is removed", '7 chroot("FOLDER/jail") = 0\n' + TOOL.format("/bin/tool")
     + '7 unlink("/bin") = 0\n', "line 3 makes FOLDER/jail/bin another link than it was"),
    ("another link that is removed", TOOL.format("FOLDER/usr/bin/tool")
     + '7 unlink("FOLDER/jail/bin") = 0\n', "0755"),
    ("a descriptor of another mount namespace", '7 openat(AT_FDCWD, "FOLDER/jail/usr/bin/tool", '
     "O_PATH) = 3\n7 unshare(CLONE_NEWNS) = 0\n"
     '7 execveat(3, "", [], 0x7 /* 9 vars */, AT_EMPTY_PATH) = 0\n', "4755 nosuid"),
    ("a program of another mount namespace", TOOL.format("FOLDER/jail/usr/bin/tool")
     + "7 unshare(CLONE_NEWNS) = 0\n" + TOOL.format("/proc/self/exe"), "4755 nosuid"),
    ("a folder in another mount namespace", '7 chdir("FOLDER/jail/usr") = 0\n'
     "7 unshare(CLONE_NEWNS) = 0\n" + TOOL.format("bin/tool"), "4755"),
    ("a root that is named", TOOL.format("/bin/tool"), "4755"),
    ("a root that is named, and what -y tells of it", '7 openat(AT_FDCWD<FOLDER/jail/usr>, "bin", '
     "O_PATH) = 3<FOLDER/jail/usr/bin>\n" + TOOL.format("bin/tool"), "4755"),
    ("a root of a container, and what -y tells of it", '7 openat(AT_FDCWD</usr>, "bin", '
     "O_PATH) = 3</usr/bin>\n" + TOOL.format("bin/tool"), "4755"),
    ("a script in a memfd", '7 memfd_create("kept", 0) = 5\n'
     '7 write(5, "#! FOLDER/jail/usr/bin/tool\\necho\\n", 40) = 40\n'
     '7 execveat(5, "", [], 0x7 /* 9 vars */, AT_EMPTY_PATH) = 0\n', "4755"),
    ("a script in a memfd that is shortened", '7 memfd_create("kept", 0) = 5\n'
     '7 write(5, "#! FOLDER/jail/us"..., 40) = 40\n'
     '7 execveat(5, "", [], 0x7 /* 9 vars */, AT_EMPTY_PATH) = 0\n', "first line is shortened"),
    ("a mount that others may see", CHILD_MOUNTS.format("") + TOOL.format("FOLDER/usr/bin/tool"),
     "line 3 mounts or unmounts what FOLDER/usr/bin/tool leads through"),
    ("a mount that no others see", CHILD_MOUNTS.format(SEEN.format(8, "MS_PRIVATE"))
     + TOOL.format("FOLDER/usr/bin/tool"), "0755"),
    ("a mount of a slave", CHILD_MOUNTS.format(SEEN.format(8, "MS_SLAVE"))
     + TOOL.format("FOLDER/usr/bin/tool"), "0755"),
    ("a mount that is shared", SEEN.format(7, "MS_SHARED") + CHILD_MOUNTS.format("")
     + TOOL.format("FOLDER/usr/bin/tool"), "4755"),
    ("a mount that a slave receives", SEEN.format(7, "MS_SHARED") + "7 fork() = 8\n"
     "8 unshare(CLONE_NEWNS) = 0\n" + SEEN.format(8, "MS_SLAVE") + MOUNTS.replace("8 ", "7 ")
     + TOOL.replace("7 ", "8 ", 1).format("FOLDER/usr/bin/tool"), "4755"),
    ("a mount in a user namespace of its own",
     CHILD_MOUNTS.format("").replace("(CLONE_NEWNS", "(CLONE_NEWUSER|CLONE_NEWNS")
     + TOOL.format("FOLDER/usr/bin/tool"), "0755"),
    ("an id without a map", "7 unshare(CLONE_NEWUSER) = 0\n7 setuid(0) = 0\n",
     credential_lines.NO_MAP),
]

# What the tools are told besides.
JAIL = ["--root", "FOLDER/jail"]
WORDS = {
    "another process changes a file": ["--task", "8"],
    "another process changes a file, and the list tells what it was": ["--task", "8"],
    "a root that is named": JAIL,
    "a root that is named, and what -y tells of it": JAIL,
    "a root of a container, and what -y tells of it": JAIL,
}
