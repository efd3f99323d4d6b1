# Completion of credtrace-reach in fish: put this file in ~/.config/fish/completions.
complete -c credtrace-reach -l task -x -d 'Ask of this task, as t1'
complete -c credtrace-reach -l line -x -d 'Ask behind this line'
complete -c credtrace-reach -l uid -x -d 'Can it act as this user?'
complete -c credtrace-reach -l gid -x -d 'Can it be in this group?'
set -l names CHOWN DAC_OVERRIDE DAC_READ_SEARCH FOWNER FSETID KILL SETGID SETUID SETPCAP LINUX_IMMUTABLE \
  NET_BIND_SERVICE NET_BROADCAST NET_ADMIN NET_RAW IPC_LOCK IPC_OWNER SYS_MODULE SYS_RAWIO SYS_CHROOT \
  SYS_PTRACE SYS_PACCT SYS_ADMIN SYS_BOOT SYS_NICE SYS_RESOURCE SYS_TIME SYS_TTY_CONFIG MKNOD LEASE \
  AUDIT_WRITE AUDIT_CONTROL SETFCAP MAC_OVERRIDE MAC_ADMIN SYSLOG WAKE_ALARM BLOCK_SUSPEND AUDIT_READ \
  PERFMON BPF CHECKPOINT_RESTORE
set -l names CAP_$names
complete -c credtrace-reach -l cap -x -a "$names" -d 'Can it have this capability?'
complete -c credtrace-reach -l in -x -a 'permitted effective inheritable bounding ambient' -d 'In this set'
complete -c credtrace-reach -l root -d 'Root\'s user id, and each capability that is as good'
complete -c credtrace-reach -l alone -d 'Without the other threads of its process'
complete -c credtrace-reach -l files -r -d 'With the files that this list declares'
complete -c credtrace-reach -l skip -x -d 'It does not execute this file'
complete -c credtrace-reach -l no-plain -d 'Without a plain program of root beside the files'
complete -c credtrace-reach -l files-stay -d 'Nobody changes or makes a file'
complete -c credtrace-reach -l limit -x -d 'Keep so many states at most'
complete -c credtrace-reach -l witness -r -d 'Write the calls into this file, as a script'
complete -c credtrace-reach -l box -d 'The bounds, and whether they are tight'
complete -c credtrace-reach -l states -d 'Every state that was found'
complete -c credtrace-reach -l json -d 'All of it as JSON'
complete -c credtrace-reach -l graph -x -a 'setuid seteuid setreuid setresuid' -d 'Draw the states that these calls lead through'
complete -c credtrace-reach -l ids -x -d 'Of a graph: over these ids'
