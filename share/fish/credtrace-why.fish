# Completion of credtrace-why in fish: put this file in ~/.config/fish/completions.
complete -c credtrace-why -l task -x -d 'Tell of this task alone, as t1'
complete -c credtrace-why -l log -r -d 'Tell of a log of strace -f, in place of a script'
complete -c credtrace-why -l all -d 'Of a log: each refused call by itself'
complete -c credtrace-why -l start -r -d 'Of a log: the status where it begins'
complete -c credtrace-why -l files -r -d 'Of a log: a list of the files that it executes or opens'
complete -c credtrace-why -l folder -r -d 'Of a log: the folder where it begins'
complete -c credtrace-why -l root -r -d 'Of a log: the root where it begins'
complete -c credtrace-why -l proc -r -d 'Of a log: a folder like /proc, of processes that aren\'t of it'
complete -c credtrace-why -l report -r -d 'Explain this report of the script, as lanes wrote it'
set -l names CHOWN DAC_OVERRIDE DAC_READ_SEARCH FOWNER FSETID KILL SETGID SETUID SETPCAP LINUX_IMMUTABLE \
  NET_BIND_SERVICE NET_BROADCAST NET_ADMIN NET_RAW IPC_LOCK IPC_OWNER SYS_MODULE SYS_RAWIO SYS_CHROOT \
  SYS_PTRACE SYS_PACCT SYS_ADMIN SYS_BOOT SYS_NICE SYS_RESOURCE SYS_TIME SYS_TTY_CONFIG MKNOD LEASE \
  AUDIT_WRITE AUDIT_CONTROL SETFCAP MAC_OVERRIDE MAC_ADMIN SYSLOG WAKE_ALARM BLOCK_SUSPEND AUDIT_READ \
  PERFMON BPF CHECKPOINT_RESTORE
set -l names CAP_$names
complete -c credtrace-why -l cap -x -a "$names" -d 'Tell the life of this capability'
