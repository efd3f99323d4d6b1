# Completion of credtrace-watch in fish: put this file in ~/.config/fish/completions.
complete -c credtrace-watch -s p -l pid -x -d 'A process that runs already'
complete -c credtrace-watch -l all -d 'Each refused call by itself'
complete -c credtrace-watch -l keep -r -d 'Keep the log, the script and the report in this folder'
complete -c credtrace-watch -l draw -r -d 'Draw the script as a page into this file'
complete -c credtrace-watch -l json -d 'Write what is told as JSON'
complete -c credtrace-watch -s o -l output -r -d 'Write what is told into this file'
complete -c credtrace-watch -l print-filter -d 'Print the words for strace, and do no more'
set -l names CHOWN DAC_OVERRIDE DAC_READ_SEARCH FOWNER FSETID KILL SETGID SETUID SETPCAP LINUX_IMMUTABLE \
  NET_BIND_SERVICE NET_BROADCAST NET_ADMIN NET_RAW IPC_LOCK IPC_OWNER SYS_MODULE SYS_RAWIO SYS_CHROOT \
  SYS_PTRACE SYS_PACCT SYS_ADMIN SYS_BOOT SYS_NICE SYS_RESOURCE SYS_TIME SYS_TTY_CONFIG MKNOD LEASE \
  AUDIT_WRITE AUDIT_CONTROL SETFCAP MAC_OVERRIDE MAC_ADMIN SYSLOG WAKE_ALARM BLOCK_SUSPEND AUDIT_READ \
  PERFMON BPF CHECKPOINT_RESTORE
set -l names CAP_$names
complete -c credtrace-watch -l cap -x -a "$names" -d 'Tell the life of this capability'
