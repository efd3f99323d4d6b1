# Completion of credtrace-from-oci in fish: put this file in ~/.config/fish/completions.
complete -c credtrace-from-oci -l runtime -x -a 'runc crun' -d 'Whose order of calls it is'
complete -c credtrace-from-oci -l start -r -d 'What the launcher has, as /proc/PID/status'
complete -c credtrace-from-oci -l script -d 'Write the script, and run nothing'
complete -c credtrace-from-oci -l json -d 'Write all of it as JSON'
complete -c credtrace-from-oci -l want-user -x -d 'All user ids have to be this'
set -l names CHOWN DAC_OVERRIDE DAC_READ_SEARCH FOWNER FSETID KILL SETGID SETUID SETPCAP LINUX_IMMUTABLE \
  NET_BIND_SERVICE NET_BROADCAST NET_ADMIN NET_RAW IPC_LOCK IPC_OWNER SYS_MODULE SYS_RAWIO SYS_CHROOT \
  SYS_PTRACE SYS_PACCT SYS_ADMIN SYS_BOOT SYS_NICE SYS_RESOURCE SYS_TIME SYS_TTY_CONFIG MKNOD LEASE \
  AUDIT_WRITE AUDIT_CONTROL SETFCAP MAC_OVERRIDE MAC_ADMIN SYSLOG WAKE_ALARM BLOCK_SUSPEND AUDIT_READ \
  PERFMON BPF CHECKPOINT_RESTORE
set -l names CAP_$names
complete -c credtrace-from-oci -l why -x -a "$names" -d 'Where this capability comes from or goes'
complete -c credtrace-from-oci -l want -x -a "$names" -d 'It has to be effective'
complete -c credtrace-from-oci -l want-not -x -a "$names" -d 'It may not be permitted'
