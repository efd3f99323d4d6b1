"""What a log of strace shows: each call that was refused, and each capability lost or gained.

    log_report   what is told of a log: by rules, by rows of docs/LINUX.md, or as not modelled
    tracing      how strace is run, and with which filter
    beginning    what the log begins with, from /proc
    command      the command credtrace-watch
"""
