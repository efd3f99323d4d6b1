"""From a log of strace(1) to a script, and to what its report says beside the kernel.

    log       a log as it is read
    follow    what its calls make of tasks: ids, paths, descriptors, namespaces
    files     the files that it executes, opens or changes
    script    the script of a log: credtrace-from-strace
    compare   the kernel's results beside the report: credtrace-compare
    options   the options and inputs that the commands have in common
"""
