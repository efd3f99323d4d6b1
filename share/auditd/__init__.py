"""From a log of the audit system to scripts, and to what the rules say of each recorded call.

    numbers      the calls by their numbers, of each architecture
    records      a line of a log, and the event that its records make
    gather       the events of a log, in the order in which they happened
    sources      the logs: several files, packed ones, standard input; a window of time
    window       the events that come next, by pid
    tasks        processes and threads, and what is known of them
    files        what the PATH records say of a file
    calls        which line of a script a recorded call is
    script       a script that is written, with what its answers must be
    start        what /proc said of processes where a log begins
    begin        the lines that lead a task to what it has
    spaces       user namespaces, as far as the log tells them
    signs        whether a record shows that its task is in a user namespace
    living       the processes of a script: their beginnings and ends
    owners       who made a recorded call
    lines        the lines of a call, and what its records say of the answers
    build        from events to scripts
    running      the report of a script
    findings     what a difference is: its class, and the reason
    judge        the tests by which a difference gets its class
    carry        what goes from one script to the next
    compare      a log from its beginning to its end
    telling      findings as text and as JSON
    command      the options that the commands have in common
    manual       the place in the manual that decides what is compared
    reduced      a script of its last line alone
    host         a host of a fleet, and what comes of it
    workers      hosts as tasks of dask.distributed
    from_auditd, compare_auditd, fleet    the commands
"""
