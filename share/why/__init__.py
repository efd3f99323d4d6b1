"""Why a call was answered as it was: sentences with the values in them.

    names        sets, flags and ids in words, and the manual's names of the calls
    sources      the places in the manual that sentences rest on
    reason       a sentence with its source, and what isn't one
    script       a script's lines, files and namespaces
    program      the program, asked for a report, an audit, an attribute
    records      what a journal records: tasks, labels, calls of all threads
    journal      what stands after each entry of a report
    file_events, ptrace_events    the entries on files and on looks into tasks
    obstacles    what stood in the way: tasks, labels, calls that are open, limits
    values       the values of credentials, asked in copies of the script
    ids, adjust, execve, access, file_rules, ptrace_rules    the rules, as sentences with their
                 conditions
    explain      from an entry to its sentences
    tell         what is told of a line
    life         the life of a capability in a task
    command      the command
    logs         the refusals of a log of strace, for credtrace-compare
    check        compares the sentences with every script of cases/ and examples/
"""
