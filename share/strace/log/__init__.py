"""A log of strace(1) as it is read.

    lines         a line of a log: who wrote it, which kind it is, the arguments of a call
    reader        the whole log: calls with their results, in an order that a script can keep
    sources       a log that is packed, or in a file for each task
    untold_pids   the pids of tasks in a PID namespace, which only their own lines tell
    families      calls that a log may lack, of families of which it has others
    lineage       one process and its children out of a log
"""
