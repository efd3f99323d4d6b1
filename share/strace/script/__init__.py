"""The script of a log.

    script             the script, and what it can hold
    start              the lines that lead first tasks to what /proc/PID/status says
    calls              which lines the calls on credentials are, and what answers them
    credential_lines   the lines of these calls, by the threads that make them
    other_tasks        the lines of calls about other tasks: signals, and looks into them
    refused            a call that the kernel refused and of which the script has no line
    refused_calls      what becomes of the calls that were refused
    converter          from all calls to the script
    not_converted      the calls of which no line is made, by name
    command            the command credtrace-from-strace
"""
