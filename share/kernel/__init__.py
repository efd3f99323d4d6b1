"""A running kernel that is asked a script, and checked against the cases.

    driver/      the program that makes the calls, in C without a C library
    isolation    what is made in a mount namespace: the driver, and images
    process      the driver's process
    machine      what the machine allows, and scripts that are run on it
    script       a script: its files, namespaces and lines
    grammar      whether a text is a script
    runnable     whether a kernel can run a script, and why not
    setup, lines the script in the driver's words: what stands before its calls, and these
    image        a file system whose files have attributes that setxattr(2) refuses
    report       a report of what was answered; numbers counts its credentials and slots
    rules        what an attribute says, and what an execve gained
    cred, files  the rules, by the manual and by Linux: on a credential, and on files and execve
    rows         the rows of docs/LINUX.md that the rules have
    model        what a script must be answered, by those rules
    comparison   compares a machine with a script
    shrink       cuts a script down to the fewest lines that still differ
    chance       random scripts
    wrong        wrong kernels, which the cases must find
    on_kernel    the command credtrace-on-kernel
"""
