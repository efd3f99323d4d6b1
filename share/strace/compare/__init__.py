"""The kernel's results in a log beside what the report of its script says.

    probe           what the program says of a task before a line
    rows            which row of docs/LINUX.md explains a difference
    file_rows       the rows on calls that change a file
    possible_rows   rows by which a task, or a file, may be another one since an earlier line
    linux_results   what a call leaves in Linux
    refusals        why the kernel refuses what the program allows
    refused_lines   calls that only the kernel refused, as comments of the script
    command         the command credtrace-compare
"""
