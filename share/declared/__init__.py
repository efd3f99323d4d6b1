"""What a declaration gives a program: a unit of systemd, a config.json, a line of docker run.

A declaration is read, and written as the calls that its launcher makes, in the launcher's order, as
a script. The program answers the script; nothing is run, and nothing of the machine is changed.

    places       where a declaration says something, what isn't known, and how a launcher fails
    script       the script: its lines, each with where it comes from
    launcher     the credential that the launcher itself begins with
    tree         the files below a root: links are followed inside it, and bind mounts
    users        the users and groups of a machine, or of a tree
    executed     the file that is executed, and its interpreters
    answers      the program's answer, and what Linux makes of it otherwise
    table, as_json   how it is told
    life         why a capability is there or isn't, with the declaration's lines
    wants        what was wanted, and the status
    options      the words of the command lines that the tools share, and how they end
    oci/         config.json, by runc and by crun
    unit/        units of systemd
    run/         lines of docker run and podman run
    from_oci, from_unit, from_run   the commands
"""
