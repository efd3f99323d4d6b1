"""Starts runc, crun, systemd, dockerd and podman, and records what a program under them has.

    place      the folder in which all is made, and the programs that are executed
    chance     cases that are made by chance, of a seed
    runtimes   runc and crun
    systemd    systemd, as PID 1 of namespaces of its own (pid1.sh)
    probe.c    what is executed: it says its own credential
"""
