"""Services of systemd, by their units.

    syntax       the assignments of a unit file, each with its line
    fragments    the file of a unit and its drop-ins, in systemd's order
    words        values: booleans, lists, quoted words, capabilities
    specifiers   %i and its kin
    settings     the assignments of all files, read by key
    commands     ExecStart= and its kin: prefixes, and which program
    dynamic      the number of a dynamic user
    identity     user, groups and supplementary groups
    sandbox      what settings take away, imply and mount
    versions     which versions were measured
    order        the calls of systemd, in its order
    convert      the script of a service
"""
