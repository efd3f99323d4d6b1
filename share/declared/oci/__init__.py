"""config.json of a container (the OCI runtime specification), by runc and by crun.

    positions    the line of each key of a JSON text
    config       the keys that decide a credential, typed; what is wrong with them
    maps         the id maps of a new user namespace
    orders       the calls of runc and of crun, in their order
    program      which file of which mount is executed
    convert      the script of a config
"""
