"""Lines of docker run and podman run: the config.json that they write, and what comes of it.

    engines      docker and podman: default capabilities, by version, and how each makes the sets
    line         the words of a line, by the options of each
    image        what is known of an image: its USER, its ENTRYPOINT
    identity     the user and the groups, by the image's own files
    config       the config that an engine writes
    convert      the script of a line
"""
