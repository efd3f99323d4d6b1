"""Where Linux does otherwise than the program, as docs/LINUX.md has it.

    rows    the rows of its table, by their keys
"""
