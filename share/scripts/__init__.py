"""The text of scripts: the forms of its lines, and names in it.

    forms     the forms of lines, and the tests of a bad one, from docs/FORMATS.md
    words     how the words of a line are spelled, and what is meant by a wrong one
    hints     which word of a bad line is wrong, and what would be right
    names     sets and securebits as names, and back: the command credtrace-names
    command   the command credtrace-check
"""
