"""What all tools have in common.

    entry     how they end: their streams, and their statuses
    inputs    what is wrong with an input
    program   the program that they run
"""
