"""What `check` compares: stored truth of real programs.

    stored       the cases of examples/declared, each with what the real program said
    configs      a config.json of a case
    compare      an answer and the truth
    containers, services, lines    the cases of each kind, compared
    ends         how a command ends
    wanted       --want, in each of its ends
    hostile      declarations that are broken
    pages        what docs/BEFORE-IT-RUNS.md shows
    parts        what stored data can't isolate
"""
