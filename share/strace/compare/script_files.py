"""What is told of script files: the interpreter is executed in their place, with its own sets."""

from __future__ import annotations

from ..script.script import Line


def lost(words: str) -> list[str]:
    """What of a file doesn't count where it is a script file."""
    _, _, _, mode, *others = words.split()
    found = []
    if int(mode, 8) & 0o4000:
        found.append("its set-user-ID bit")
    if int(mode, 8) & 0o2000:
        found.append("its set-group-ID bit")
    if "caps" in others:
        found.append("its capability attribute")
    return found


def has_lost(line: Line) -> bool:
    """Whether a script file that was executed has what doesn't count."""
    return any(lost(words) for _, words in line.facts.scripts)


def told(line: Line) -> list[str]:
    """What is told of the script files by which a line executes another program."""
    found = []
    scripts = line.facts.scripts
    programs = [*(path for path, _ in scripts[1:]), line.words[-1]]
    for (path, words), program in zip(scripts, programs):
        nothing = lost(words)
        counts = f", and {' and '.join(nothing)} {'count' if nothing[1:] else 'counts'} for nothing"
        text = f"{path} is a script file: its interpreter, {program}, is executed in its place"
        found.append(f'{text}{counts if nothing else ""}. execve(2), "Interpreter scripts"')
    return found
