"""Whether a text is a script, by the forms of docs/FORMATS.md. Which test fails isn't told."""

from __future__ import annotations

import re

from capabilities import CAPABILITIES

from .script import CHANGES, ID_CALLS, QUERIES

NUM = r"(?:0|[1-9]\d{0,9})"
WORDS = {
    "NUM": NUM, "ID": NUM, "ARG": f"(?:-1|{NUM})", "T": r"t[1-9]\d{0,4}", "P": r"p[1-9]\d{0,4}",
    "H": r"h[1-9]\d{0,4}", "F": r"f[1-9]\d{0,4}", "N": r"n(?:\d|1[0-5])",
    "CAP": f"(?:{NUM}|CAP_(?:{'|'.join(CAPABILITIES)}))", "SET": "[0-9a-fA-F]{1,16}",
    "NAME": r"[A-Za-z][A-Za-z0-9_.-]{0,31}", "MODE": "[0-7]{4}",
    "HEX": "(?:0x)?(?:[0-9a-fA-F]{2}){1,64}",
    "WANT": "(?:r|w|x|rw|rx|wx|rwx)", "KIND": "(?:reg|dir)", "IDS": f"(?: {NUM})*",
}  # fmt: skip
IDCALL = (
    *(f"{it} ARG" for it in ("setuid", "seteuid", "setgid", "setegid")),
    "setreuid ARG ARG", "setregid ARG ARG", "setresuid ARG ARG ARG", "setresgid ARG ARG ARG",
    "setgroupsIDS",
)  # fmt: skip
CHANGE = (
    "setfsuid ARG", "setfsgid ARG", "capset SET SET SET", "capdrop CAP", "ambraise CAP",
    "amblower CAP", "ambclear", "securebits NUM", "keepcaps NUM", "nonewprivs NUM", "exec NAME",
)  # fmt: skip
QUERY = ("ids", "caps", "groups", "bits", "capable CAP", "bset CAP", "ambis CAP", "check NAME WANT")
OF_TASK = (
    *IDCALL, *CHANGE, *QUERY, "open NAME WANT F", "close F", "fcap F CAP", "access NAME WANT",
    "signal T", "spawn T", "fork T P", "exit", "ptrace fs T", "ptrace real T", "dumpable NUM",
    "dumped", "chown NAME ARG ARG", "chmod NAME MODE", "setattr NAME HEX", "clearattr NAME",
    "stat NAME", "capsetraw HEX", *(f"raw {it}" for it in IDCALL),
)  # fmt: skip
LINES = (
    "file NAME KIND ID ID MODE(?: nosuid)?(?: caps HEX)?", "ns NUM ID NUM", "init T P ID ID N",
    "lane NUM", "take H T", "takereal H T", "takefile H F", "drop H", "prepare H T H",
    "change H access", "commit H", "abort H", "override T H", "revert T", "act NUM", "sweep",
    *(f"T {it}" for it in OF_TASK), *(f"begin T {it}" for it in IDCALL),
    *(f"ask H {it}" for it in QUERY), *(f"change H {it}" for it in CHANGE),
)  # fmt: skip
WORD = re.compile("|".join(rf"\b{it}\b" if it != "IDS" else it for it in WORDS))
FORM = re.compile("|".join(WORD.sub(lambda it: WORDS[it[0]], form) for form in LINES))

assert {it.split()[0].removesuffix("IDS") for it in IDCALL} == set(ID_CALLS)
assert {it.split()[0] for it in CHANGE} == set(CHANGES)
assert {it.split()[0] for it in QUERY} == set(QUERIES)


DECLARE = ("file", "ns", "init")
FILE_CALLS = ("chown", "chmod", "setattr", "clearattr", "stat")
NAMES = ("exec", "check", "access", "open", *FILE_CALLS)


def in_range(words: list[str]) -> bool:
    """Whether numbers have 32 bits, and the sets of a capset 41."""
    sets = words[words.index("capset") + 1 :] if "capset" in words[1:] else []
    others = words[:5] if words[0] == "file" else words[: len(words) - len(sets)]
    small = all(int(it) <= 0xFFFFFFFF for it in others if it.isdigit())
    return small and all(int(it, 16) >> 41 == 0 for it in sets)


def file_named(words: list[str]) -> str | None:
    """The file that a line names."""
    if words[0] in ("ask", "change"):
        words = words[1:]
    return words[2] if len(words) > 2 and words[1] in NAMES else None


def is_good(text: str) -> bool:
    """Whether each line has a form, stands where it may, and names files and namespaces that lines
    before it declare. Which lane names what isn't asked.
    """
    files, spaces, calls = set(), {"0"}, False
    for line in text.split("\n"):
        words = [word for word in line.split(" ") if word]
        if not line.isprintable() or not line.isascii():
            return False
        if not words or words[0][0] == "#":
            continue
        if not FORM.fullmatch(" ".join(words)) or not in_range(words):
            return False
        if words[0] in DECLARE and calls:
            return False
        calls = calls or words[0] not in DECLARE
        if words[0] == "file":
            files.add(words[1])
        elif words[0] == "ns":
            if words[3] not in spaces:
                return False
            spaces.add(words[1])
        elif words[0] == "init" and words[5][1:] not in spaces:
            return False
        elif (name := file_named(words)) is not None and name not in files:
            return False
    return True
