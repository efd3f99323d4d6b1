"""Which word of a bad line is wrong, and what would be right."""

from __future__ import annotations

from .forms import Form, beginnings, keyword
from .words import guess_numbered, meant, near, wrong_word

# The lines that stand before all others.
DECLARING = ("ns", "file", "init")

# How calls are named that a script names otherwise.
OTHERWISE = {
    "execve": "exec", "execveat": "exec", "kill": "signal", "tgkill": "signal", "openat": "open",
    "faccessat": "access", "clone": "fork or spawn", "vfork": "fork", "pthread_create": "spawn",
    "exit_group": "exit", "capget": "caps", "cap_get_proc": "caps", "cap_set_proc": "capset",
    "lchown": "chown", "fchown": "chown", "fchownat": "chown", "fchmod": "chmod",
    "fchmodat": "chmod", "setxattr": "setattr", "removexattr": "clearattr", "lstat": "stat",
    "fstat": "stat", "statx": "stat", "getxattr": "stat", "syscall": "raw",
    "getgroups": "groups", "initgroups": "setgroups", "no_new_privs": "nonewprivs",
    "setcap": "capset, or setattr of a file,", "getcap": "caps, or stat of a file,",
    "prctl": "capdrop, keepcaps, nonewprivs, securebits or ambraise",
}  # fmt: skip
OTHERWISE |= {f"get{it}": "ids" for it in ("uid", "gid", "euid", "egid", "resuid", "resgid")}


def words_of(line: str) -> list[str]:
    """The words of a line."""
    return [word for word in line.split(" ") if word]


def asked(guess: str | None) -> str:
    """What is likely meant, as a question."""
    return f" Is {guess} meant?" if guess else ""


def hints(reason: str, form: Form | None, words: list[str], before: list[str]) -> list[str]:
    """What is told of a bad line besides its test."""
    told = []
    kept = without_comment(words)
    if kept != words:
        told.append("A comment is a line of its own: its first word begins with `#`.")
    if form is None:
        return [*told, no_form(kept)]
    if kept != words:
        # What is wrong besides.
        least = [word for word in form.text.split() if not set("[].") & set(word)]
        reason = "count" if len(kept) < len(least) else "word"
    hint = HINTS[reason](form, kept, before) if reason in HINTS else None
    return told + ([hint] if hint else [])


def without_comment(words: list[str]) -> list[str]:
    """The words before a comment, as a shell or C has it: no form has a word that begins so."""
    for place, word in enumerate(words[1:], 1):
        if "#" in word or word.startswith("//"):
            head = word.partition("#")[0].partition("//")[0]
            return words[:place] + ([head] if head else [])
    return words


def no_form(words: list[str]) -> str:
    """Which word of a line names no form, and which it likely means: one letter or two differ."""
    place, known = beginnings(words)
    calls = beginnings(["t1", ""])[1]
    none = "No form of docs/FORMATS.md begins so."
    if place >= len(words):
        return f"{none} Word {place + 1}, the name of a call or of a question, lacks."
    word = words[place]
    told = f"{none} Word {place + 1}, `{word}`, is none of the words that may stand there."
    if place == 0 and word in calls:
        return f"{told} The task that makes a call stands before it, as in `t1 {word}`."
    if place == 0 and len(words) > 1 and words[1] in calls:
        return f"{told} A task is t with a number.{asked(guess_numbered('t')(word))}"
    other = OTHERWISE.get(word) if place == 1 else None
    return told + asked(other or near(word, known))


def right_word(form: Form, words: list[str], _: list[str]) -> str | None:
    """Which word isn't as its place asks, and what would be right."""
    wrong = wrong_word(form.text, words)
    if wrong is None:
        return None
    place, kind = wrong
    if place == len(words):
        return f"Word {place + 1}, the {kind}, lacks."
    guess = meant(kind, words[place:], keyword(form.text))
    wrong_so = f"isn't {kind}" if kind.startswith("`") else f"is no {kind}"
    return f"Word {place + 1}, `{words[place]}`, {wrong_so}.{asked(guess)}"


def right_count(form: Form, words: list[str], _: list[str]) -> str:
    """How many words there are, and which lacks or is too many."""
    told = f"The line has {len(words)} word{'s' if len(words) > 1 else ''}."
    expected = form.text.split()
    if "..." in expected:
        return told
    least = next((place for place, it in enumerate(expected) if "[" in it), len(expected))
    if len(words) < least:
        return f"{told} Word {len(words) + 1}, the {expected[len(words)]}, lacks."
    if len(words) <= len(expected):
        # A `file` line that has as many words as one may have is one too many itself.
        return f"{told} A script declares 256 files at most." if least < len(expected) else told
    return f"{told} Word {len(expected) + 1}, `{words[len(expected)]}`, is too many."


def right_name(form: Form, words: list[str], before: list[str]) -> str | None:
    """Which name isn't declared above, or is twice."""
    above = [words_of(line) for line in before]
    files = {line[1]: number for number, line in enumerate(above, 1) if line[:1] == ["file"]}
    spaces = {line[1]: number for number, line in enumerate(above, 1) if line[:1] == ["ns"]}
    declared = files if words[0] == "file" else spaces if words[0] == "ns" else {}
    if words[0] in ("file", "ns") and words[1] in declared:
        return f"`{words[1]}` was declared by line {declared[words[1]]} already."
    for place, kind in enumerate(form.text.split()[: len(words)]):
        word = words[place]
        if kind == "NAME" and word not in files:
            return f"No line above declares `{word}`.{asked(near(word, set(files)))}"
        if kind == "N" and word != "n0" and word[1:] not in spaces:
            return f"No line above declares {word}: `ns {word[1:]} ROOT PARENT` would."
    if words[0] == "ns":
        return f"No line above declares the parent, {words[3]}."
    return None


def right_order(form: Form, _: list[str], before: list[str]) -> str | None:
    """Which line the declaration stands behind."""
    for number, line in enumerate(before, 1):
        words = words_of(line)
        if words and not words[0].startswith("#") and words[0] not in DECLARING:
            word = keyword(form.text)
            return f"Line {number} is a call, an event or a lane: `{word}` stands above."
    return None


HINTS = {"word": right_word, "count": right_count, "name": right_name, "order": right_order}
