"""What the tools make of bad scripts, of names, and of where they lie."""

from __future__ import annotations

import os
import re
import shutil
import subprocess
import sys
from collections.abc import Callable
from pathlib import Path

from scripts.forms import form_of
from scripts.hints import hints, words_of
from scripts.words import wrong_word
from scripts.names import to_names, to_script

TOP = Path(__file__).resolve().parents[2]

# A bad line behind a `file svc` and an `init t1`, and what is told of its word.
HINTS = [
    ("t1 setresuids 5 5 5", "Word 2, `setresuids`, is none of the words that may stand there."),
    ("t1 setresuids 5 5 5", "Is setresuid meant?"),
    ("t1 getuid", "Is ids meant?"),
    ("t1 execve svc", "Is exec meant?"),
    ("t1 kill t1", "Is signal meant?"),
    ("begin t1 setfsuid 5", "Word 3, `setfsuid`, is none of the words that may stand there."),
    ("ask h1 capabel 5", "Is capable meant?"),
    ("takes h1 t1", "Word 1, `takes`, is none of the words that may stand there. Is take meant?"),
    ("setuid 5", "The task that makes a call stands before it, as in `t1 setuid`."),
    ("task1 caps", "A task is t with a number. Is t1 meant?"),
    ("t1", "Word 2, the name of a call or of a question, lacks."),
    ("t01 caps", "Word 1, `t01`, is no T. Is t1 meant?"),
    ("t1 capset 0x2000 0 0", "Word 3, `0x2000`, is no SET. Is 2000 meant?"),
    ("t1 securebits SECBIT_KEEP_CAPS", "script is a script, with names for sets: credtrace-names"),
    ("t1 capset CAP_NET_RAW none nome", "Word 5, `nome`, is no SET. Is none meant?"),
    ("t1 capset CAP_NET_RAW cap_nett_raw none",
     "Word 4, `cap_nett_raw`, is no SET. Is CAP_NET_RAW"),
    ("t1 setcap none", "Is capset, or setattr of a file, meant?"),
    ("t1 securebits 0x10", "is no NUM. Is 16 meant?"),
    ("t1 capable CAP_SYS_ADMN", "is no CAP. Is CAP_SYS_ADMIN meant?"),
    ("t1 exec /bin/svc", "Word 3, `/bin/svc`, is no NAME. Is svc meant?"),
    ("t1 exec scv", "No line above declares `scv`. Is svc meant?"),
    ("t1 open svc r fd3", "Word 5, `fd3`, is no F. Is f3 meant?"),
    ("ask t1 caps", "Word 2, `t1`, is no H."),
    ("init t2 p2 root 0 n0", "Word 4, `root`, is no ID. Is 0 meant?"),
    ("ns 16 5 0", "Word 2, `16`, is no NUM of 1 to 15."),
    ("lane 17", "Word 2, `17`, is no NUM of 1 to 16."),
    ("file a reg 0 0 0755 nosiud", "Word 7, `nosiud`, isn't `nosuid` or `caps`. Is nosuid meant?"),
    ("file a reg 0 0 0755 caps", "Word 8, the HEX, lacks."),
    ("file a reg 0 0 0755 caps cap_kill+p", "script is a script, with names for sets"),
    ("file a reg 0 0 755 caps cap_kill+p", "Word 6, `755`, is no MODE. Is 0755 meant?"),
    ("t1 setuid 5#leaves", "A comment is a line of its own: its first word begins with `#`."),
    ("t1 setuid root # leaves", "Word 3, `root`, is no ARG. Is 0 meant?"),
    ("t1 setuid // leaves", "The line has 2 words. Word 3, the ARG, lacks."),
]
# What isn't guessed: words in which more than two letters differ, and values that nobody can tell.
UNGUESSED = ["t1 frobnicate 5", "t1 setuid bob", "t1 setuid 4294967295", "ns 16 5 0", "ask t1 caps",
             "t1 capable CAP_NET", "report5 5", "t1 capset 20000000000 0 0"]  # fmt: skip

# Scripts with names, and what --to-script makes of them (setcap(8), linux/capability.h).
NAMED = [
    ("t1 capset CAP_NET_RAW none all-CAP_CHOWN", "t1 capset 2000 0 1fffffffffe"),
    ("change h1 capset all cap_bpf,cap_kill 2000", "change h1 capset 1ffffffffff 8000000020 2000"),
    ("t1 securebits SECBIT_KEEP_CAPS,noroot", "t1 securebits 17"),
    ("t1 securebits none", "t1 securebits 0"),
    (
        "file ping reg 0 0 0755 caps cap_net_raw=ep",
        "file ping reg 0 0 0755 caps 0100000200200000000000000000000000000000",
    ),
    (
        "file ping reg 0 0 0755 nosuid caps cap_net_raw,cap_bpf=eip [rootid=1000]",
        "file ping reg 0 0 0755 nosuid caps 010000030020000000200000" "8000000080000000" "e8030000",
    ),
    (
        "file a reg 0 0 0755 caps =p cap_chown-p 39+i-p",
        "file a reg 0 0 0755 caps 00000002feffffff000000007f01000080000000",
    ),
    ("file a reg 0 0 0755 caps 0x00", "file a reg 0 0 0755 caps 0x00"),
    (
        "t1 setattr ping cap_net_raw=ep",
        "t1 setattr ping 0100000200200000000000000000000000000000",
    ),
    ("t1 setattr ping 0x00", "t1 setattr ping 0x00"),
    ("# t1 capset none", "# t1 capset none"),
    ("t1  caps", "t1  caps"),
]

# What is no set, no flags and no attribute; some of it as setcap(8) refuses it.
NO_NAMES = ["t1 setattr a cap_foo=ep", "t1 capset CAP_FOO 0 0", "t1 capset all-CAP_FOO 0 0"]
NO_NAMES += ["t1 securebits SECBIT_FOO"]
NO_NAMES += [f"file a reg 0 0 0755 caps {text}" for text in (
    "cap_foo=ep", "cap_kill", "cap_kill,=p", "+ep", "none=p", "cap_kill=x", "41=p",
    "cap_kill=ep cap_chown=p", "cap_kill=p cap_chown=ep",
)]  # fmt: skip

# Lines of credtrace-compare, and the same with names.
COMPARED = [
    (
        "line 6: pid 7 capget({version=3}) = 0: the kernel ok 2000 0 0 * *, the report ok 0 0 0 "
        "1ffffffffff 0 (line 3: t1 caps)",
        "line 6: pid 7 capget({version=3}) = 0: the kernel ok CAP_NET_RAW none none * *, the "
        "report ok none none none all none (line 3: t1 caps)",
    ),
    (
        "line 9: pid 7 capset({version=3}, ..) = -1 EPERM: the kernel eperm, the report ok "
        "(line 4: t1 capset 2000 0 0)",
        "line 9: pid 7 capset({version=3}, ..) = -1 EPERM: the kernel eperm, the report ok "
        "(line 4: t1 capset CAP_NET_RAW none none)",
    ),
    (
        "version 1 target 0 perm 400 inh 0 eff 2000 v3 22050820000000000000000000000000",
        "version 1 target 0 perm CAP_NET_BIND_SERVICE inh none eff CAP_NET_RAW v3 "
        "22050820000000000000000000000000",
    ),
    ("    since line 4: t1 securebits 16", "    since line 4: t1 securebits SECBIT_KEEP_CAPS"),
]


def wrong_hints(place: Path, told: Callable[[str], str]) -> str | None:
    """What is told of a word that is wrong, and that nothing is guessed; `told` checks a script."""
    script = place / "script"
    for line, hint in [*HINTS, *((line, None) for line in UNGUESSED)]:
        declared = "file svc reg 0 0 0755\n", "init t1 p1 0 0 n0\n", f"{line}\n"
        first = line.split()[0] in ("file", "ns", "init")
        script.write_text("".join(declared[::2] + declared[1:2] if first else declared))
        said = " ".join(told(str(script)).split())
        if hint not in said if hint else " meant?" in said:
            return f"credtrace-check, {line}: {said}"
    return None


def unexplained() -> str | None:
    """A bad line among the cases of which no word is told, or where a guess is no better."""
    sys.path.insert(0, str(TOP / "cases"))
    import suite

    for name in ("grammar", "lanes", "limits"):
        for case in suite.cases_of(TOP / "cases" / name):
            match = re.fullmatch(rb"bad (\d+) (word|count|name|order)\n", case.written or b"")
            if match is None or case.words != ("run",):
                continue
            lines = case.given.decode("latin-1").split("\n")[: int(match[1])]
            words = words_of(lines[-1])
            told = " ".join(hints(match[2].decode(), form_of(words), words, lines[:-1]))
            guess = re.search(r"Word (\d+), .* Is (\S+) meant\?$", told)
            if guess and match[2] == b"word":
                words[int(guess[1]) - 1] = guess[2]
                form = form_of(words)
                told = "" if form and wrong_word(form.text, words[: int(guess[1])]) else told
            if not told:
                return f"credtrace-check, {case.name}: {lines[-1]}"
    return None


def names(text: str, *words: str) -> tuple[int, str]:
    """What credtrace-names makes of a text."""
    done = subprocess.run(
        [TOP / "share" / "credtrace-names", *words], input=text, capture_output=True, text=True
    )
    return done.returncode, done.stdout or done.stderr


def wrong_names() -> str | None:
    """What is wrong with names in scripts and in comparisons."""
    for path in sorted((TOP / "examples").glob("*.trace")):
        for line in map(to_names, path.read_text().splitlines()):
            if to_names(line) != line or to_names(to_script(line)) != line:
                return f"{path.name}: another line with names and without: {line}"
    for text, wanted in NAMED:
        if names(f"{text}\n", "--to-script") != (0, f"{wanted}\n"):
            return f"--to-script makes of {text}: {names(text, '--to-script')}"
    for text, wanted in COMPARED:
        if to_names(text) != wanted:
            return f"a comparison becomes {to_names(text)}"
    for text in NO_NAMES:
        status, said = names(f"init t1 p1 0 0 n0\n{text}\n", "--to-script")
        if status != 2 or not said.endswith("\n") or "Traceback" in said:
            return f"--to-script makes of {text}: {said}"
    if not names("", "/no-such-file")[1].startswith("credtrace-names: /no-such-file: No such"):
        return "a file that isn't there is told otherwise"
    return None if names("", "--help")[1].startswith("usage: ") else "--help isn't known"


def wrong_times(place: Path) -> str | None:
    """A file that was changed after the log was written is told."""
    tool, log = place / "tool", place / "log"
    tool.write_bytes(b"")
    log.write_text(f'7 execve("{tool}", [], 0x7 /* 9 vars */) = 0\n', encoding="ascii")
    told = f"{tool} was changed after the log was written"
    for time, tells in ((None, False), (0, True)):
        os.utime(log, None if time is None else (time, time))
        done = subprocess.run(
            [TOP / "share" / "credtrace-from-strace", log], capture_output=True, text=True
        )
        if done.returncode or (told in done.stderr) != tells:
            return f"a file that is older or newer than the log: {done}"
    return None


def wrong_places(place: Path, program: str) -> str | None:
    """The tools work through a symbolic link and from a copy, also of share/ alone."""
    copied = place / "copy"
    alone = place / "alone" / "share"
    packages = ("capabilities", "limits", "scripts", "tool")
    shutil.copytree(TOP / "docs", copied / "docs")
    for package in packages:
        shutil.copytree(TOP / "share" / package, copied / "share" / package)
        shutil.copytree(TOP / "share" / package, alone / package)
    for tool in sorted(path.name for path in (TOP / "share").glob("credtrace-*")):
        shutil.copy(TOP / "share" / tool, copied / "share")
        shutil.copy(TOP / "share" / tool, alone)
        (place / tool).symlink_to(TOP / "share" / tool)
    environment = os.environ | {"CREDTRACE": program}
    for folder, knows in ((place, True), (copied / "share", True), (alone, False)):
        done = subprocess.run(
            [folder / "credtrace-check"], input=b"init t1 p1 0 0 n0\nt1 caps 5\n",
            capture_output=True, env=environment,
        )  # fmt: skip
        says = b"Word 3, `5`, is too many." if knows else b"line 2: count\n"
        if done.returncode != 2 or says not in done.stdout or b"Traceback" in done.stderr:
            return f"{folder}: {done}"
    if "CREDTRACE" in os.environ:
        return None
    linked = place / "credtrace"
    linked.symlink_to(TOP / "bin" / "credtrace")
    done = subprocess.run([linked, "decode", "00"], capture_output=True)
    return None if done.stdout == b"bad length 1\n" else f"bin/credtrace: {done}"
