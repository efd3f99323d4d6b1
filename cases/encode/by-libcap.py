"""What cap_from_text(3) of libcap 2.66 said of texts, held in by-libcap.said.

`python3 by-libcap.py` asks the libcap of the machine again, and writes the file. Where both take a
text, it says the same. A text of this program is narrower in three places: white space (one space
between two clauses, none before, behind or within), the case of names, and what may stand in a list
(no numbers, and `all` alone). It is wider in two: `=` may be a later action too, and behind a list
that is left out further actions may follow, as the page has it.
"""
import ctypes
import re
import sys
from collections.abc import Callable, Iterator
from pathlib import Path

HERE = Path(__file__).resolve().parent
sys.path.insert(0, str(HERE.parent))
from captext import FULL, NAMES, attribute, longest, sets  # noqa: E402
from suite import UNREAD, Case, module_of, rows  # noqa: E402

SAID = HERE / "by-libcap.said"
# CAP_EFFECTIVE, CAP_PERMITTED and CAP_INHERITABLE of sys/capability.h
FLAGS = range(3)


def asked() -> Callable[[str], tuple[int, ...] | None]:
    """What libcap says of a text: its three sets, or none."""
    libcap = ctypes.CDLL("libcap.so.2")
    libcap.cap_from_text.restype = ctypes.c_void_p
    libcap.cap_free.argtypes = (ctypes.c_void_p,)
    libcap.cap_get_flag.argtypes = (ctypes.c_void_p, ctypes.c_int, ctypes.c_int, ctypes.c_void_p)

    def has(caps: int, number: int, flag: int) -> int:
        value = ctypes.c_int()
        libcap.cap_get_flag(caps, number, flag, ctypes.byref(value))
        return value.value

    def of(text: str) -> tuple[int, ...] | None:
        caps = libcap.cap_from_text(text.encode())
        if not caps:
            return None
        said = [sum(has(caps, it, flag) << it for it in range(len(NAMES))) for flag in FLAGS]
        libcap.cap_free(caps)
        return tuple(said)

    return of


def escaped(text: str) -> str:
    return "".join({"\\": "\\\\", "\n": "\\n", "\t": "\\t"}.get(it, it) for it in text)


def narrower(text: str) -> str | None:
    """Why a text of libcap's may be none of this program's."""
    if re.search(r"^\s|\s$|\s\s|[\t\n]|^$", text):
        return "white space"
    if re.search("[A-Z]", text):
        return "the case of a name"
    return "a list" if re.search(r"all,|,all|(^|[ ,])\d", text) else None


def wider(text: str) -> str | None:
    """Why a text of this program's may be none of libcap's."""
    if re.search(r"[-=+eip]=", text):
        return "a later ="
    return "more behind no list" if re.search(r"(^| )=\w*[-+]", text) else None


def cases() -> Iterator[Case]:
    for number, (given, said) in enumerate(rows(SAID), 1):
        text = given.decode()
        whole = longest(text)[1]
        if said == b"refused\n":
            assert not whole or wider(text), text
            continue
        effective, permitted, inheritable = (int(it, 16) for it in said.split())
        if not whole:
            assert narrower(text), text
            continue
        assert sets(text) == (effective, permitted, inheritable), text
        mixed = effective not in (0, permitted | inheritable)
        data = attribute(permitted, inheritable, effective != 0)
        line = "bad flags" if mixed else data.hex()
        yield Case(str(number), ("encode", text), UNREAD, f"{line}\n".encode())


def main() -> None:
    """Asks this machine's libcap."""
    texts = module_of("every_text", HERE / "every-text.py")
    of = asked()
    kept = [*texts.TELLING, *texts.names(), *list(texts.clauses())[::4]]
    lines = ["; what cap_from_text(3) of libcap says: the sets e, p and i, or that it refuses"]
    for text in dict.fromkeys(it for it in kept if it and not it.startswith("-")):
        said = of(text)
        told = "refused" if said is None else " ".join(f"{it & FULL:x}" for it in said)
        lines.append(f"{escaped(text)} => {told}")
    SAID.write_text("\n".join(lines) + "\n", encoding="utf-8")


if __name__ == "__main__":
    main()
