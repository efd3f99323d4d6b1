"""The page: its skeleton, style, script and data in one file.

The report comes into it as JSON alone, whose brackets and ampersands are escapes, so that no text
of it can end the element in which it stands. The page's own script puts texts by `textContent` and
on the canvas, and the policy in the page's head lets nothing run or load but that script and that
style.
"""

from __future__ import annotations

import base64
import hashlib
import json
from pathlib import Path
from typing import Any

HERE = Path(__file__).resolve().parent

# The parts of the script, in their order.
SCRIPTS = ("names", "model", "layout", "text", "paint", "slots", "frame", "view", "list", "main")


def part(name: str) -> str:
    """A file that stands beside this one."""
    return (HERE / name).read_text(encoding="ascii")


def script() -> str:
    """The script, as one function that leaves no names behind."""
    parts = "\n".join(part(f"{name}.js") for name in SCRIPTS)
    return f'(() => {{\n"use strict";\n{parts}}})();\n'


def digest(text: str) -> str:
    """How a policy names a text that may run."""
    return "sha256-" + base64.b64encode(hashlib.sha256(text.encode("ascii")).digest()).decode()


def json_text(data: Any) -> str:
    """JSON that may stand in an element of a page."""
    text = json.dumps(data, separators=(",", ":"), ensure_ascii=True)
    return text.replace("&", "\\u0026").replace("<", "\\u003c").replace(">", "\\u003e")


def page(data: dict[str, Any]) -> str:
    """The whole page."""
    style, code = part("page.css"), script()
    policy = f"default-src 'none'; script-src '{digest(code)}'; style-src '{digest(style)}'"
    # The data come last: what they have can't be taken for a place to fill.
    text = part("page.html").replace("@POLICY@", policy)
    text = text.replace("@STYLE@", style).replace("@SCRIPT@", code)
    return text.replace("@DATA@", json_text(data))
