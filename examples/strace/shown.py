"""What credtrace-check tells of lines, and whether it has each form and row of the pages."""

from __future__ import annotations

import tempfile
from pathlib import Path

from linux.rows import row
from scripts import command as check, forms
from strace.compare import rows
from tool.program import program

import ends
from commands import fail, run
from texts import BAD_LINES

# What stands in the table of forms for others, or is none.
NO_FORMS = (
    "nosuid", "caps HEX", "T IDCALL", "T CHANGE", "T QUERY", "T raw IDCALL", "begin T IDCALL",
    "ask H QUERY", "change H CHANGE",
)  # fmt: skip


def bad_scripts() -> None:
    """The line of a bad script is shown with its test and its form."""
    with tempfile.TemporaryDirectory() as place:
        script = Path(place, "script")
        for line, reason, form, hint in BAD_LINES:
            script.write_text(f"init t1 p1 0 0 n0\n{line}\n", encoding="ascii")
            status, out, _ = run(check.main, [str(script)])
            said = " ".join(out.split())
            if status != 2 or f"    {reason}: " not in out or form not in said or hint not in said:
                fail(f"credtrace-check, {line}: status {status}\n{out}")
        script.write_text("init t1 p1 0 0 n0\n", encoding="ascii")
        if run(check.main, [str(script)])[:2] != (0, "script is a script\n"):
            fail("credtrace-check: a script isn't found to be one")
        script.write_text("init t1 p1 0 0 n0\nt2 caps\nt1 fork t2 p2\nt2 ids\n", encoding="ascii")
        warned = "warning: line 2: no init, fork or spawn makes t2 before\nscript is a script\n"
        if run(check.main, [str(script)])[:2] != (0, warned):
            fail("credtrace-check: a task that no line makes isn't warned of")
        wrong = ends.wrong_names() or ends.wrong_places(Path(place), program())
        wrong = wrong or ends.wrong_hints(Path(place), lambda name: run(check.main, [name])[1])
        wrong = wrong or ends.unexplained()
        if wrong:
            fail(wrong)
    count = len(BAD_LINES) + len(ends.HINTS)
    print(f"{count} bad lines are told with their test, form and wrong word")


def known_forms() -> None:
    """Each form of docs/FORMATS.md is found by its own words."""
    found = forms.tables()
    own = [form for row in found[forms.LINES] for form in forms.quoted(row[0])]
    own = [form for form in own if form not in NO_FORMS]
    for name in (forms.ID_CALLS, forms.CHANGES, forms.QUERIES):
        own += [f"T {form}" for row in found[name] for form in forms.quoted(row[0])]
    for form in own:
        shown = forms.form_of(["t1" if word == "T" else word for word in form.split()])
        if shown is None or shown.text.split()[:2] != form.split()[:2]:
            fail(f"credtrace-check doesn't find the form {form}: {shown}")
    print(f"{len(own)} forms of docs/FORMATS.md are found")


def known_rows() -> None:
    """Each row that a difference is explained by stands in docs/LINUX.md."""
    for key in rows.ALL:
        if not row(key)[1]:
            fail(f"docs/LINUX.md has no row {key}")
    print(f"{len(rows.ALL)} rows of docs/LINUX.md explain differences")
