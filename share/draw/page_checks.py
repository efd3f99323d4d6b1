"""Looks at the script of a page, and at pages in a browser, for check."""

from __future__ import annotations

import json
import re
import shutil
import subprocess
import tempfile
from argparse import Namespace
from collections.abc import Callable
from pathlib import Path

from . import command, names, page
from .browser import Browser, NoAnswer
from .command import FOLDED
from .script_checks import DAEMON, SENTENCE
from .window import Window

TOP = Path(__file__).resolve().parents[2]
PICTURE = TOP / "docs" / "two-services.png"
SHOWN = TOP / "examples" / "two-services.turns"

# The page of 20,000 lines opens in so many milliseconds; and the picture has so many bytes at most.
MOST_OPEN, MOST_BYTES = 2_000, 150_000

WIDTHS = (1280, 400)

Wrong = Callable[[str], None]

# What of a script has brackets that don't count: comments, texts, and expressions after a bracket,
# a comma or an operator.
SKIPPED = re.compile(
    r"//[^\n]*|/\*.*?\*/|\"(?:\\.|[^\"\\\n])*\"|'(?:\\.|[^'\\\n])*'"
    r"|(?<=[(,=:&|!?] )/(?:\\.|\[(?:\\.|[^\]\\\n])*\]|[^/\\\n\[])+/|(?<=\()/(?:\\.|[^/\\\n])+/",
    re.S,
)


def check_script(script: str, wrong: Wrong) -> None:
    """No error of form is in a script: by node, where it is, and by its brackets."""
    closed = {")": "(", "]": "[", "}": "{"}
    open_ones: list[str] = []
    for bracket in re.findall(r"[()\[\]{}]", SKIPPED.sub("", script)):
        if bracket not in closed:
            open_ones.append(bracket)
        elif not open_ones or open_ones.pop() != closed[bracket]:
            wrong("a bracket of the page's script closes none")
    if open_ones:
        wrong("a bracket of the page's script isn't closed")
    if shutil.which("node") is None:
        print("the brackets of the page's script fit (no node is here to read it)")
        return
    with tempfile.NamedTemporaryFile("w", suffix=".js", encoding="ascii") as file:
        file.write(script)
        file.flush()
        words = ["node", "--check", file.name]
        done = subprocess.run(words, capture_output=True, text=True, check=False)
    if done.returncode != 0:
        wrong(f"the page's script: {done.stderr[:400]}")
    print("node reads the page's script")


def check_names(texts: list[str], filter_names: Path, wrong: Wrong) -> None:
    """The page's script writes sets as names just as share/credtrace-names does."""
    if shutil.which("node") is None:
        print("no node is here: the names in a page weren't compared with those of credtrace-names")
        return
    tables = names.tables()
    code = page.part("names.js") + f"""
useTables({json.dumps(tables["caps"])}, {json.dumps(tables["flags"])});
const text = require("fs").readFileSync(0, "utf8");
process.stdout.write(text.split("\\n").map((line) => line && named(line)).join("\\n"));
"""
    given = "".join(texts)
    words = (["node", "-e", code], [str(filter_names)])
    results = [
        subprocess.run(command_words, input=given, capture_output=True, text=True, check=False)
        for command_words in words
    ]
    for mine, other in zip(results[0].stdout.split("\n"), results[1].stdout.split("\n")):
        if mine != other:
            wrong(f"an entry with names is {mine!r} in the page, {other!r} by credtrace-names")
    if any(done.returncode for done in results) or results[0].stdout != results[1].stdout:
        wrong(f"the names couldn't be compared: {results[0].stderr[:300]}")
    print("the page writes sets as credtrace-names does")


def write_page(source: Path, target: Path, unfolded: tuple[str, ...] = ()) -> Path:
    """The page of a stored report."""
    with source.open("rb") as given:
        story, texts = command.read(given, 1, None)
    data = Window(story, 1, len(texts)).data(texts) | names.tables() | {"shown": [*unfolded]}
    target.write_text(page.page(data), encoding="ascii")
    return target


def write_script(source: Path, target: Path) -> Path:
    """The page of a script."""
    text = command.drawn_script(source.read_bytes(), 1, None)
    target.write_text(text, encoding="ascii")
    return target


def panel(browser: Browser) -> str:
    """What is said of the entry that is chosen."""
    return str(browser.value("document.getElementById('panel').innerText"))


def press(browser: Browser, *keys: str) -> str:
    """Presses keys in the picture; what is said then."""
    browser.value("document.getElementById('scroller').focus()")
    for key in keys:
        browser.key(key)
    return panel(browser)


def fill(browser: Browser, control: str, value: str) -> None:
    """Fills in a control of the page."""
    event = "change" if control == "cap" else "input"
    browser.value(
        f"(() => {{ const it = document.getElementById('{control}');"
        f"it.value = {json.dumps(value)}; it.dispatchEvent(new Event('{event}')); }})()"
    )
    browser.settle()


def check_screens(browser: Browser, shown: Path, wrong: Wrong) -> None:
    """The page is drawn wide and narrow, light and dark, each in its own way."""
    seen = []
    for width in WIDTHS:
        for dark in (False, True):
            browser.screen(width, 800, dark)
            browser.open(shown)
            check_errors(browser, f"at {width} pixels", wrong)
            seen.append(browser.picture())
    if len(set(seen)) < len(seen):
        wrong("light and dark, or wide and narrow, look the same")


def tick(browser: Browser, control: str) -> None:
    """Ticks a box of the page, or takes the tick away."""
    browser.value(f"document.getElementById('{control}').click()")
    browser.settle()


def check_folded(browser: Browser, shown: Path, wrong: Wrong) -> None:
    """Slots, holds and what is prepared are folded, until they are asked for."""
    browser.open(shown)
    high = "document.getElementById('spacer').getBoundingClientRect().height"
    wide = "document.getElementById('scroller').scrollWidth"
    before = browser.value(high), browser.value(wide)
    tick(browser, "slots")
    slots = browser.value(high)
    tick(browser, "holds")
    holds = browser.value(high), browser.value(wide)
    if not before[0] < slots < holds[0]:
        wrong(f"slots and holds aren't folded: {before[0]}, {slots} and {holds[0]} pixels")


def check_daemon(browser: Browser, daemon: Path, wrong: Wrong) -> None:
    """README's daemon shows the loss: in the list, and where its entry is chosen."""
    browser.open(daemon)
    told = browser.value("document.getElementById('list').innerText")
    if SENTENCE not in told or "setresuid 1000 1000 1000" not in told:
        wrong(f"the list of daemon.trace doesn't show the loss: {told!r}")
    browser.value("document.querySelector('#list button').click()")
    browser.settle()
    if SENTENCE not in panel(browser) or "entry 5, line 4" not in panel(browser):
        wrong(f"the loss of daemon.trace is chosen, and {panel(browser)!r} is said")
    check_errors(browser, "daemon.trace", wrong)


def check_use(browser: Browser, shown: Path, wrong: Wrong) -> None:
    """Entries are pointed at and chosen, and the filters leave what they should."""
    browser.open(shown)
    tick(browser, "holds")
    lines = SHOWN.read_text(encoding="ascii").split("\n")
    box = "document.getElementById('canvas').getBoundingClientRect()"
    left, top = browser.value(f"[{box}.left, {box}.top]")
    # The first row's band lies below the axis and a line of texts, its first mark beside the names.
    browser.point(left + 80, top + 61)
    tip = browser.value("(t => t.hidden ? '' : t.innerText)(document.getElementById('tip'))")
    if lines[0] not in tip:
        wrong(f"pointing at the first entry shows {tip!r}")
    for place, keys in enumerate((["Home"], ["ArrowRight"], ["ArrowRight"])):
        if lines[place] not in press(browser, *keys):
            wrong(f"entry {place + 1} is chosen, and {panel(browser)!r} is said")
    fill(browser, "tasks", "t2")
    if lines[3] not in press(browser, "Home", "ArrowRight", "ArrowRight"):
        wrong(f"of t2 alone: {panel(browser)!r}")
    fill(browser, "tasks", "")
    fill(browser, "cap", "13")
    count = browser.value("document.getElementById('hitcount').innerText")
    if not count.startswith("0 "):
        wrong(f"of CAP_NET_RAW {count} tell, where no entry does")


def check_errors(browser: Browser, name: str, wrong: Wrong) -> None:
    """The browser found nothing wrong with a page."""
    if browser.errors():
        wrong(f"{name}: {'; '.join(browser.errors())}")


def check_hostile(browser: Browser, hostile: Path, wrong: Wrong) -> None:
    """Nothing of a hostile report runs, and its names are shown as they are."""
    browser.open(hostile)
    said = press(browser, "Home", "ArrowRight", "ArrowRight")
    if "</script><script>window.evil=1</script>" not in said:
        wrong(f"a hostile name isn't shown as it is: {said!r}")
    press(browser, *["ArrowRight"] * 17)
    browser.point(300, 200)
    if browser.value("typeof window.evil") != "undefined":
        wrong("a name of a report runs in the page")
    check_errors(browser, "a report with hostile names", wrong)


def frames(browser: Browser) -> float:
    """How many milliseconds a frame takes while the page is scrolled through."""
    return float(browser.value("""(async () => {
      const box = document.getElementById("scroller");
      const start = performance.now();
      for (let at = 0; at < 30; at++) {
        box.scrollLeft = (box.scrollWidth / 30) * at;
        await new Promise((done) => requestAnimationFrame(done));
      }
      return (performance.now() - start) / 30;
    })()"""))


def check_long(browser: Browser, long: Path, wrong: Wrong) -> None:
    """A long page opens in time, and is drawn as it is scrolled."""
    # Where others have the processors, one of several times is what it takes.
    opened = MOST_OPEN + 1
    for _ in range(4):
        opened = min(opened, browser.open(long))
        if opened <= MOST_OPEN:
            break
    if opened > MOST_OPEN:
        wrong(f"the page of 20,000 lines opens in {opened} ms")
    near = frames(browser)
    browser.value("document.getElementById('fit').click()")
    browser.settle()
    whole = frames(browser)
    check_errors(browser, "the page of 20,000 lines", wrong)
    print(f"it opens in {opened} ms; a frame takes {near:.0f} ms, and {whole:.0f} of the whole")


def pictures(browser: Browser, pages: dict[str, Path], folder: Path) -> None:
    """Pictures of pages, wide and narrow, light and dark."""
    folder.mkdir(parents=True, exist_ok=True)
    for name, path in pages.items():
        for width in WIDTHS:
            for dark in (False, True):
                browser.screen(width, 800, dark)
                browser.open(path)
                scheme = "dark" if dark else "light"
                (folder / f"{name}-{width}-{scheme}.png").write_bytes(browser.picture())
    print(f"pictures are in {folder}")


def write_picture(browser: Browser, shown: Path, wrong: Wrong) -> None:
    """The picture of README, as large as what is drawn; the eighth entry is chosen in it."""
    high = 1200
    for _ in range(2):
        browser.screen(960, high, dark=False, scale=1.5)
        browser.open(shown)
        press(browser, "Home", *["ArrowRight"] * 7)
        browser.value("document.activeElement.blur()")
        legend = "document.getElementById('legend').getBoundingClientRect().bottom"
        high = round(browser.value(legend)) + 12
    picture = browser.picture()
    if len(picture) > MOST_BYTES:
        wrong(f"the picture has {len(picture)} bytes")
    PICTURE.write_bytes(picture)
    print(f"{PICTURE.relative_to(TOP)} has {len(picture)} bytes")


def look(
    path: str, folder: Path, long: Path, hostile_page: str, given: Namespace, wrong: Wrong
) -> None:
    """Opens pages in a browser, and looks at them as a user would."""
    shown = write_page(SHOWN, folder / "two-services.html")
    hostile = folder / "hostile.html"
    hostile.write_text(hostile_page, encoding="ascii")
    try:
        browser = Browser(path)
    except NoAnswer as fault:
        print(f"{path} doesn't start ({fault}): the pages weren't looked at")
        return
    try:
        check_screens(browser, shown, wrong)
        browser.screen(1280, 800, dark=False)
        check_folded(browser, shown, wrong)
        check_daemon(browser, write_script(DAEMON, folder / "daemon.html"), wrong)
        check_use(browser, shown, wrong)
        check_errors(browser, "in use", wrong)
        check_hostile(browser, hostile, wrong)
        check_long(browser, long, wrong)
        print("in the browser: entries are pointed at and chosen, filters filter, nothing runs")
        if given.pictures:
            unfolded = write_page(SHOWN, folder / "unfolded.html", FOLDED)
            pages = {"two-services": shown, "unfolded": unfolded, "long": long} | {
                name: write_script(TOP / "examples" / f"{name}.trace", folder / f"{name}.html")
                for name in ("daemon", "service", "new-thread", "deputy", "bounding-eperm")
            }
            pictures(browser, pages | {"hostile": hostile}, given.pictures)
        if given.picture:
            write_picture(browser, write_page(SHOWN, folder / "unfolded.html", FOLDED), wrong)
    finally:
        browser.close()
