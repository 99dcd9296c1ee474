"""Pages in a headless Chromium."""
from __future__ import annotations

import json
import re
import shutil
import struct
import subprocess
import zlib
from itertools import product
from pathlib import Path

from helpers import TABLES, Ended, Tally, run

CHROMIUMS = ("chromium", "chromium-browser", "google-chrome")
FLAGS = ("--headless=new", "--no-sandbox", "--disable-gpu", "--disable-dev-shm-usage", "--enable-logging=stderr", "--v=0")
# the widths of pages, and how far down their picture begins at most
HIGHEST = {500: 440, 1280: 330, 1920: 330}
# how a page is asked for in light and in dark
THEMES = {"light": "--blink-settings=preferredColorScheme=1", "dark": "--blink-settings=preferredColorScheme=0"}
PAGES = "eight.html", "frames.html", "images.html"


def pixels_of(png: bytes) -> bytes:
    """The rows of an image, without their filters being undone: enough to tell whether it is blank."""
    at, packed = 8, b""
    while at < len(png):
        size, kind = struct.unpack(">I4s", png[at : at + 8])
        packed += png[at + 8 : at + 8 + size] if kind == b"IDAT" else b""
        at += size + 12
    return zlib.decompress(packed)


class Chromium:
    """A headless Chromium, where one is installed."""

    def __init__(self, room: Path) -> None:
        self.room = room
        self.program = next(filter(None, map(shutil.which, CHROMIUMS)), None)

    def opened(self, name: str, script: str, size: str, *words: str) -> Ended | None:
        """How it ends over a page of the folder that has a script of tables/ behind its own."""
        html, opened = (self.room / name).read_text(encoding="utf-8"), self.room / "opened.html"
        script = (TABLES / script).read_text(encoding="utf-8")
        keeps = f"<script>{script}document.body.dataset.found = JSON.stringify(found);</script></body>"
        opened.write_text(html.replace("</body>", keeps), encoding="utf-8")
        data = f"--user-data-dir={self.room / 'browser'}"
        try:
            return run([str(self.program), *FLAGS, f"--window-size={size}", data, *words, opened.as_uri()])
        except subprocess.TimeoutExpired:
            return None


def found_in(dumped: Ended | None) -> object:
    """What the script found, or nothing."""
    found = re.search(r'data-found="([^"]*)"', dumped.stdout.decode() if dumped else "")
    return json.loads(found[1].replace("&quot;", '"')) if found else None


def browser(tally: Tally, program: str, room: Path) -> None:
    """Pages in a headless Chromium: no error on the console, a script that ran, calls that can be seen, and places that stay
    in sight."""
    chromium = Chromium(room)
    if not chromium.program:
        return print("timeline: skipped: no Chromium, so no page was opened")
    dumped = chromium.opened("life.html", "seen.js", "900,900", "--dump-dom")
    if not dumped or dumped.returncode or b"</html>" not in dumped.stdout:
        return print("timeline: skipped: Chromium doesn't start here, so no page was opened")
    errors = [line for line in dumped.stderr.decode("utf-8", "replace").splitlines() if "CONSOLE" in line]
    tally.check(not errors, f"the page has errors on the console: {errors[:2]}")
    drawn, seen = (room / "life.html").read_text(encoding="utf-8").count('<g class="call '), found_in(dumped)
    tally.check(drawn > 0 and seen, "the page's drawing is empty")
    tally.same(seen, [drawn, drawn], "the calls that can be seen, and those that the page's script named")
    image = room / "page.png"
    chromium.opened("life.html", "seen.js", "900,900", f"--screenshot={image}")
    tally.check(image.exists() and len(set(pixels_of(image.read_bytes()))) > 30, "the page is blank")
    return looks(tally, chromium)


def looks(tally: Tally, chromium: Chromium) -> None:
    """Pages, narrow and wide, in light and in dark: the picture is near the top, its places stay in sight, and no word of it is cut or stands on
    another one."""
    for name, width, theme in product(PAGES, HIGHEST, THEMES):
        told, what = found_in(chromium.opened(name, "look.js", f"{width},800", THEMES[theme], "--dump-dom")), f"{name}, {width} pixels, {theme}"
        if not told:
            tally.check(False, f"{what}: the page wasn't looked at")
            continue
        tally.check(told["top"] <= HIGHEST[width], f"{what}: the picture begins at {told['top']}")
        tally.check(told["inside"], f"{what}: the places go out of sight where one scrolls in the picture")
        tally.check(told["above"] or name != PAGES[0], f"{what}: the places go out of sight where one scrolls the page")
        tally.check(told["wide"], f"{what}: the page is wider than its window")
        tally.same((told["cut"], told["over"]), ([], []), f"{what}: words that are cut, and names that stand on each other")
        tally.same(told["dark"], theme == "dark", f"{what}: whether its background is dark")
