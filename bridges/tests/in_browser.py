#!/usr/bin/env python3
"""Opens a page in chromium without a screen, as wide as a phone, and says what is wrong: an error, something wider than the screen, or a text
that the page doesn't show.

    in_browser.py PAGE [TEXT..]
"""
import html
import json
import re
import subprocess
import sys
import tempfile
import urllib.parse

WIDTH = 360
FRAME = """<!DOCTYPE html><body><iframe id="page" width="%d" height="700" srcdoc="%s"></iframe><script id="seen" type="text/plain"></script><script>
const frame = document.getElementById("page");
frame.addEventListener("load", () => {
  const shown = frame.contentDocument;
  document.getElementById("seen").textContent = encodeURIComponent(JSON.stringify({
    wide: shown.documentElement.scrollWidth, screen: shown.documentElement.clientWidth, text: shown.body.innerText.replace(/\\s+/g, " ")}));
});
</script></body>"""


def seen(page):
    """What a browser makes of the page, and what it says of errors."""
    with tempfile.NamedTemporaryFile("w", suffix=".html", encoding="utf-8") as file:
        file.write(FRAME % (WIDTH, html.escape(page)))
        file.flush()
        made = subprocess.run(["chromium", "--headless", "--no-sandbox", "--disable-gpu", "--enable-logging=stderr", "--virtual-time-budget=5000",
                               "--window-size=800,900", "--dump-dom", "file://" + file.name], capture_output=True, text=True, timeout=60)
    found = re.search(r'<script id="seen" type="text/plain">([^<]*)</script>', made.stdout)
    if found is None or not found.group(1):
        sys.exit("the page wasn't loaded: " + made.stderr[-500:])
    return json.loads(urllib.parse.unquote(found.group(1))), [line for line in made.stderr.splitlines() if "CONSOLE" in line]


def main():
    with open(sys.argv[1], encoding="utf-8") as file:
        shown, errors = seen(file.read())
    for line in errors:
        print(line)
    if shown["wide"] > shown["screen"]:
        print(f"{shown['wide']} pixels are wider than the screen's {shown['screen']}")
    for text in sys.argv[2:]:
        if text not in shown["text"]:
            print(f"doesn't show: {text}")


if __name__ == "__main__":
    main()
