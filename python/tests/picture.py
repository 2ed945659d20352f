"""Makes docs/report-page.png anew: `python3 -m tests.picture` in the folder `python`, where Chromium is."""

import base64
import tempfile
from pathlib import Path

import virage

from .chromium import Chromium
from .places import TOP, profile, rule

# what is unfolded in it, and how wide it is
UNFOLDED = ("el", "mono", "dcc")
WIDTH = 900

LAST = "[...document.querySelectorAll('.findings')].at(-1)"
END_OF_FINDINGS = f"Math.ceil({LAST}.getBoundingClientRect().bottom + scrollY) + 16"


def main() -> None:
    with tempfile.TemporaryDirectory() as room, Chromium() as browser:
        path = Path(room, "report.html")
        report = virage.report(rule("copeland"), profile("five-ways"))
        path.write_text(virage.page(report, name="copeland"), encoding="utf-8")
        browser.open(str(path))
        browser.resize(WIDTH)
        browser.dark(False)
        for word in UNFOLDED:
            browser.value(f"document.querySelector('[data-property={word}] details').open = true")
        clip = {"x": 0, "y": 0, "width": WIDTH, "height": browser.value(END_OF_FINDINGS), "scale": 1}
        taken = browser.send("Page.captureScreenshot", format="png", captureBeyondViewport=True, clip=clip)
        (TOP / "docs" / "report-page.png").write_bytes(base64.b64decode(taken["data"]))


if __name__ == "__main__":
    main()
