"""Pages of reports in a headless Chromium, where there is one: each is opened, unfolded and looked at."""

import tempfile
import unittest
from pathlib import Path
from typing import List

import virage

from . import hostile
from .chromium import BROWSER, Chromium
from .places import RULES, profile

# the derivation that is unfolded first, and what is seen of its nodes
FIRST = "document.querySelector('.always details')"
SEEN = "[...{}.querySelectorAll('.node')].filter(node => node.checkVisibility()).map(node => node.innerText)"
TOO_WIDE = "document.documentElement.scrollWidth > innerWidth"


@unittest.skipUnless(BROWSER, "Chromium isn't here")
class Pages(unittest.TestCase):
    browser: Chromium
    room: "tempfile.TemporaryDirectory[str]"

    @classmethod
    def setUpClass(cls) -> None:
        cls.room = tempfile.TemporaryDirectory()
        cls.browser = Chromium()

    @classmethod
    def tearDownClass(cls) -> None:
        cls.browser.__exit__(None, None, None)
        cls.room.cleanup()

    def open(self, report: virage.Report) -> None:
        path = Path(self.room.name, "report.html")
        path.write_text(virage.page(report), encoding="utf-8")
        self.browser.open(str(path))

    def unfold_by_keys(self) -> None:
        """Goes to the first derivation by the tabulator key, and unfolds it by the enter key."""
        for _ in range(40):
            self.browser.press("Tab", 9)
            if self.browser.value(f"document.activeElement === {FIRST}.querySelector('summary')"):
                self.browser.press("Enter", 13)
                return
        self.fail("the first derivation can't be reached by the tabulator key")

    def seen(self, details: str) -> List[str]:
        return list(self.browser.value(SEEN.format(details)))

    def test_derivations_of_the_cookbook(self) -> None:
        for path in RULES:
            report = virage.report(path, profile("board"))
            self.open(report)
            self.assertEqual(self.seen(FIRST), [], "it is folded at first")
            self.unfold_by_keys()
            for i, derivation in enumerate(report.holds.values()):
                details = f"document.querySelectorAll('.always details')[{i}]"
                self.browser.value(f"{details}.open = true")
                nodes = [f"{node.judgement} by {node.rule}" for node in derivation.preorder()]
                self.assertEqual(self.seen(details), nodes, path)

    def test_it_is_short_and_a_link_unfolds_what_a_word_means(self) -> None:
        self.open(virage.report(RULES[0], profile("board")))
        self.browser.resize(900)
        self.assertLess(self.browser.value("document.documentElement.scrollHeight"), 3000)
        self.browser.value(f"{FIRST}.open = true")
        self.browser.value(f"{FIRST}.querySelector('a').click()")
        self.assertTrue(self.browser.value("document.querySelector(':target').checkVisibility()"))

    def test_widths_and_colours(self) -> None:
        for report in (virage.report(RULES[-1], profile("five-ways")), self._deepest(), hostile.report()):
            self.open(report)
            self.browser.value("document.querySelectorAll('details').forEach(details => details.open = true)")
            for width in (320, 640, 1200):
                self.browser.resize(width)
                self.assertFalse(self.browser.value(TOO_WIDE), f"{report.term} at {width} pixels")
            grounds = []
            for dark in (False, True):
                self.browser.dark(dark)
                grounds.append(self.browser.value("getComputedStyle(document.documentElement).backgroundColor"))
            self.assertNotEqual(*grounds)

    def test_hostile_names(self) -> None:
        report = hostile.report()
        self.open(report)
        self.assertEqual(self.browser.value("document.title"), f"Report: {report.term}")
        self.assertEqual(self.browser.value("document.scripts.length"), 0)
        self.assertTrue(self.browser.value("document.querySelector('main').checkVisibility()"))
        told = [event["method"] for event in self.browser.events]
        self.assertEqual(told.count("Network.requestWillBeSent"), 1, "the file itself")
        for method in ("Log.entryAdded", "Runtime.exceptionThrown", "Runtime.consoleAPICalled"):
            self.assertNotIn(method, told)

    def test_what_is_folded_is_printed(self) -> None:
        self.open(virage.report(RULES[0], profile("board")))
        self.browser.send("Emulation.setEmulatedMedia", media="print")
        height = self.browser.value(f"{FIRST}.querySelector('.node').getBoundingClientRect().height")
        self.browser.send("Emulation.setEmulatedMedia", media="")
        self.assertGreater(height, 0)

    def test_a_reader_of_the_screen_is_told_of_rows_and_trees(self) -> None:
        self.open(virage.report(RULES[0], profile("board")))
        self.browser.resize(320)
        nodes = self.browser.send("Accessibility.getFullAXTree")["nodes"]
        roles = [node.get("role", {}).get("value") for node in nodes]
        self.assertEqual(roles.count("navigation"), 1)
        self.assertGreater(roles.count("list"), 2)
        self.assertEqual(roles.count("DisclosureTriangle"), 20, "18 properties, the words, and the report as printed")

    def _deepest(self) -> virage.Report:
        term = "elect"
        for _ in range(31):
            term = f"seq(rev(pass(2,[3,1])),{term})" if len(term) % 2 else f"until(2,par(defer,{term}))"
        return virage.report(f"r = {term};", profile("board"))


if __name__ == "__main__":
    unittest.main()
