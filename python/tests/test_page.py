"""The page of a report, as markup. No browser is called."""

import itertools
import re
import subprocess
import unittest
from html.parser import HTMLParser
from pathlib import Path
from typing import List, Optional, Tuple

import virage
from virage import page, read_report

from . import hostile
from .places import EXPECTED, RULES, TOP, profile, rule

VOID = {"meta", "wbr"}
ELEMENTS = VOID | set(
    "html head title style body header main footer section nav div h1 h2 h3 h4 p span code pre ul li bdi"
    " table thead tbody tr th td caption a details summary dl dt dd em strong b svg rect".split()
)
ATTRIBUTES = set(
    "lang charset http-equiv content name class id href role scope tabindex aria-labelledby aria-label aria-hidden"
    " open viewbox preserveaspectratio x y width height data-property".split()
)


class Reader(HTMLParser):
    """Goes through a page, and takes down what is not as it has to be."""

    def __init__(self, text: str) -> None:
        super().__init__(convert_charrefs=True)
        self.wrong: List[str] = []
        self.open: List[str] = []
        self.ids: List[str] = []
        self.links: List[str] = []
        self.said: List[str] = []
        self.feed(text)
        self.close()
        self.wrong += [f"{tag} isn't closed" for tag in self.open]
        self.wrong += [f"{link} leads nowhere" for link in self.links if link[:1] != "#" or link[1:] not in self.ids]
        self.wrong += [f"{id_} stands twice" for id_ in set(self.ids) if self.ids.count(id_) > 1]

    def handle_starttag(self, tag: str, attrs: List[Tuple[str, Optional[str]]]) -> None:
        if tag not in ELEMENTS:
            self.wrong.append(f"<{tag}>")
        self.wrong += [f"{key} of <{tag}>" for key, _ in attrs if key not in ATTRIBUTES]
        given = dict(attrs)
        self.ids += [str(given["id"])] if "id" in given else []
        self.links += [str(given[key]) for key in ("href", "src") if key in given]
        if tag not in VOID:
            self.open.append(tag)

    def handle_endtag(self, tag: str) -> None:
        if not self.open or self.open.pop() != tag:
            self.wrong.append(f"</{tag}> where another element is open")

    def handle_data(self, data: str) -> None:
        self.said.append(data)


class Pages(unittest.TestCase):
    def test_pages_of_the_cookbook(self) -> None:
        for path in RULES:
            report = virage.report(path, profile("board"))
            read = Reader(page(report))
            self.assertEqual(read.wrong, [], path)
            said = "".join(read.said)
            for derivation in report.holds.values():
                for node in derivation.preorder():
                    self.assertIn(f"{node.judgement} by {node.rule}", said)
            for reasons in report.underived.values():
                for reason in reasons:
                    self.assertIn(f"but its premise {reason.number} has no derivation: {reason.premise}", said)

    def test_each_named_rule_is_explained(self) -> None:
        for recorded in EXPECTED.glob("report.*"):
            said = "".join(Reader(page(read_report(recorded.read_bytes()))).said)
            self.assertIn("nobody is elected; and when a deferred alternative is lifted", said)
        self.assertIn("who is elected by a sequence is elected by one of its parts.", said)

    def test_names_are_text(self) -> None:
        report = hostile.report()
        made = page(report)
        read = Reader(made)
        self.assertEqual(read.wrong, [])
        said = "".join(read.said)
        self.assertIn("<script>document.title='taken'</script>", said)
        self.assertIn("&lt;b&gt;not an entity&amp;", said)
        self.assertIn("[byte FF][byte FE][U+0000][U+001B][31m", said)
        self.assertIn("[U+202E]gnp.exe [U+2066]turned round[U+2069]", said)
        self.assertIn("W" * 200 + "… (5,000 characters)", said)
        for sign in "\x00\x1b\x85\u202e\u2028\ufeff":
            self.assertNotIn(sign, made)
        made.encode("utf-8")

    def test_the_page_allows_no_script_and_no_network(self) -> None:
        made = page(hostile.report())
        self.assertIn("default-src 'none'; style-src 'sha256-", made)
        self.assertNotIn("url(", made)
        self.assertNotIn("@import", made)


class Command(unittest.TestCase):
    def test_a_report_in_and_a_page_out(self) -> None:
        ended = self._run((EXPECTED / "report.copeland.board").read_bytes())
        self.assertEqual((ended.returncode, ended.stderr), (0, b""))
        self.assertEqual(Reader(ended.stdout.decode()).wrong, [])

    def test_each_part_behind_the_report_may_be_left_out(self) -> None:
        rule_file, votes = rule("black"), profile("tied")
        profile_text = b"\n\n" + Path(votes).read_bytes()
        explained = virage.explain(rule_file, votes)
        assert explained is not None
        titles = {
            "How the result came about": explained.text,
            "Who is preferred to whom": virage.pairs(votes).text,
            "The ballots": profile_text,
        }
        for some in itertools.product((False, True), repeat=3):
            chosen = [text for text, taken in zip(titles.values(), some) if taken]
            ended = self._run(b"".join([virage.report(rule_file, votes).text, *chosen]))
            self.assertEqual((ended.returncode, ended.stderr), (0, b""), some)
            said = Reader(ended.stdout.decode()).said
            self.assertEqual([title in said for title in titles], list(some))

    def test_the_page_is_headed_by_the_name_of_the_rule(self) -> None:
        text = (EXPECTED / "report.instant-runoff.divided").read_bytes()
        ended = self._run(text, str(rule("instant-runoff")))
        self.assertEqual((ended.returncode, ended.stderr), (0, b""))
        self.assertIn(b"<h1>instant-runoff</h1><p><code>seq(", ended.stdout)
        self.assertIn(b"<h1>Report on a voting rule</h1>", self._run(text).stdout)
        self.assertEqual(self._run(text, "no-such-file.vir").returncode, 1)

    def test_the_parts_are_listed_and_long_ones_are_folded(self) -> None:
        votes = profile("five-ways")
        explained, pairs = virage.explain(rule("instant-runoff"), votes), virage.pairs(votes)
        read_votes = virage.Profile.read(Path(votes).read_bytes())
        made = page(virage.report(rule("instant-runoff"), votes), explained, pairs, read_votes)
        titles = [title for _, title in re.findall(r'<li><a href="#([a-z]*)">([^<]*)</a></li>', made)]
        self.assertEqual(titles[:4], ["Who is elected", "How the result came about", "Who is preferred to whom",
                                      "The ballots"])
        self.assertIn("<details><summary>Properties and rules of derivation</summary>", made)
        said = "".join(Reader(made).said)
        self.assertIn("5 a pool wins against each other alternative in a duel", said)
        self.assertIn("isn't elected: it goes in round 1.", said)

    def test_without_a_report(self) -> None:
        whole = (EXPECTED / "report.copeland.board").read_bytes()
        cut = b"\n".join(whole.split(b"\n")[:-2]) + b"\n"
        for text in (b"", b"elected: 1\n", b"rule elect\n", b"\xff", whole[:-3], cut):
            ended = self._run(text)
            self.assertEqual((ended.returncode, ended.stdout), (1, b""))
            self.assertRegex(ended.stderr.decode(), r"\Areport-page: .*\n\Z")

    def _run(self, text: bytes, *words: str) -> "subprocess.CompletedProcess[bytes]":
        call = [str(TOP / "pages" / "report-page"), *words]
        return subprocess.run(call, input=text, capture_output=True, check=False)


if __name__ == "__main__":
    unittest.main()
