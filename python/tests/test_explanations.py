"""Explanations and pairs: as data, and on a page."""

import subprocess
import unittest
from typing import List

import virage
from virage import Account, Profile, page, read_explanation, read_pairs, read_report

from . import hostile
from .places import EXPECTED, TOP, profile, rule
from .test_page import Reader

FIVE_WAYS = EXPECTED / "explain.instant-runoff.five-ways"


def places(account: Account) -> List[object]:
    return [account.visit.place, *([places(part) for part in account.below])]


class Texts(unittest.TestCase):
    def test_rounds_of_instant_runoff(self) -> None:
        explained = read_explanation(FIVE_WAYS.read_bytes())
        self.assertEqual((str(explained.term), explained.alternatives, explained.voters), (
            "seq(loop(1,min(plurality)),elect)", 5, 55))
        rounds = [visit for visit in explained.visits if visit.place == 2]
        self.assertEqual([sorted((visit.scores or {}).items()) for visit in rounds], [
            [(1, 18), (2, 12), (3, 10), (4, 9), (5, 6)], [(1, 18), (2, 16), (3, 12), (4, 9)],
            [(1, 18), (2, 16), (3, 21)], [(1, 18), (3, 37)]])
        self.assertEqual([sorted(visit.result.rejected) for visit in rounds], [[5], [4], [2], [1]])
        self.assertEqual(explained.result.labels(explained.result.elected), ["a bridge"])
        self.assertEqual(places(explained.account), [0, [1, [2], [2], [2], [2]], [3]])

    def test_loops_around_other_compositions(self) -> None:
        explained = read_explanation((EXPECTED / "explain.sequential-majority.five-ways").read_bytes())
        one_round = [2, [3, [4], [5, [6, [7]], [8]]], [9]]
        self.assertEqual(places(explained.account), [0, [1, one_round, one_round, one_round, one_round], [10]])

    def test_texts_that_are_none(self) -> None:
        whole = FIVE_WAYS.read_bytes()
        for old, new in (
            (b"at 2 min(plurality)", b"at 2 elect"), (b"at 3 elect", b"at 4 elect"), (b"\n\nat 1 ", b"\nat 1 "),
            (b"deferred: 3\n", b""), (b"1=18", b"1:18"), (whole[whole.rindex(b"\n\nat") + 1:], b""),
            (whole, b"rule elect\n"),
        ):
            with self.assertRaises((ValueError, IndexError, TypeError), msg=str(old)):
                read_explanation(whole.replace(old, new, 1))

    def test_pairs(self) -> None:
        pairs = read_pairs((EXPECTED / "pairs.five-ways").read_bytes())
        self.assertEqual((pairs.winner, pairs.prefer(5, 4), pairs.margin(5, 4), pairs.margin(1, 2)), (5, 28, 1, -19))
        self.assertEqual(pairs.matrix[0], (0, 18, 18, 18, 18))
        self.assertIsNone(read_pairs((EXPECTED / "pairs.tied").read_bytes()).winner)
        with self.assertRaises(ValueError):
            read_pairs((EXPECTED / "pairs.tied").read_bytes().replace(b" 5 6\n", b" 5\n", 1))


class Commands(unittest.TestCase):
    def test_explain_and_pairs(self) -> None:
        explained = virage.explain(rule("baldwin"), profile("five-ways"))
        assert explained is not None
        self.assertEqual(explained.text, (EXPECTED / "explain.baldwin.five-ways").read_bytes())
        self.assertEqual(explained.result, virage.count(rule("baldwin"), profile("five-ways")))
        self.assertEqual(virage.pairs(profile("five-ways")).text, (EXPECTED / "pairs.five-ways").read_bytes())
        with self.assertRaises(virage.TextRefused):
            virage.explain("r = elekt;", profile("five-ways"))
        with self.assertRaises(virage.ProfileRefused):
            virage.pairs("no profile\n")


class Pages(unittest.TestCase):
    def test_a_page_with_all(self) -> None:
        report = virage.report(rule("instant-runoff"), profile("five-ways"))
        ballots = Profile.read((TOP / "examples/profiles/five-ways.soc").read_bytes())
        self.assertEqual(ballots.lines[5], (2, (5, 3, 4, 2, 1)))
        pairs = read_pairs((EXPECTED / "pairs.five-ways").read_bytes())
        made = page(report, read_explanation(FIVE_WAYS.read_bytes()), pairs, ballots)
        read = Reader(made)
        self.assertEqual(read.wrong, [])
        said = "".join(read.said)
        scores = "Scores by which min(plurality) goes"
        for words in ("Round 4", scores, "✕ rejected", "▲ 28 +1", "27 −1", "The ballots"):
            self.assertIn(words, said)

    def test_an_explanation_of_another_rule(self) -> None:
        report = read_report((EXPECTED / "report.copeland.board").read_bytes())
        with self.assertRaises(ValueError):
            page(report, read_explanation(FIVE_WAYS.read_bytes()))

    def test_names_are_text(self) -> None:
        lines = (EXPECTED / "pairs.five-ways").read_bytes().split(b"\n")
        names = [name if isinstance(name, bytes) else name.encode() for name in hostile.NAMES[:5]]
        said = [b"name %d: %s" % (i, name) for i, name in enumerate(names, 1)]
        pairs = read_pairs(b"\n".join(lines[:2] + said + lines[7:]))
        self.assertEqual(Reader(page(hostile.report(), pairs=pairs)).wrong, [])

    def test_texts_one_behind_the_other(self) -> None:
        words = [(["report", "explain"], ["instant-runoff"]), (["pairs"], [])]
        files = [str(TOP / "examples/profiles/five-ways.soc")]
        text = b"".join(
            subprocess.run(
                [str(TOP / "virage"), command, *(rule(name) for name in rules), *files], capture_output=True, check=True
            ).stdout
            for commands, rules in words
            for command in commands
        )
        ballots = (TOP / "examples/profiles/five-ways.soc").read_bytes()
        for given, shown in ((text, False), (text + ballots, True)):
            ended = subprocess.run([str(TOP / "pages/report-page")], input=given, capture_output=True, check=False)
            self.assertEqual((ended.returncode, ended.stderr), (0, b""))
            read = Reader(ended.stdout.decode())
            self.assertEqual(read.wrong, [])
            self.assertEqual("The ballots" in read.said, shown)
            self.assertIn("Round 4", read.said)


if __name__ == "__main__":
    unittest.main()
