"""Printed texts as data, and back. No program is called."""

import unittest

from virage import Derivation, Judgement, Profile, Reason, Term, read_report, table
from virage.derivations import read_reasons

from .places import EXPECTED, TOP

SEQUENTIAL = "seq(loop(1,par(seq(pass(2,[3,1,2]),seq(rev(plurality),pass(1,[3,1,2]))),drop(2,[3,1,2]))),elect)"


class Terms(unittest.TestCase):
    def test_printed_terms_are_read_and_printed(self) -> None:
        others = ("elect", "pass(1)", "until(2,min(plurality))", "par(max(borda),defer)", "drop(3,[1024])")
        for text in (SEQUENTIAL, *others):
            self.assertEqual(str(Term.read(text)), text)

    def test_a_term_has_what_its_word_takes(self) -> None:
        term = Term.read("loop(4,seq(pass(2,[3,1]),max(minimax)))")
        self.assertEqual((term.word, term.number, term.size), ("loop", 4, 4))
        first, second = term.parts[0].parts
        self.assertEqual((first.number, first.order, second.score), (2, (3, 1), "minimax"))

    def test_blanks_stand_between_words_and_signs(self) -> None:
        term = Term.read(" seq( max (borda) ,\n pass(2, [3 , 1]) )\t")
        self.assertEqual(str(term), "seq(max(borda),pass(2,[3,1]))")
        with self.assertRaises(ValueError):
            Term.printed("seq(elect, elect)")

    def test_other_texts_are_no_terms(self) -> None:
        arguments = ("seq(elect)", "elect(1)", "pass", "max(1)", "max(elect(1))", "rev(1)", "loop(elect,elect)")
        signs = ("", "seq(elect,elect))", "elect,", "seq(elect,, elect)", "pass(1,[)", "1", "[1]")
        blanks = ("pass(1 2)", "el ect")
        for text in ("foo", *arguments, *signs, *blanks):
            with self.assertRaises(ValueError, msg=text):
                Term.read(text)


class Judgements(unittest.TestCase):
    def test_printed_judgements_are_read_and_printed(self) -> None:
        for text in ("mono of seq(max(copeland),elect)", "defers(1) of pass(1)", "disj of pass(2) and drop(2)"):
            self.assertEqual(str(Judgement.read(text)), text)

    def test_other_texts_are_no_judgements(self) -> None:
        for text in ("mono", "mono elect", "mono on elect", "mono of", "disj of elect and", "disj of elect or elect"):
            with self.assertRaises(ValueError, msg=text):
                Judgement.read(text)


class Derivations(unittest.TestCase):
    def test_each_node_has_its_judgement(self) -> None:
        text = "mono-seq-ea(ne-leaf,dmono-leaf,ea-leaf)"
        derivation = Derivation.read(text, Judgement.read("mono of seq(max(copeland),elect)"))
        self.assertEqual(str(derivation), text)
        said = [(node.rule, str(node.judgement)) for node in derivation.preorder()]
        self.assertEqual(said[1:], [
            ("ne-leaf", "ne of max(copeland)"),
            ("dmono-leaf", "dmono of max(copeland)"),
            ("ea-leaf", "ea of elect"),
        ])

    def test_drawings_are_those_of_the_pages(self) -> None:
        report = read_report((EXPECTED / "report.copeland.board").read_bytes())
        page = (TOP / "docs" / "GUIDE.md").read_text(encoding="utf-8")
        drawn = [line.split() for line in report.holds["mono"].drawn().split("\n")]
        self.assertIn(drawn, _runs(page, len(drawn)))

    def test_what_is_not_valid_is_refused(self) -> None:
        for text, judgement in (
            ("ne-leaf", "ne of elect"),
            ("ne-seq(ne-leaf)", "ne of seq(defer,defer)"),
            ("ne-seq(ne-leaf,ne-leaf)", "ne of seq(defer,elect)"),
            ("defers-leaf", "defers(2) of pass(1)"),
            ("defers-loop-elim(elim-par-left,ne-leaf)", "defers(2) of loop(1,defer)"),
            ("disj-pass-drop", "disj of pass(1) and drop(1,[2])"),
            ("cprog-leaf", "cprog of min(plurality)"),
            ("dcc-loop(cprog-leaf)", "dcc of loop(2,min(borda))"),
            ("no-such-rule", "ne of defer"),
        ):
            with self.assertRaises(ValueError, msg=text):
                Derivation.read(text, Judgement.read(judgement))

    def test_letters_stand_for_what_they_have_to(self) -> None:
        for text, judgement in (
            ("defers-seq-both(defers-leaf,defers-leaf)", "defers(2) of seq(pass(2),pass(2,[9]))"),
            ("disj-seq-right(disj-pass-drop)", "disj of pass(1,[2]) and seq(drop(1,[2]),elect)"),
            ("dcc-until(cprog-leaf)", "dcc of until(1,upto(borda))"),
            ("nb-el(el-ea(ea-leaf))", "nb of elect"),
        ):
            self.assertEqual(str(Derivation.read(text, Judgement.read(judgement))), text)


def _runs(page: str, length: int) -> list:
    lines = [line.split() for line in page.split("\n")]
    return [lines[i : i + length] for i in range(len(lines))]


class Reasons(unittest.TestCase):
    def test_reasons_are_read_and_printed(self) -> None:
        text = "mono-seq-ea 2 dmono of loop(1,min(plurality))"
        expected = Reason("mono-seq-ea", 2, Judgement.read("dmono of loop(1,min(plurality))"))
        self.assertEqual(read_reasons(["- " + text]), (expected,))
        self.assertEqual(str(expected), text)
        self.assertEqual(read_reasons(["- no rule"]), ())


class Page(unittest.TestCase):
    def test_the_page_says_something_of_each_rule_and_property(self) -> None:
        rules, properties = table().rules, table().properties
        self.assertEqual(sorted(rule.number for rule in rules.values()), list(range(1, len(rules) + 1)))
        for rule in rules.values():
            self.assertTrue(rule.why, rule.name)
        report = read_report((EXPECTED / "report.copeland.board").read_bytes())
        self.assertEqual([text.split("(")[0] for text in report.findings], list(properties))


class Reports(unittest.TestCase):
    def test_a_recorded_report(self) -> None:
        report = read_report((EXPECTED / "report.copeland.board").read_bytes())
        self.assertEqual((report.alternatives, report.voters), (3, 9))
        self.assertEqual(report.names, {1: "Ito, K.: list A", 2: "Muller", 3: "Ruiz"})
        self.assertEqual((report.result.elected, report.result.rejected, report.result.deferred), ({2}, {1, 3}, set()))
        self.assertEqual(report.result.labels(report.result.rejected), ["Ito, K.: list A", "Ruiz"])
        self.assertEqual(list(report.holds), ["el", "nb", "mono", "cc", "ccomp", "neut"])
        self.assertEqual(report.underived["imono"], ())
        self.assertEqual(str(report.underived["ne"][0]), "ne-seq 2 ne of elect")

    def test_what_is_cut_off_is_no_report(self) -> None:
        text = (EXPECTED / "report.copeland.board").read_bytes()
        lines = text.split(b"\n")
        for cut in (b"", text[:-1], b"\n".join(lines[:5]) + b"\n", text + b"what\n"):
            with self.assertRaises(ValueError):
                read_report(cut)


class Profiles(unittest.TestCase):
    def test_orders_list_numbers_or_names(self) -> None:
        text = b"# NUMBER ALTERNATIVES: 2\n# ALTERNATIVE NAME 1: tea\n# ALTERNATIVE NAME 2: milk\n2: 2,1\n1: 1,2\n"
        by_names = Profile.of([(2, ["milk", "tea"]), (1, ["tea", "milk"])], names=["tea", "milk"])
        self.assertEqual(by_names.text(), text)
        self.assertEqual(Profile.of([(2, [2, 1]), (1, [1, 2])], names=["tea", "milk"]), by_names)
        self.assertEqual(Profile.of([(1, ["b", "a"])]).names, {1: "b", 2: "a"})

    def test_what_cannot_be_written_is_refused(self) -> None:
        with self.assertRaises(ValueError):
            Profile.of([(1, ["a", "b"])], names=["a", "a"])
        with self.assertRaises(ValueError):
            Profile.of([(1, ["a", "c"])], names=["a", "b"])
        with self.assertRaises(ValueError):
            Profile.of([(1, [1])], names=["a\n1: 1"]).text()
        for line in ((1.5, [1]), ["tea", "milk"], ["tea", "milk", "soup"], [1, 2, 3], 7):
            with self.assertRaisesRegex(TypeError, "a line of votes is a weight and an order"):
                Profile.of([line])


if __name__ == "__main__":
    unittest.main()
