"""What the program says of rules alone, and positional scores, where it has the commands."""

import tempfile
import unittest
from pathlib import Path

import virage

from .places import RULES, profile, rule

ONE_NODE_WRONG = """virage-certificate 1
term par(rev(plurality),defer)
property dli
derivation dli-par(disj-pass-drop,dli-leaf,dli-leaf)
"""


class Proofs(unittest.TestCase):
    def test_proofs_are_those_of_reports(self) -> None:
        for path in RULES:
            report = virage.report(path, profile("divided"))
            for word in ("mono", "defers(1)", "neut"):
                said = virage.prove(path, word)
                if isinstance(said, virage.Certificate):
                    self.assertEqual(said.derivation, report.holds[word])
                    self.assertEqual(said.term, report.term)
                else:
                    self.assertEqual(said.reasons, report.underived[word])

    def test_the_version_is_that_which_is_needed(self) -> None:
        for word, version in (("cc", 1), ("neut", 2)):
            said = virage.prove(rule("copeland"), word)
            self.assertIsInstance(said, virage.Certificate)
            self.assertEqual(said.version, version)

    def test_properties_are_words_of_the_language(self) -> None:
        for word in ("monotone", "defers", "defers(0)", "ne of", ""):
            with self.assertRaises(virage.UsageFault):
                virage.prove(rule("copeland"), word)


class Checks(unittest.TestCase):
    def test_what_is_proved_is_accepted(self) -> None:
        certificate = virage.prove(rule("sequential-majority"), "mono")
        self.assertIsInstance(certificate, virage.Certificate)
        with tempfile.TemporaryDirectory() as room:
            path = Path(room, "certificate")
            path.write_bytes(certificate.text)
            for given in (certificate, certificate.text, certificate.text.decode(), path, str(path)):
                self.assertTrue(virage.check(given))
        self.assertEqual(virage.read_certificate(certificate.text), certificate)

    def test_what_is_not_valid_is_told_by_its_node(self) -> None:
        verdict = virage.check(ONE_NODE_WRONG)
        self.assertEqual((bool(verdict), verdict.node, verdict.why), (False, 1, "RuleDoesNotFit"))
        verdict = virage.check(ONE_NODE_WRONG.replace(",dli-leaf)", ")"))
        self.assertEqual((verdict.node, verdict.why), (0, "WrongNumberOfPremises"))
        with self.assertRaises(ValueError):
            virage.read_certificate(ONE_NODE_WRONG.encode())

    def test_what_is_no_certificate_is_refused(self) -> None:
        with self.assertRaises(virage.TextRefused) as refused:
            virage.check(b"virage-certificate 3")
        self.assertEqual((refused.exception.kind, refused.exception.byte), ("BadHeader", 0))


class Searches(unittest.TestCase):
    def test_the_first_rule(self) -> None:
        found = virage.synth(3, ["cc", "mono", "el"])
        self.assertEqual(str(found and found.term), "seq(max(copeland),elect)")
        self.assertEqual(list(found.derivations), ["cc", "mono", "el"])

    def test_modules_are_texts_or_terms(self) -> None:
        elect = virage.Term.read("elect")
        for leaves in ("elect", elect, ["elect"], [elect, "pass(1,[2])"]):
            found = virage.synth(2, "el,mono", leaves)
            self.assertEqual(found and found.term, elect)
        self.assertIsNone(virage.synth(9, ["ne", "el"]))

    def test_bounds(self) -> None:
        for size, leaves in ((0, None), (16, None), (1, []), (1, ["foo"])):
            with self.assertRaises(virage.UsageFault):
                virage.synth(size, "el", leaves)


class Positions(unittest.TestCase):
    def test_weights_of_places(self) -> None:
        for weights, kind, rejected in (([2, 1, 0], "min", {3}), ([3, 1, 0], "upto", {1, 3}), ([1], "max", set())):
            result = virage.position(weights, kind, profile("board"))
            self.assertEqual((result.elected, result.rejected), (set(), rejected))
            self.assertEqual(result.names[2], "Muller")

    def test_weights_never_rise(self) -> None:
        for weights, kind in (([0, 1], "max"), ([], "max"), ([-1], "max"), ([1], "most"), ([1000001], "max")):
            with self.assertRaises(virage.UsageFault):
                virage.position(weights, kind, profile("board"))
        with self.assertRaises(TypeError):
            virage.position([1.5], "max", profile("board"))


if __name__ == "__main__":
    unittest.main()
