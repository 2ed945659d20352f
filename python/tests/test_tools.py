"""The tools that write a derivation in LaTeX and a rule as a theory text."""

import subprocess
import unittest

from .places import EXPECTED, TOP


def run(tool: str, *words: str, given: bytes) -> "subprocess.CompletedProcess[str]":
    """What the tool does with these words and this text on standard input."""
    done = subprocess.run([TOP / "tools" / tool, *words], input=given, capture_output=True, check=False)
    return subprocess.CompletedProcess(done.args, done.returncode, done.stdout.decode(), done.stderr.decode())


class ToLatex(unittest.TestCase):
    def test_certificate(self) -> None:
        done = run("to-latex", given=(TOP / "examples" / "certificates" / "copeland-mono.cert").read_bytes())
        self.assertEqual(done.returncode, 0)
        self.assertEqual(done.stdout.count("\\dfrac"), 4)
        self.assertIn(r"\mathtt{ne}\;\text{of}\;\mathtt{max(copeland)}", done.stdout)
        self.assertIn(r"t_{1} &= \mathtt{seq(}\mathtt{max(copeland)}\mathtt{,}\mathtt{elect}\mathtt{)}", done.stdout)

    def test_report(self) -> None:
        report = (EXPECTED / "report.shortlist.tied").read_bytes()
        done = run("to-latex", "--whole", "mono", given=report)
        self.assertEqual(done.stdout.count("{"), done.stdout.count("}"))
        self.assertTrue(done.stdout.startswith("\\documentclass") and done.stdout.endswith("\\end{document}\n"))
        self.assertEqual(run("to-latex", "cc", given=report).returncode, 1)
        self.assertEqual(run("to-latex", given=report).returncode, 1)
        self.assertEqual(run("to-latex", "mono", "el", given=report).returncode, 2)


class ToTheory(unittest.TestCase):
    def test_report(self) -> None:
        done = run("to-theory", "shortlist", given=(EXPECTED / "report.shortlist.tied").read_bytes())
        self.assertEqual(done.returncode, 0)
        self.assertIn('theorem "monotonicity (shortlist)"', done.stdout)
        self.assertIn("the framework has no such property", done.stdout)
        self.assertIn("not derived, and so not said to be false: ne,", done.stdout)

    def test_order_is_lacking(self) -> None:
        done = run("to-theory", "duels", given=(EXPECTED / "report.sequential-majority.five-ways").read_bytes())
        self.assertIn("a fixed order there is a relation", done.stdout)
        self.assertIn("duels order_3_1_2 = ", done.stdout)

    def test_no_report(self) -> None:
        self.assertEqual(run("to-theory", "rule", given=b"").returncode, 1)
        self.assertEqual(run("to-theory", "two words", given=b"").returncode, 2)


if __name__ == "__main__":
    unittest.main()
