"""The commands, against the program that `virage.Program()` finds."""

import os
import stat
import tempfile
import unittest
import warnings
from pathlib import Path

import virage

from .places import EXPECTED, RULES, profile, rule

DIVIDED = [(4, [1, 2, 3]), (3, [2, 3, 1]), (2, [3, 2, 1])]
DIVIDED_TEXT = "# NUMBER ALTERNATIVES: 3\n4: 1,2,3\n3: 2,3,1\n2: 3,2,1\n"


class Counts(unittest.TestCase):
    def test_recorded_results(self) -> None:
        recorded = (it for it in EXPECTED.iterdir() if it.name.count(".") == 1 and not it.name.startswith("pairs."))
        for expected in sorted(recorded):
            name, votes = expected.name.split(".")
            result = virage.count(rule(name), profile(votes))
            self.assertEqual(_printed(result), expected.read_text(), expected.name)

    def test_rules_and_profiles_as_files_texts_and_data(self) -> None:
        term = virage.Term.read("seq(max(copeland),elect)")
        text = "r = seq(max(copeland), elect);"
        for given in (rule("copeland"), Path(rule("copeland")), text, text.encode(), term):
            self.assertEqual(virage.count(given, DIVIDED).elected, {2})
        for votes in (profile("divided"), Path(profile("divided")), DIVIDED_TEXT, DIVIDED_TEXT.encode(), DIVIDED,
                      virage.Profile.of(DIVIDED), iter(DIVIDED)):
            self.assertEqual(virage.count(term, votes).rejected, {1, 3})

    def test_names_are_those_that_a_report_tells(self) -> None:
        for text in HOSTILE_PROFILES:
            counted = virage.count("r = elect;", text)
            self.assertEqual(counted.names, virage.report("r = elect;", text).names, text)

    def test_nothing_is_left_behind(self) -> None:
        with tempfile.TemporaryDirectory() as room:
            kept, tempfile.tempdir = tempfile.tempdir, room
            try:
                virage.count("r = elect;", DIVIDED)
                with self.assertRaises(virage.TextRefused):
                    virage.count("r = elected;", DIVIDED)
                self.assertEqual(os.listdir(room), [])
            finally:
                tempfile.tempdir = kept


# of each it is known, by the program, which names count
HOSTILE_PROFILES = [
    b"\xef\xbb\xbf# ALTERNATIVE NAME 1: first of all\n# NUMBER ALTERNATIVES: 2\n",
    b"\xef\xbb\xbf#ALTERNATIVE NAME 001:a:b, c\r\n# NUMBER ALTERNATIVES: 2\r\n"
    b"#\t ALTERNATIVE NAME 2 :\t\xff\xfe\r \r\n",
    b"# NUMBER ALTERNATIVES: 2\n# ALTERNATIVE NAME 1: kept\n# ALTERNATIVE NAME 2: lost\n# ALTERNATIVE NAME 2:  \n",
    b"# NUMBER ALTERNATIVES: 2\n# ALTERNATIVE NAME 3: nobody\n# ALTERNATIVE NAME 0: no\n# ALTERNATIVE NAME  1: no\n",
    b"# NUMBER ALTERNATIVES: 1\n# alternative name 1: no\n# ALTERNATIVE NAME +1: no\n# ALTERNATIVE NAME 1\n",
    b"# NUMBER ALTERNATIVES: 1\n# ALTERNATIVE NAME 1: x\rholds ne ne-leaf\n",
    b"# NUMBER ALTERNATIVES: 1\n  # ALTERNATIVE NAME 1: y\rz\x0b\x1c\xc2\x85\xe2\x80\xa8w",
    b"# NUMBER ALTERNATIVES: 1\n# ALTERNATIVE NAME 1: <script>alert(1)</script>\n",
    b"# NUMBER ALTERNATIVES: 1\n# ALTERNATIVE NAME 99999999999999999999999999: far\n#ALTERNATIVE NAME 1:\x00\n",
]


def _printed(result: virage.Result) -> str:
    """the three lines that `count` prints"""
    sets = (("elected", result.elected), ("rejected", result.rejected), ("deferred", result.deferred))
    return "".join(f"{word}:{''.join(f' {i}' for i in sorted(numbers))}\n" for word, numbers in sets)


class Reports(unittest.TestCase):
    def test_results_are_those_of_counts(self) -> None:
        for path in RULES:
            for votes in (profile("board"), profile("tied")):
                report = virage.report(path, votes)
                result = virage.count(path, votes)
                self.assertEqual(report.result, result)
                self.assertEqual(len(report.holds) + len(report.underived), len(report.findings))

    def test_derivations_and_reasons_are_printed_as_they_were(self) -> None:
        for expected in sorted(EXPECTED.glob("report.*")):
            _, name, votes = expected.name.split(".")
            report = virage.report(rule(name), profile(votes))
            lines = expected.read_text(encoding="utf-8").split("\n")
            for text, derivation in report.holds.items():
                self.assertIn(f"holds {text} {derivation}", lines)
            for reasons in report.underived.values():
                for reason in reasons:
                    self.assertIn(f"- {reason}", lines)


class Listings(unittest.TestCase):
    def test_the_code_of_instant_runoff(self) -> None:
        code = virage.listing(rule("instant-runoff"))
        self.assertEqual([str(i) for i in code[:3]], ["0 start-loop", "1 loop-test 1 4", "2 call min(plurality)"])
        self.assertEqual(code[1].arguments, (1, 4))
        self.assertEqual(code[2].arguments, (virage.Term.read("min(plurality)"),))


class Drills(unittest.TestCase):
    def test_one_ballot(self) -> None:
        drill = virage.drill(0, 1, 3)
        self.assertEqual((drill.lines, drill.voters, drill.alternatives), (1, 1, 3))
        self.assertEqual(set(map(len, drill.elected.values())), {1})
        self.assertEqual(drill.elected[virage.Term.read("plurality")], {3})


class Faults(unittest.TestCase):
    def test_what_is_refused(self) -> None:
        with self.assertRaises(virage.TextRefused) as text:
            virage.count("r = seq(max(copelend),elect);", DIVIDED)
        self.assertEqual((text.exception.kind, text.exception.byte), ("UnknownName", 12))
        with self.assertRaises(virage.ProfileRefused) as votes:
            virage.report("r = elect;", [(1, [1, 2]), (1, [2])])
        self.assertEqual((votes.exception.kind, votes.exception.line), ("Short", 3))

    def test_files_and_words(self) -> None:
        with self.assertRaises(virage.ReadFault):
            virage.count("no such file", DIVIDED)
        for seed, lines, alternatives in ((-1, 1, 1), (2**64, 1, 1), (0, 0, 1), (0, 1, 129)):
            with self.assertRaises(virage.UsageFault):
                virage.drill(seed, lines, alternatives)

    def test_no_program(self) -> None:
        with self.assertRaises(virage.NoProgram):
            virage.drill(0, 1, 1, program=virage.Program("/nonexistent/virage"))

    def test_other_endings(self) -> None:
        for script, fault in (
            ("echo 'virage: no rt' >&2; exit 69", virage.NoProgram),
            ("echo 'write fault' >&2; exit 6", virage.WriteFault),
            ("exit 7", virage.OutOfMemory),
            ("echo 'no counter for elect' >&2; exit 8", virage.NoCounter),
            ("exit 99", virage.Broken),
            ("kill -9 $$", virage.Broken),
            ("echo nonsense", virage.Broken),
        ):
            with self.assertRaises(fault, msg=script):
                virage.drill(0, 1, 1, program=_program(self, script))

    def test_what_the_script_says_of_its_build_is_a_warning(self) -> None:
        lines = "lines 1 voters 1 alternatives 1"
        with self.assertWarns(virage.BuildWarning):
            virage.drill(0, 1, 1, program=_program(self, f"echo 'virage: old' >&2; echo '{lines}'"))
        with warnings.catch_warnings():
            warnings.simplefilter("error")
            virage.drill(0, 1, 1, program=_program(self, f"echo 'virage: old' >&2; echo '{lines}'"))

    def test_a_build_can_be_called_without_its_script(self) -> None:
        for kind in ("proved", "unproved"):
            script = _program(self, f"echo 'virage 0'; echo 'build: {kind}, /some where/virage'")
            self.assertEqual(script.direct().path, "/some where/virage")
        # (one that isn't there yet is made by a first call)
        making = 'if [ "$1" != --version ]; then : >"$0.made"; fi; if [ -e "$0.made" ]; '
        making += "then echo 'build: unproved, /made'; else echo 'build: none of these sources is here yet'; fi"
        self.assertEqual(_program(self, making).direct().path, "/made")
        for body in ("echo 'build: none of these sources is here yet'", "echo 'build: proved, of a commit'", "exit 2"):
            other = _program(self, body)
            self.assertIs(other.direct(), other)
        missing = virage.Program("/nonexistent/virage")
        self.assertIs(missing.direct(), missing)


def _program(test: unittest.TestCase, body: str) -> virage.Program:
    """A program that does this."""
    room = tempfile.TemporaryDirectory()
    test.addCleanup(room.cleanup)
    path = Path(room.name, "virage")
    path.write_text(f"#!/bin/sh\n{body}\n", encoding="utf-8")
    path.chmod(path.stat().st_mode | stat.S_IXUSR)
    return virage.Program(path)


if __name__ == "__main__":
    unittest.main()
