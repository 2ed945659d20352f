"""Suspected counterexamples and equations, where the program has the commands."""

import unittest

import virage

from .places import RULES, profile, rule

# instant runoff elects 1 before it is raised by the last two voters, and 3 afterwards
BEFORE = [(6, [1, 2, 3]), (5, [3, 1, 2]), (4, [2, 3, 1]), (2, [2, 1, 3])]
AFTER = BEFORE[:3] + [(2, [1, 2, 3])]

# each is preferred to the next one by most, and the last to the first
CIRCLE = [(1, [1, 2, 3]), (1, [2, 3, 1]), (1, [3, 1, 2])]


class Cases(unittest.TestCase):
    def test_a_winner_that_is_raised_and_loses(self) -> None:
        runoff = rule("instant-runoff")
        verdict = virage.refute(runoff, "mono", BEFORE, AFTER, 1)
        self.assertEqual((verdict.violated, verdict.reason, bool(verdict)), (True, None, True))
        for second, lifted, reason in ((BEFORE, 1, "ClauseHolds"), (AFTER, 4, "NotALift"), (AFTER, 2, "NotALift")):
            verdict = virage.refute(runoff, "mono", BEFORE, second, lifted)
            self.assertEqual((verdict.violated, verdict.reason), (False, reason))

    def test_winners_of_all_duels(self) -> None:
        for name, votes, reason in (
            ("plurality", profile("divided"), None),
            ("copeland", profile("divided"), "ClauseHolds"),
            ("plurality", CIRCLE, "PremiseNotMet"),
        ):
            self.assertEqual(virage.refute(rule(name), "cc", votes).reason, reason)

    def test_each_kind_of_property_has_its_words(self) -> None:
        with self.assertRaises(virage.UsageFault):
            virage.refute(rule("plurality"), "cc", BEFORE, AFTER, 1)
        for word in ("mono", "neut", "defers", "monotone"):
            with self.assertRaises(virage.UsageFault):
                virage.refute(rule("plurality"), word, BEFORE)
        for second, lifted in ((AFTER, None), (None, 1)):
            with self.assertRaises(ValueError):
                virage.refute(rule("plurality"), "mono", BEFORE, second, lifted)

class Simplifications(unittest.TestCase):
    def test_steps_are_told_in_their_order(self) -> None:
        simple = virage.simplify("r = seq(defer,seq(rev(elect),max(borda)));")
        self.assertEqual(str(simple.term), "max(borda)")
        steps = [(step.equation, step.place) for step in simple.steps]
        self.assertEqual(steps, [("rev-elect", 3), ("seq-defer-left", 2), ("seq-defer-left", 0)])

    def test_a_term_without_steps_stays(self) -> None:
        term = virage.Term.read("seq(max(copeland),elect)")
        self.assertEqual(virage.simplify(term), virage.Simplified(term, ()))

    def test_the_result_stays(self) -> None:
        for path in RULES:
            term = virage.simplify(path).term
            for votes in (profile("divided"), profile("five-ways")):
                self.assertEqual(virage.count(term, votes), virage.count(path, votes))


if __name__ == "__main__":
    unittest.main()
