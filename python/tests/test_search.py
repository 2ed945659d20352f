"""The search for counterexamples, what it finds, and the map of a rule."""

import contextlib
import importlib.util
import io
import itertools
import tempfile
import unittest
from pathlib import Path
from types import ModuleType
from typing import Optional

import virage
from virage.cases import Bounds, Case, Draws, all_lifts, all_renamings, drawn_lifts, growing, in_order, renamed, smaller
from virage.searches import ON_LIFTS, Search

from .places import RULES, TOP, profile, rule

VOTES = virage.Profile.of([(2, [1, 2, 3]), (1, [2, 1, 3])])


def _face(name: str) -> ModuleType:
    """a script of the examples as a module"""
    path = TOP / "examples" / "search" / f"{name}.py"
    spec = importlib.util.spec_from_file_location(name, path)
    assert spec and spec.loader
    module = importlib.util.module_from_spec(spec)
    spec.loader.exec_module(module)
    return module


def _is_lift(case: Case) -> bool:
    """whether a case is a lift of its alternative that moves it somewhere"""
    assert case.second is not None and case.lifted is not None
    same_weights = [w for w, _ in case.profile.lines] == [w for w, _ in case.second.lines]
    others = [[[x for x in order if x != case.lifted] for order in pair] for pair in case.orders()]
    nearer = [before.index(case.lifted) >= after.index(case.lifted) for before, after in case.orders()]
    return same_weights and all(one == other for one, other in others) and all(nearer)


class Cases(unittest.TestCase):
    def test_a_seed_draws_the_same_profiles(self) -> None:
        bounds = Bounds((2, 4), 5, 6)
        self.assertEqual(*(Draws(15).profile(bounds) for _ in range(2)))
        self.assertNotEqual(Draws(15).profile(bounds), Draws(16).profile(bounds))

    def test_profiles_are_within_the_bounds(self) -> None:
        draws = Draws(3)
        for _ in range(300):
            drawn = draws.profile(Bounds((2, 3), 2, 4))
            self.assertIn(drawn.alternatives, (2, 3))
            self.assertIn(len(drawn.lines), (1, 2))
            for weight, order in drawn.lines:
                self.assertIn(weight, (1, 2, 3, 4))
                self.assertEqual(sorted(order), list(range(1, drawn.alternatives + 1)))

    def test_all_profiles_of_few_voters_in_order(self) -> None:
        found = list(in_order(Bounds((2, 3))))
        # so many multisets of up to 4 of two orders, and of up to 4 of six
        self.assertEqual(len(found), (1 + 2 + 3 + 4 + 5) + (1 + 6 + 21 + 56 + 126))
        self.assertEqual(len(set(found_lines := [(p.alternatives, p.lines) for p in found])), len(found_lines))
        sizes = [p.alternatives + len(p.lines) for p in found]
        self.assertEqual(sizes, sorted(sizes))

    def test_draws_grow(self) -> None:
        sizes = [bounds.alternatives for bounds in itertools.islice(growing(Bounds((2, 4))), 500)]
        self.assertEqual(sizes, [(3, 3)] * 100 + [(4, 4)] * 100 + [(3, 3)] * 200 + [(4, 4)] * 100)

    def test_all_lifts(self) -> None:
        found = list(all_lifts(VOTES, 2))
        self.assertEqual([case.second and case.second.lines for case in found], [((2, (2, 1, 3)), (1, (2, 1, 3)))])
        # 3 stands last twice: it may go to three places on each line, and one of the nine moves it nowhere
        self.assertEqual(len(list(all_lifts(VOTES, 3))), 8)

    def test_drawn_lifts_are_lifts(self) -> None:
        draws = Draws(5)
        for _ in range(40):
            drawn = draws.profile(Bounds((2, 4), 4, 3))
            self.assertTrue(all(map(_is_lift, drawn_lifts(drawn, 1, draws))))

    def test_smaller_cases_are_smaller_and_of_the_same_kind(self) -> None:
        draws = Draws(6)
        for _ in range(20):
            drawn = draws.profile(Bounds((3, 4), 4, 4))
            for case in itertools.islice(drawn_lifts(drawn, 2, draws), 5):
                for less in smaller(case):
                    self.assertLess(less.size, case.size)
                    self.assertTrue(_is_lift(less), (case, less))

    def test_renamings(self) -> None:
        self.assertEqual(len(list(all_renamings(3))), 5)
        self.assertEqual(renamed(VOTES, (3, 1, 2)).lines, ((2, (3, 1, 2)), (1, (1, 3, 2))))


class Searches(unittest.TestCase):
    def _violated(self, path: object, found: Optional[virage.Counterexample]) -> bool:
        assert found is not None
        return bool(virage.refute(path, found.property, found.profile, found.second, found.lifted))  # type: ignore

    def test_what_is_found_is_violated_and_small(self) -> None:
        for name, word in (("borda", "cc"), ("plurality", "decr"), ("copeland", "defers(2)"), ("raynaud", "imono")):
            found = virage.search(rule(name), word, cases=500)
            self.assertTrue(self._violated(rule(name), found), (name, word))
            assert found is not None
            self.assertLessEqual((found.profile.alternatives, len(found.profile.lines)), (3, 3), (name, word))

    def test_what_is_left_is_the_smallest_of_its_kind(self) -> None:
        found = virage.search(rule("borda"), "cc", cases=500)
        assert found is not None
        search = Search(rule("borda"), "cc")
        self.assertFalse(any(map(search.violates, smaller(Case(found.profile)))))

    def test_neutrality_is_by_two_counts(self) -> None:
        found = virage.search(rule("sequential-majority"), "neut", cases=50)
        assert found is not None and found.renaming is not None and found.after is not None
        self.assertEqual((found.profile.alternatives, found.profile.lines, found.renaming), (2, (), (2, 1)))
        self.assertEqual(found.before.elected, found.after.elected)
        self.assertIsNone(virage.search(rule("borda"), "neut", cases=20))

    def test_the_cases_run_out_where_nobody_is_lifted(self) -> None:
        search = Search("r = elect;", "dmono")
        self.assertIsNone(search.run(30))
        self.assertEqual((search.tried, dict(search.reasons)), (30, {"PremiseNotMet": 30}))

    def test_progress_is_told(self) -> None:
        told = []
        self.assertIsNone(virage.search("r = elect;", "ea", cases=4, progress=lambda *numbers: told.append(numbers)))
        self.assertEqual(told, [(1, 4), (2, 4), (3, 4), (4, 4)])

    def test_what_refute_does_not_take(self) -> None:
        self.assertRaises(virage.UsageFault, virage.search, rule("borda"), "nonsense")

    def test_what_holds_by_a_derivation_is_never_violated(self) -> None:
        program = virage.Program().direct()
        for path in RULES:
            holds = virage.report(path, profile("tied"), program=program).holds
            for word in {"nb", "cc", "mono"}.intersection(holds):
                self.assertIsNone(virage.search(path, word, cases=3, program=program), (path.name, word))

    def test_the_command_line_face(self) -> None:
        face = _face("counterexample")
        options = face.read_options([rule("borda"), "cc", "--seed", "4", "--cases", "60", "--alternatives", "2-3"])
        self.assertEqual((options.bounds.alternatives, options.cases, options.seed), ((2, 3), 60, 4))
        progress = face.Progress(io.StringIO())
        progress.tell(1, 2)
        progress.end()

    def test_no_file_is_overwritten(self) -> None:
        face = _face("counterexample")
        other = virage.Profile.of([(1, [1, 2])])
        with tempfile.TemporaryDirectory() as room:
            name = str(Path(room, face.stem("rules/borda.vir", "defers(2)")))
            for profiles, files in (
                ([VOTES], [".soc"]),
                ([VOTES], [".soc"]),
                ([other, VOTES], [".2.soc", ".2.lifted.soc"]),
                ([VOTES, other], [".soc", ".lifted.soc"]),
                ([VOTES, VOTES], [".3.soc", ".3.lifted.soc"]),
            ):
                with contextlib.redirect_stderr(io.StringIO()):
                    written = face.written(name, profiles)
                self.assertEqual(written, [f"{room}/borda.defers2{file}" for file in files])
                self.assertEqual([Path(file).read_bytes() for file in written], [one.text() for one in profiles])
            self.assertEqual(len(list(Path(room).iterdir())), 6)


class Maps(unittest.TestCase):
    def test_each_property_has_a_cell(self) -> None:
        told = []
        made = virage.map("r = elect;", cases=3, progress=lambda *said: told.append(said))
        holds = virage.report("r = elect;", virage.Profile(1, ())).holds
        self.assertEqual({word for word, cell in made.cells.items() if cell.kind == "derived"}, set(holds))
        self.assertEqual(made.cells["ne"].kind, "false")
        self.assertEqual(len(made.cells), 18)
        self.assertTrue(told)

    def test_what_is_open(self) -> None:
        made = virage.map(rule("black"), cases=2)
        self.assertEqual((made.cells["mono"].kind, made.cells["mono"].why), ("open", "none of 2 cases violates it"))
        self.assertIn("mono", ON_LIFTS)

    def test_what_is_open_may_be_known(self) -> None:
        face = _face("map")
        said = face.of_open(virage.map(rule("copeland"), cases=1))
        open_cells = r"\Alaws of docs/KNOWN.md may speak of what is open: .*\bdli\b.*\n"
        self.assertRegex(said, open_cells + r".* has dli and dmono\n\Z")
        self.assertEqual(face.of_open(virage.PropertyMap(virage.Term.read("elect"), {})), "")
        self.assertTrue(face.ends_in_elect(virage.Term.read("seq(defer,seq(defer,elect))")))
        self.assertFalse(face.ends_in_elect(virage.Term.read("par(defer,elect)")))

    def test_it_is_a_table_in_a_notebook(self) -> None:
        made = virage.map(rule("plurality"), cases=2)
        text = made._repr_html_()
        self.assertEqual(text.count("<tr>"), 18)
        self.assertTrue(text.startswith("<table>") and text.endswith("</table>"))
        self.assertEqual(len(str(made).splitlines()), 19)


if __name__ == "__main__":
    unittest.main()
