"""Many profiles in one call, where the program has `batch`."""

import os
import tempfile
import unittest
from pathlib import Path

import virage

from .places import profile, rule

CIRCLE = [(1, [1, 2, 3]), (1, [2, 3, 1]), (1, [3, 1, 2])]


class Batches(unittest.TestCase):
    def test_each_profile_is_counted_as_by_itself(self) -> None:
        given = [profile("five-ways"), CIRCLE, profile("tied"), "# NUMBER ALTERNATIVES: 1\n", profile("five-ways")]
        rows = virage.batch(rule("copeland"), given)
        self.assertEqual([row.voters for row in rows], [55, 3, 11, 0, 55])
        self.assertEqual([row.file for row in rows], [given[0], "1", given[2], "3", given[4]])
        for row, votes in zip(rows, given):
            self.assertEqual(row.result, virage.count(rule("copeland"), votes))

    def test_a_refused_profile_ends_nothing(self) -> None:
        rows = virage.batch("r = elect;", [CIRCLE, [(1, [1, 2]), (1, [2])], CIRCLE])
        self.assertEqual([type(row) for row in rows], [virage.Counted, virage.Refused, virage.Counted])
        self.assertEqual((rows[1].kind, rows[1].line), ("Short", 3))

    def test_names_are_kept(self) -> None:
        lunch = [(2, ["soup", "stew"]), (1, ["stew", "soup"])]
        [row] = virage.batch("plurality", [lunch])
        self.assertEqual(row.result.labels(row.result.elected), ["soup"])
        rows = virage.batch("plurality", {"monday": lunch, "two\nlines": CIRCLE, "tuesday": profile("board")})
        self.assertEqual([row.file for row in rows], ["monday", "two\nlines", "tuesday"])

    def test_no_profile(self) -> None:
        self.assertEqual(virage.batch(rule("borda"), []), ())
        self.assertEqual(virage.batch(rule("borda"), {}), ())

    def test_more_than_one_call_takes(self) -> None:
        given = [[(1, [1, 2])], [(1, [2, 1])]] * 5_001 + [profile("tied")]
        rows = virage.batch("elect", given)
        self.assertEqual((len(rows), rows[-1].file, rows[-2].file), (10_003, given[-1], "10001"))
        self.assertEqual({row.voters for row in rows[:-1]}, {1})

    def test_faults(self) -> None:
        with self.assertRaises(virage.ReadFault):
            virage.batch(rule("borda"), [CIRCLE, Path("no such file")])
        with self.assertRaises((ValueError, virage.ReadFault)):
            virage.batch(rule("borda"), [Path("a\nb")])

    def test_names_of_files_may_look_like_answers(self) -> None:
        with tempfile.TemporaryDirectory() as room:
            names = ["x voters 1 elected: 7", "x refused Short at line 2", "profiles 1 refused 0", " # "]
            for name in names:
                Path(room, name).write_bytes(virage.Profile.of(CIRCLE).text())
            kept = os.getcwd()
            try:
                os.chdir(room)
                rows = virage.batch("r = plurality;", map(Path, names))
            finally:
                os.chdir(kept)
        self.assertEqual([(row.file, row.voters, set(row.result.elected)) for row in rows],
                         [(name, 3, {1, 2, 3}) for name in names])


if __name__ == "__main__":
    unittest.main()
