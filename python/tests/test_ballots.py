"""Files of ballots: what they become, what is refused, and that no ballot is lost."""

import contextlib
import io
import os
import random
import tempfile
import unittest
from fractions import Fraction
from itertools import permutations
from pathlib import Path

import virage
from virage.convert import main

from .ballot_files import BROKEN, FILES
from .mutated_ballots import Mutations
from .places import TOP


class Room(unittest.TestCase):
    def setUp(self) -> None:
        room = tempfile.TemporaryDirectory()
        self.addCleanup(room.cleanup)
        self.room = Path(room.name)

    def file(self, name: str, content: bytes) -> Path:
        path = self.room / name
        path.write_bytes(content)
        return path


class Files(Room):
    def test_what_they_become(self) -> None:
        for name, content, named, names, lines in FILES:
            with self.subTest(name):
                made = virage.read_ballots(self.file(name, content), **named)
                self.assertEqual([made.names.get(i, "") for i in range(1, made.alternatives + 1)], [*names])
                self.assertEqual(list(made.lines), [(weight, tuple(map(int, order))) for weight, order in lines])
                left = [*made.left_out.values()]
                self.assertEqual(made.taken.ballots, made.written.ballots + sum(count.ballots for count in left))
                self.assertEqual(made.taken.voters, made.written.voters + sum(count.voters for count in left))
                self.assertEqual(made.written.voters * made.factor, sum(weight for weight, _ in made.lines))

    def test_the_program_accepts_them(self) -> None:
        made = {name: virage.read_ballots(self.file(name, text), **named) for name, text, named, _, _ in FILES}
        texts = {name: ballots.text() for name, ballots in made.items()}
        for row in virage.batch("elect", texts):
            self.assertIsInstance(row, virage.Counted, row.file)
            self.assertEqual(row.result.names, made[row.file].names)

    def test_broken_ones(self) -> None:
        for name, content, named, row, why in BROKEN:
            with self.subTest(name):
                with self.assertRaises(virage.BallotsRefused) as refused:
                    virage.read_ballots(self.file(name, content), **named)
                self.assertEqual(refused.exception.row, row, refused.exception)
                self.assertIn(why, refused.exception.why)

    def test_there_are_as_many_as_promised(self) -> None:
        self.assertGreaterEqual(len(FILES), 60)
        self.assertGreaterEqual(len(BROKEN), 30)
        for table in (FILES, BROKEN):
            self.assertEqual(len({row[0] for row in table} & {row[0] for row in table}), len(table))


class Sources(Room):
    def test_texts_and_paths(self) -> None:
        text = "tea,milk\n2,1\n"
        path = self.file("ranks.csv", text.encode())
        for source in (path, str(path), text, text.encode()):
            made = virage.read_ballots(source, form="csv")
            self.assertEqual(made.lines, ((1, (2, 1)),))
        with self.assertRaises(virage.ReadFault):
            virage.read_ballots("no such file.csv")

    def test_what_was_done_stands_at_the_end(self) -> None:
        text = "tea,milk\n2,1\n1,\n"
        made = virage.read_ballots(text, form="csv", incomplete="drop")
        self.assertEqual(made.text().decode().splitlines()[4:], [
            "# TITLE: ballots",
            "# read: a table with a column of ranks for each alternative, 2 ballots of 2 voters",
            "# columns of alternatives: 'tea', 'milk'",
            "# choice: --incomplete drop, incomplete ballots are left out",
            "# left out: incomplete, 1 ballot of 1 voter",
            "# written: 1 ballot of 1 voter, as 1 line",
        ])
        self.assertEqual(virage.count("plurality", made).labels({2}), ["milk"])

    def test_what_cannot_be_chosen(self) -> None:
        for named in ({"incomplete": "some"}, {"ties": "worst"}, {"heads": True, "list": "x"}, {"form": "xls"},
                      {"most": 0}, {"delimiter": ";;"}, {"encoding": "klingon"}, {"empty": "all"}):
            with self.assertRaises(ValueError, msg=named):
                virage.read_ballots("a,b\n1,2\n", **{"form": "csv", **named})
        with self.assertRaises(TypeError):
            virage.read_ballots("a,b\n1,2\n", form="csv", skip="voter")

    def test_a_bound_on_what_is_made(self) -> None:
        heads = ",".join(f"a{i}" for i in range(30))
        text = f"{heads}\n1{',' * 29}\n"
        with self.assertRaisesRegex(virage.BallotsRefused, "more than 1,000,000 lines"):
            virage.read_ballots(text, form="csv", incomplete="all")
        with self.assertRaisesRegex(virage.BallotsRefused, "stands for 2 orders"):
            virage.read_ballots("a,b\n1,1\n", form="csv", ties="all", most=1)


class Command(Room):
    def call(self, *words: str):
        said, printed = io.StringIO(), io.TextIOWrapper(io.BytesIO(), encoding="utf-8", newline="")
        with contextlib.redirect_stderr(said), contextlib.redirect_stdout(printed):
            try:
                status = main(words)
            except SystemExit as stop:
                status = stop.code
        printed.seek(0)
        return status, printed.read(), said.getvalue()

    def test_a_profile_is_written(self) -> None:
        path = str(self.file("answers.csv", b"when,R [Tea],R [Milk]\n1,2nd,1st\n2,1st,\n"))
        output = str(self.room / "votes.soc")
        words = (path, "--heads", "--incomplete", "worst", "Tea,Milk")
        status, printed, told = self.call(*words)
        self.assertEqual((status, printed[:15]), (0, "# DATA TYPE: soc"[:15]))
        self.assertIn("--incomplete worst", told)
        self.assertEqual(self.call(*words, "-o", output)[:2], (0, ""))
        self.assertEqual(Path(output).read_text(encoding="utf-8"), printed)
        self.assertEqual(os.listdir(self.room), ["answers.csv", "votes.soc"])
        self.assertEqual(virage.count("plurality", output).labels({1, 2}), ["Tea", "Milk"])

    def test_statuses(self) -> None:
        good = str(self.file("good.csv", b"tea,milk\n1,2\n"))
        bad = str(self.file("bad.csv", b"tea,milk\n1,2\n1,\n"))
        for words, status, said in (
            ((bad,), 4, "ballots refused: row 3: "),
            (("no such file.csv",), 5, "read fault\n"),
            ((good, "-o", str(self.room / "no" / "such.soc")), 6, "write fault\n"),
            ((good, "--ties", "some"), 2, "usage fault\n"),
            (("--ranks", good), 2, "usage fault\n  the file is the first word"),
            ((good, "--incomplete", "worst"), 2, "usage fault\n"),
            ((good, "--incomplete", "drop", "x"), 2, "usage fault\n"),
            ((good, "-o", good), 2, "usage fault\n"),
        ):
            with self.subTest(words):
                ended, printed, told = self.call(*words)
                self.assertEqual((ended, printed, told[: len(said)]), (status, "", said))

    def test_a_refused_file_names_the_choices(self) -> None:
        path = str(self.file("bad.csv", b"a,b,c\n1,2,3\n1,1,\n1,2,\n"))
        told = self.call(path)[2]
        for line in ("  tied: 1 ballot of 1 voter, among 3 ballots of 3 voters", "  incomplete: 2 ballots of 2 voters",
                     "  --ties drop leaves", "  --incomplete worst ORDER"):
            self.assertIn(line, told)


class Open(unittest.TestCase):
    """`incomplete="all"` and `ties="all"`, beside all orders that agree with a ballot."""

    def test_pairs_and_averaged_places(self) -> None:
        draw = random.Random(7)
        for case in range(500):
            alternatives = draw.randint(1, 5)
            ballots = [(draw.randint(1, 5), _drawn(draw, alternatives)) for _ in range(draw.randint(1, 6))]
            text = "".join(f"{weight}: {_written(groups)}\n" for weight, groups in ballots)
            file = f"# NUMBER ALTERNATIVES: {alternatives}\n{text}"
            made = virage.read_ballots(file, form="preflib", incomplete="all", ties="all")
            expected = _scores([part for ballot in ballots for part in _parts(alternatives, *ballot)])
            scaled = [(Fraction(weight, made.factor), order) for weight, order in made.lines]
            self.assertEqual(_scores(scaled), expected, file)
            if case < 20:
                pairs = virage.pairs(made)
                for (x, y), weight in expected[0].items():
                    self.assertEqual(pairs.prefer(x, y), weight * made.factor)

    def test_the_factor_is_the_least(self) -> None:
        for text, factor in (("2: 1\n", 1), ("1: 1\n", 2), ("1: {1,2,3}\n", 6), ("3: {1,2,3}\n", 2),
                             ("1: 1\n1: 1,{2,3}\n", 1), ("1: {1,2},3\n1: {1,2,3}\n", 6)):
            file = f"# NUMBER ALTERNATIVES: 3\n{text}"
            made = virage.read_ballots(file, form="preflib", incomplete="all", ties="all")
            self.assertEqual(made.factor, factor, text)


def _drawn(draw, alternatives):
    """A ballot with ties, of some of the alternatives."""
    listed = draw.sample(range(1, alternatives + 1), draw.randint(1, alternatives))
    groups = []
    while listed:
        size = draw.choice((1, 1, 1, 2, 3))
        groups.append(listed[:size])
        listed = listed[size:]
    return groups


def _written(groups):
    return ",".join(str(group[0]) if len(group) == 1 else "{" + ",".join(map(str, group)) + "}" for group in groups)


def _parts(alternatives, weight, groups):
    """All orders that agree with a ballot, each with its part of the weight."""
    place = {number: at for at, group in enumerate(groups) for number in group}
    places = {number: place.get(number, len(groups)) for number in range(1, alternatives + 1)}
    agree = [order for order in permutations(places) if all(places[x] <= places[y] for x, y in zip(order, order[1:]))]
    return [(Fraction(weight, len(agree)), order) for order in agree]


def _scores(lines):
    """Of each pair how many put the one before the other, and each one's Borda score."""
    pairs, borda = {}, {}
    for weight, order in lines:
        for at, x in enumerate(order):
            borda[x] = borda.get(x, 0) + weight * (len(order) - 1 - at)
            for y in order[at + 1 :]:
                pairs[x, y] = pairs.get((x, y), 0) + weight
                pairs.setdefault((y, x), Fraction(0))
    return pairs, borda


class Mutated(unittest.TestCase):
    def test_each_ends_in_a_profile_or_in_a_refusal(self) -> None:
        with Mutations(1) as mutations:
            self.assertEqual(mutations.faults(500), [])
        self.assertGreater(mutations.accepted, 100)
        self.assertGreater(mutations.refused, 100)


if __name__ == "__main__":
    unittest.main()
