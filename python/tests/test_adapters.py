"""Profiles of other libraries, by small stand-ins of their classes."""

import unittest
from typing import Any, Dict, List, Tuple

import virage


class Instance:
    """As an instance of PrefLib-Tools."""

    def __init__(self, counts: Dict[Tuple[Tuple[int, ...], ...], int], names: Dict[int, str]) -> None:
        self.orders = list(counts)
        self.multiplicity = counts
        self.num_alternatives = len(names)
        self.alternatives_name = names


class FromZero:
    """As a profile of pref_voting."""

    def __init__(self, rankings: List[Tuple[int, ...]], rcounts: List[int], cmap: Dict[int, str]) -> None:
        self.rankings_counts = (rankings, rcounts)
        self.cmap = cmap


class Number:
    """As a whole number of numpy."""

    def __init__(self, value: int) -> None:
        self._value = value

    def __index__(self) -> int:
        return self._value


class Adapters(unittest.TestCase):
    def test_preflib(self) -> None:
        votes = Instance({((1,), (2,)): 3, ((2,), (1,)): 1}, {1: "tea", 2: "milk"})
        profile = virage.from_preflib(votes)
        self.assertEqual(profile, virage.Profile.of([(3, ["tea", "milk"]), (1, ["milk", "tea"])]))
        self.assertEqual(virage.count("plurality", profile).labels([1]), ["tea"])
        with self.assertRaises(ValueError):
            virage.from_preflib(Instance({((1, 2),): 3}, {1: "tea", 2: "milk"}))

    def test_pref_voting(self) -> None:
        votes = FromZero([(0, 1, 2), (2, 1, 0)], [2, 3], {0: "tea", 1: "milk", 2: "soup"})
        profile = virage.from_pref_voting(votes)
        self.assertEqual(profile.lines, ((2, (1, 2, 3)), (3, (3, 2, 1))))
        result = virage.count("plurality", profile)
        self.assertEqual((result.elected, result.labels(result.elected)), ({3}, ["soup"]))

    def test_tables(self) -> None:
        wanted = virage.Profile.of([(3, ["tea", "milk"]), (1, ["milk", "tea"])])
        tables: List[Tuple[Dict[str, Any], Any]] = [
            ({"n": [3, 1], "order": [("tea", "milk"), ("milk", "tea")]}, "order"),
            ({"n": [Number(3), Number(1)], "order": ["tea, milk", "milk,tea"]}, "order"),
            ({"n": [3, 1], "1st": ["tea", "milk"], "2nd": ["milk", "tea"]}, ["1st", "2nd"]),
        ]
        for table, orders in tables:
            self.assertEqual(virage.from_table(table, "n", orders), wanted)
        numbers = virage.from_table({"n": [3, 1], "order": ["1,2", [2, 1]]}, "n", "order")
        self.assertEqual(numbers.lines, ((3, (1, 2)), (1, (2, 1))))
        named = virage.from_table(tables[0][0], "n", "order", names=["milk", "tea"])
        self.assertEqual(named.lines, ((3, (2, 1)), (1, (1, 2))))


if __name__ == "__main__":
    unittest.main()
