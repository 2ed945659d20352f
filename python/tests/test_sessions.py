"""The sessions of docs/PYTHON.md and of the module, run in a folder that looks like the top of the repository."""

import doctest
import os
import tempfile
import unittest
from pathlib import Path

import virage

from .places import TOP


class Sessions(unittest.TestCase):
    def setUp(self) -> None:
        room = tempfile.TemporaryDirectory()
        self.addCleanup(room.cleanup)
        self.addCleanup(os.chdir, os.getcwd())
        Path(room.name, "examples").symlink_to(TOP / "examples")
        os.chdir(room.name)

    def test_the_page(self) -> None:
        failed, tried = doctest.testfile(str(TOP / "docs" / "PYTHON.md"), module_relative=False, encoding="utf-8")
        self.assertGreater(tried, 0)
        self.assertEqual(failed, 0)

    def test_the_module(self) -> None:
        failed, tried = doctest.testmod(virage)
        self.assertGreater(tried, 0)
        self.assertEqual(failed, 0)


if __name__ == "__main__":
    unittest.main()
