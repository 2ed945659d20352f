"""`pip install ./python` without an index, and the module as it is then."""

import importlib.util
import os
import subprocess
import sys
import tempfile
import unittest
from pathlib import Path

import virage

from .places import TOP

SAYS = """
import virage
print(virage.__file__)
print(virage.Program().path)
print(len(virage.table().rules), sorted(virage.count("r = plurality;", [(1, [1, 2])]).elected))
"""


@unittest.skipUnless(importlib.util.find_spec("pip"), "pip isn't here")
class Installs(unittest.TestCase):
    def test_an_installed_copy_calls_the_program_that_it_is_told(self) -> None:
        with tempfile.TemporaryDirectory() as room:
            options = ("--quiet", "--no-index", "--no-cache-dir", "--target", room)
            self._run("-m", "pip", "install", *options, str(TOP / "python"))
            program = virage.Program().path
            said = self._run("-W", "ignore", "-c", SAYS, PYTHONPATH=room, VIRAGE=program).split("\n")
            self.assertTrue(said[0].startswith(room), said)
            self.assertEqual(said[1:3], [program, f"{len(virage.table().rules)} [1]"])

    def test_a_copy_knows_no_checkout(self) -> None:
        with tempfile.TemporaryDirectory() as room:
            path = Path(room, "python", "virage")
            path.mkdir(parents=True)
            for file in (TOP / "python" / "virage").iterdir():
                if file.is_file():
                    (path / file.name).write_bytes(file.read_bytes())
            Path(room, "virage").write_text("#!/bin/sh\n", encoding="utf-8")
            Path(room, "virage").chmod(0o755)
            says = "import virage\ntry: virage.Program()\nexcept virage.NoProgram as stop: print(stop)"
            said = self._run("-c", says, PYTHONPATH=str(path.parent), VIRAGE="", PATH="/nonexistent")
            self.assertIn("VIRAGE names none", said)

    def _run(self, *words: str, **more: str) -> str:
        environment = {**os.environ, "PYTHONDONTWRITEBYTECODE": "1", "PIP_DISABLE_PIP_VERSION_CHECK": "1", **more}
        call = [sys.executable, *words]
        ended = subprocess.run(call, cwd="/", env=environment, capture_output=True, text=True, check=False)
        self.assertEqual(ended.returncode, 0, ended.stderr)
        return ended.stdout


if __name__ == "__main__":
    unittest.main()
