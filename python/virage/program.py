"""The program that is called: where it is, and what a call of it gives."""

from __future__ import annotations

import os
import re
import shutil
import subprocess
import warnings
from dataclasses import dataclass
from pathlib import Path
from typing import Dict, List, Mapping, Optional, Set, Tuple, Union

from .faults import Fault, NoProgram, fault_of
from .profiles import Given

# the script `virage` puts this before each line that it says of its build
_SCRIPT = "virage: "

# the folder of this module, and where it stands in the repository
HERE = Path(__file__).resolve().parent
_PLACE = Path("python", "virage")


# what the script has said of its build in this process
_TOLD: Set[str] = set()

# what lets an unproved build leave want of memory to the program, as help/guide.sh has it
_CALM = "detect_leaks=0:detect_stack_use_after_return=0:allocator_may_return_null=1"


class BuildWarning(UserWarning):
    """What runs isn't the proved build of the sources as they are. The text is what the script `virage` says of it."""


@dataclass(frozen=True)
class Answer:
    """What the program printed with status 0 or, where `negative`, with status 1."""

    negative: bool
    text: bytes


class Program:
    """A build of virage, or the script of that name, which runs one.

    Without a path it is the one that the environment names in VIRAGE, else the script of the repository that this
    module lies in, else the `virage` of the PATH.
    """

    kind = "program"

    # as many profiles as a manifest may name
    most_profiles = 10_000

    def __init__(
        self, path: Union[str, os.PathLike[str], None] = None, environment: Optional[Mapping[str, str]] = None
    ) -> None:
        found = os.fspath(path) if path is not None else _found()
        if found is None:
            raise NoProgram("there is no virage on the PATH, and VIRAGE names none")
        self.path: str = found
        # what a call has beside the environment of this process
        self._environment = environment

    def __repr__(self) -> str:
        return f"Program({self.path!r})"

    def __str__(self) -> str:
        return f"program {self.path}"

    def direct(self) -> Program:
        """The build itself, where this is a script that runs one now; else this program.

        A script looks at all sources first, which takes most of the time of a short call. Who makes many calls can do
        without, once it has looked. Where there is no build yet, the script makes one now. Of an unproved build it is
        a warning that it is called, as it is where the script runs it.
        """
        found = self._build()
        if found is not None and found[1] is None:
            self._made()
            found = self._build()
        if found is None or found[1] is None:
            return self
        kind, path = found
        if kind != b"unproved":
            return Program(path)
        self._made()
        return Program(path, {"ASAN_OPTIONS": _CALM})

    def _build(self) -> Optional[Tuple[bytes, Optional[str]]]:
        """The kind of the build that this script runs, and its path, if there is one; None where this is no script."""
        try:
            ended = subprocess.run([self.path, "--version"], capture_output=True, check=False)
        except OSError:
            return None
        if re.search(rb"^build: none of these sources", ended.stdout, re.MULTILINE):
            return b"none", None
        found = re.search(rb"^build: (proved|unproved), (/.*)$", ended.stdout, re.MULTILINE)
        if found:
            return found[1], os.fsdecode(found[2])
        if not re.search(rb"^build: proved, of ", ended.stdout, re.MULTILINE):
            return None
        installed = Path(shutil.which(self.path) or self.path).resolve().parents[1] / "lib" / "virage" / "virage"
        return (b"proved", str(installed)) if os.access(installed, os.X_OK) else None

    def _made(self) -> None:
        """Calls the script once, so that it makes its build, and says what it says of it."""
        try:
            self.run("drill", "0", "1", "1")
        except Fault:
            # (the call that is meant says so once more)
            pass

    def run(self, *words: Union[str, Given]) -> Answer:
        """Calls the program with these words, and the files among them. Raises the fault, if no answer comes."""
        said = [word.path() if isinstance(word, Given) else word for word in words]
        try:
            ended = subprocess.run(
                [self.path, *said], stdout=subprocess.PIPE, stderr=subprocess.PIPE, check=False, env=self._whole())
        except OSError as stop:
            raise NoProgram(f"{self.path}: {stop.strerror}") from stop
        said = ended.stderr.decode("utf-8", "replace").splitlines()
        script = [line[len(_SCRIPT) :] for line in said if line.startswith(_SCRIPT)]
        own = [line for line in said if not line.startswith(_SCRIPT)]
        if ended.returncode not in (0, 1):
            raise fault_of(ended.returncode, own, script)
        _warn_of_build(script)
        return Answer(ended.returncode == 1, ended.stdout)

    def _whole(self) -> Optional[Dict[str, str]]:
        """The environment of a call; None where it is that of this process."""
        return None if self._environment is None else {**os.environ, **self._environment}


def _found() -> Optional[str]:
    named = os.environ.get("VIRAGE")
    if named:
        return named
    return of_repository() or shutil.which("virage")


def of_repository() -> Optional[str]:
    """The script of the repository, where this module is in one and not in a copy that was installed."""
    top = HERE.parents[1]
    script = top / "virage"
    if HERE == top / _PLACE and (top / "crates.txt").is_file() and os.access(script, os.X_OK):
        return str(script)
    return None


def _warn_of_build(script: List[str]) -> None:
    """Warns of what the script says of its build, of the same just once."""
    for line in script:
        if line not in _TOLD:
            _TOLD.add(line)
            warnings.warn(line, BuildWarning, stacklevel=5)
