"""What is called: the library in this process where there is one, else the program."""

from __future__ import annotations

import os
import warnings
from functools import lru_cache
from pathlib import Path
from typing import Iterator, Optional, Union

from .library import SONAME, Library, system_library
from .program import HERE, BuildWarning, Program, of_repository

Engine = Union[Library, Program]

# where `c/build` puts the library in a checkout
_BUILT = Path("c", "out", "lib", SONAME)


def engine() -> Engine:
    """What a call uses that isn't handed a program: `print` says which it is, and its `kind` is one word.

    It is the library that the environment names in VIRAGE_LIBRARY, or the program that it names in VIRAGE; else the
    library that lies beside this module, or in the repository that the module lies in if it isn't older than the
    sources there; else that repository's script; else the library that the system finds, or the `virage` of the PATH.
    Where VIRAGE_LIBRARY is empty, no library is used.
    """
    named = os.environ.get("VIRAGE_LIBRARY")
    if named == "":
        return Program()
    if named is not None:
        return _loaded(named)
    if os.environ.get("VIRAGE"):
        return Program()
    return _found() or Program()


@lru_cache(maxsize=None)
def _loaded(path: str) -> Library:
    return Library(path)


@lru_cache(maxsize=None)
def _found() -> Optional[Library]:
    """The library that is used where the environment names nothing."""
    beside = HERE / SONAME
    if beside.is_file():
        return Library(beside)
    script = of_repository()
    if script is None:
        return system_library()
    top = Path(script).parent
    built = built_library(top)
    if built is None and (top / _BUILT).is_file():
        said = f"{top / _BUILT} is older than the sources, so the program is called: c/archive and c/build make it anew"
        warnings.warn(said, BuildWarning, stacklevel=5)
    return Library(built) if built is not None else None


def built_library(top: Path) -> Optional[Path]:
    """The library that `c/build` has put into a checkout, unless it is older than the sources there."""
    built = top / _BUILT
    return built if built.is_file() and _newest_source(top) <= built.stat().st_mtime else None


def _newest_source(top: Path) -> float:
    """When a source that the library is built of was changed last."""
    return max(os.stat(path).st_mtime for path in (top / "crates.txt", *_sources(top / "crates")))


def _sources(crates: Path) -> Iterator[str]:
    for crate in os.scandir(crates):
        for part in ("src", "specs", "proofs"):
            for folder, _, names in os.walk(os.path.join(crate.path, part)):
                yield from (os.path.join(folder, name) for name in names)
