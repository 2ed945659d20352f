"""The library for C in this process: where it is, and what a call of it gives. Of this file nothing is proved."""

from __future__ import annotations

import ctypes
import os
import threading
from ctypes import POINTER, byref, c_char_p, c_size_t, c_uint8, c_void_p
from typing import List, Optional, Sequence, Tuple, Union

from .faults import NoProgram, OutOfMemory, fault_of
from .profiles import Given
from .program import Answer

SONAME = "libvirage.so.0"

# how many bytes a text may have so that one call is enough, and how many are kept for the next one
_ROOM = 1 << 14
_MOST_KEPT = 1 << 20


class _Sizes(ctypes.Structure):
    """How many bytes the name of a file has, and its content."""

    _fields_ = [("name", c_size_t), ("content", c_size_t)]


class _Told(ctypes.Structure):
    """How many bytes the two texts have."""

    _fields_ = [("out", c_size_t), ("err", c_size_t)]


class _Room(threading.local):
    """Buffers for the two texts: each thread has its own."""

    def __init__(self) -> None:
        self.take(_ROOM)

    def take(self, size: int) -> None:
        self.size = size
        self.out = ctypes.create_string_buffer(size)
        self.err = ctypes.create_string_buffer(size)
        self.told = _Told()


class Library:
    """The library for C, loaded into this process.

    A call lets go of the interpreter's lock, and keeps nothing, so threads may call at once.
    """

    kind = "library"

    # so many profiles of a batch are handed to one call: among more the library would look too long for each
    most_profiles = 500

    def __init__(self, path: Union[str, os.PathLike[str]]) -> None:
        self.path: str = os.fspath(path)
        try:
            self._call = ctypes.CDLL(self.path).virage_call
        except (OSError, AttributeError) as stop:
            raise NoProgram(f"{self.path} is no library of virage: {stop}") from stop
        self._call.restype = c_uint8
        self._call.argtypes = [
            *(POINTER(c_size_t), c_size_t, c_char_p, c_size_t),
            *(POINTER(_Sizes), c_size_t, c_char_p, c_size_t),
            *(c_void_p, c_size_t, c_void_p, c_size_t, POINTER(_Told)),
        ]
        self._room = _Room()

    def __repr__(self) -> str:
        return f"Library({self.path!r})"

    def __str__(self) -> str:
        return f"library {self.path}"

    def run(self, *words: Union[str, Given]) -> Answer:
        """Calls the library with these words, and with the files among them. Raises the fault, if no answer comes."""
        said: List[bytes] = []
        files: List[Tuple[bytes, bytes]] = []
        for word in words:
            if isinstance(word, Given):
                said.append(_bytes(word.name))
                for given in (word, *word.beside()):
                    # (one that can't be read isn't there, and is told to be missing where that is its turn)
                    content = given.content()
                    if content is not None:
                        files.append((_bytes(given.name), content))
            else:
                said.append(_bytes(word))
        status, out, err = self.call(said, files)
        if 3 <= status <= 5 and not err.endswith(b"\n"):
            # (the fault of a file is certain, and memory was wanting for the line that tells it)
            raise OutOfMemory(f"memory was wanting to say why the status is {status}")
        if status > 1:
            raise fault_of(status, err.decode("utf-8", "replace").splitlines(), [])
        return Answer(status == 1, out)

    def call(self, words: Sequence[bytes], files: Sequence[Tuple[bytes, bytes]]) -> Tuple[int, bytes, bytes]:
        """The status and the two texts, of these words and of files with these names and contents."""
        parts = [part for file in files for part in file]
        sizes = (c_size_t * (len(parts) or 2))(*map(len, parts))
        word_sizes = (c_size_t * (len(words) or 1))(*map(len, words))
        said, held = b"".join(words), b"".join(parts)
        file_sizes = ctypes.cast(sizes, POINTER(_Sizes))
        room = self._room
        while True:
            told = room.told
            status: int = self._call(
                *(word_sizes, len(words), said, len(said), file_sizes, len(files), held, len(held)),
                *(room.out, room.size, room.err, room.size, byref(told)),
            )
            most = max(told.out, told.err)
            if most <= room.size:
                break
            room.take(most)
        texts = ctypes.string_at(room.out, told.out), ctypes.string_at(room.err, told.err)
        if room.size > _MOST_KEPT:
            room.take(_ROOM)
        return (status, *texts)


def system_library() -> Optional[Library]:
    """The library that the system's linker finds."""
    try:
        return Library(SONAME)
    except NoProgram:
        return None


def _bytes(text: str) -> bytes:
    return text.encode("utf-8", "surrogateescape")
