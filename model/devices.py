"""Files and streams, in memory and real ones; both count the calls that fail."""
import os

PIECE = 65_536


class Failed(Exception):
    """A file or a stream has failed."""


class MemoryShelf:
    """Files by name. Calls are counted from 1, and those in `failing` fail."""

    def __init__(self, files, failing=()):
        self.files, self.failing = files, set(failing)
        self.calls = 0
        self.rest = None

    def _call(self):
        self.calls += 1
        if self.calls in self.failing:
            raise Failed()

    def select(self, name):
        self.rest = None
        self._call()
        if name not in self.files:
            raise Failed()
        self.rest = self.files[name]

    def read(self, most):
        self._call()
        piece, self.rest = self.rest[:most], self.rest[most:]
        return piece


class FolderShelf:
    """The files of the system, relative to the folder of the call."""

    def __init__(self):
        self.file = None

    def select(self, name):
        try:
            self.file = open(name, 'rb')
        except (OSError, ValueError):
            raise Failed() from None

    def read(self, most):
        try:
            return self.file.read(most)
        except OSError:
            raise Failed() from None


class MemorySink:
    """Keeps what is written, at most so many bytes a call; calls are counted as a shelf's are."""

    def __init__(self, most=None, failing=()):
        self.most, self.failing = most, set(failing)
        self.calls = 0
        self.bytes = b''

    def write(self, piece):
        self.calls += 1
        if self.calls in self.failing:
            raise Failed()
        written = piece[:self.most]
        self.bytes += written
        return len(written)


class StreamSink:
    def __init__(self, descriptor):
        self.descriptor = descriptor

    def write(self, piece):
        try:
            written = os.write(self.descriptor, piece)
        except OSError:
            raise Failed() from None
        if written == 0:
            raise Failed()
        return written


def read_whole(shelf, name, longest):
    """All bytes of a file, or one more than the longest where it has more."""
    shelf.select(name)
    data, piece = b'', None
    while piece != b'' and len(data) <= longest:
        piece = shelf.read(min(PIECE, longest + 1 - len(data)))
        data += piece
    return data


def write_whole(sink, text):
    written = 0
    while written < len(text):
        written += sink.write(text[written:])
