"""Files of ballots that are changed at random: each ends in a profile that the program accepts, or in a refusal.

    cd python && python3 -m tests.mutated_ballots [CASES] [SEED]

prints what ended otherwise, and a line at the end.
"""

import csv
import io
import random
import re
import sys
import tempfile
from pathlib import Path
from typing import Dict, List, Tuple

import virage

from .ballot_files import BROKEN, FILES

_SIGNS = [b",", b";", b"\t", b'"', b">", b"=", b"{", b"}", b"#", b":", b"0", b"1", b"2", b"-", b" ", b"\n", b"\r\n",
          b"\r", b"\x00", b"\xff", b"\xc3\xa9", b"[", b"]", b"\xef\xbb\xbf", b"9" * 30, b"tea", b"", b"\n\n"]

_CHOICES = [{}, {"incomplete": "all", "ties": "all"}, {"incomplete": "drop", "ties": "drop", "empty": "drop"},
            {"incomplete": "all", "ties": "all", "empty": "drop", "most": 1000}]

# how many profiles the program judges at once
_AT_ONCE = 500


class Mutations:
    """Changed files, the same of each seed. `accepted` and `refused` count how they ended."""

    def __init__(self, seed: int) -> None:
        self._draw = random.Random(seed)
        self._folder = tempfile.TemporaryDirectory()
        self._room = Path(self._folder.name)
        self.accepted = self.refused = 0

    def __enter__(self) -> "Mutations":
        return self

    def __exit__(self, *stop: object) -> None:
        self._folder.cleanup()

    def faults(self, cases: int) -> List[str]:
        """What ended otherwise, of so many cases."""
        found: List[str] = []
        waiting: Dict[str, bytes] = {}
        for case in range(cases):
            name, content, named = self._file()
            ended = self._ended(name, content, named)
            if isinstance(ended, str):
                found.append(f"{name} {content!r} {named}: {ended}")
            elif ended is not None:
                waiting[f"{case} {name}"] = ended
            if len(waiting) == _AT_ONCE or case == cases - 1:
                rows = virage.batch("elect", waiting)
                found += [f"{row.file}: {row.kind} at {row.line}" for row in rows if isinstance(row, virage.Refused)]
                waiting = {}
        return found

    def _file(self) -> Tuple[str, bytes, Dict[str, object]]:
        draw = self._draw
        name, content, named = draw.choice(FILES * 3 + BROKEN)[:3]
        for _ in range(draw.choice((1, 1, 1, 1, 2, 3, 8))):
            content = self._changed(content)
        return name, content, {**named, **draw.choice(_CHOICES)}

    def _changed(self, content: bytes) -> bytes:
        """The file with a part cut out, doubled, moved or replaced, or with another sign in it."""
        draw = self._draw
        at, end = sorted((draw.randint(0, len(content)), draw.randint(0, len(content))))
        lines = content.splitlines(keepends=True)
        kind = draw.randrange(7)
        if kind == 0:
            return content[:at] + content[min(end, at + draw.choice((1, 2, 9))) :]
        if kind == 1:
            return content[:at] + draw.choice(_SIGNS) + content[at:]
        if kind == 2:
            return content[:at] + draw.choice(_SIGNS) + content[at + 1 :]
        if kind == 3 and lines:
            lines.insert(draw.randint(0, len(lines)), draw.choice(lines))
        elif kind == 4 and lines:
            lines.pop(draw.randrange(len(lines)))
        elif kind == 5 and lines:
            draw.shuffle(lines)
        else:
            return content[:at]
        return b"".join(lines)

    def _ended(self, name: str, content: bytes, named: Dict[str, object]) -> "str | bytes | None":
        """The profile, None where it is refused as it should be, or what is wrong."""
        path = self._room / name
        path.write_bytes(content)
        try:
            made = virage.read_ballots(path, **named)
        except virage.BallotsRefused as stop:
            self.refused += 1
            most = content.count(b"\n") + content.count(b"\r") + 2
            return None if 1 <= stop.row <= most and stop.why else f"refused at row {stop.row}"
        except Exception as stop:  # pylint: disable=broad-except
            return f"{type(stop).__name__}: {stop}"
        finally:
            path.unlink()
        self.accepted += 1
        left = [*made.left_out.values()]
        if made.taken.ballots != made.written.ballots + sum(count.ballots for count in left):
            return "ballots are lost"
        if made.taken.voters != made.written.voters + sum(count.voters for count in left):
            return "voters are lost"
        if made.written.voters * made.factor != sum(weight for weight, _ in made.lines):
            return "the weights don't add up"
        rows = _rows(name, content, named, made.told[0])
        return made.text() if rows == made.taken.ballots else f"{rows} rows, and {made.told[0]}"


def _rows(name: str, content: bytes, named: Dict[str, object], told: str) -> int:
    """How many ballots a file has, counted by its lines, or by its rows where it is a table."""
    encoding = "utf-16" if content[:2] in (b"\xff\xfe", b"\xfe\xff") else "utf-8-sig"
    text = content.decode(str(named.get("encoding", encoding)))
    if told.startswith("read: a table"):
        return _rows_of_table(name, text)
    lines = [line.strip(" \t\r\n") for line in io.StringIO(text, newline=None)]
    if told.startswith("read: lines of orders"):
        lines = "\n".join(line for line in lines if not line.startswith("#")).rstrip("\n").split("\n")
        return len(lines)
    lines = [line for line in lines if line]
    if told.startswith("read: a .blt"):
        lines = [line.partition("#")[0].strip() for line in lines]
        lines = [line for line in lines if line]
        return sum(not line.startswith("-") for line in lines[1 : lines.index("0")])
    if "older layout" in told:
        return len(lines) - 2 - int(lines[0].rstrip(", "))
    return sum(not line.startswith("#") for line in lines)


def _rows_of_table(name: str, text: str) -> int:
    first = io.StringIO(text, newline="").readline()
    said = 0
    if first.startswith("sep="):
        said, delimiter = 1, first[4]
    else:
        delimiter = next((sign for sign in ",;\t" if sign in re.sub('"[^"]*"', "", first)), ",")
    if name.endswith(".tsv") and not said:
        delimiter = "\t"
    rows = [*csv.reader(io.StringIO(text, newline=""), delimiter=delimiter, skipinitialspace=True)]
    while not rows[-1]:
        rows.pop()
    return len(rows) - 1 - said


def main() -> int:
    """The status: 1 where a file ended otherwise."""
    words = [*map(int, sys.argv[1:])]
    cases, seed = (*words, *(20_000, 1)[len(words) :])
    with Mutations(seed) as mutations:
        faults = mutations.faults(cases)
    print(*faults, sep="\n", end="\n" if faults else "")
    print(f"ballots: {cases} changed files, {mutations.accepted} accepted, {mutations.refused} refused, "
          f"{len(faults)} faults")
    return 1 if faults else 0


if __name__ == "__main__":
    sys.exit(main())
