#!/usr/bin/env python3
"""Measures the converter of ballots on tables of 1,000,000 rows, made by a seed: ranks, choices and lists.

    bench/ballots.py [ROWS]

prints a row for each table: its bytes, and what the conversion takes in seconds of the processor, in seconds that pass,
and in memory at its peak.
"""

import os
import random
import subprocess
import sys
import tempfile
import time
from pathlib import Path
from typing import Callable, Dict, List

_TOP = Path(__file__).resolve().parent.parent
_NAMES = ["Tea", "Milk", "Soup", "Ito, K.", "Water", "Juice"]
_SEED = 40


def _quoted(name: str) -> str:
    return f'"{name}"' if "," in name else name


def _ranks(order: List[str]) -> str:
    return ",".join(str(order.index(name) + 1) for name in _NAMES)


def _choices(order: List[str]) -> str:
    return ",".join(map(_quoted, order))


def _list(order: List[str]) -> str:
    return f'"{" > ".join(order)}"'


_TABLES: Dict[str, Callable[[List[str]], str]] = {"ranks": _ranks, "choices": _choices, "list": _list}
_HEADS = {
    "ranks": ",".join(map(_quoted, _NAMES)),
    "choices": ",".join(f"choice {place}" for place in range(1, len(_NAMES) + 1)),
    "list": "ballot",
}


def _make(path: Path, kind: str, rows: int) -> None:
    draw = random.Random(_SEED)
    order = list(_NAMES)
    with open(path, "w", encoding="utf-8") as file:
        file.write(f"voter,{_HEADS[kind]}\n")
        for row in range(1, rows + 1):
            draw.shuffle(order)
            file.write(f"{row},{_TABLES[kind](order)}\n")


def _measure(path: Path, output: Path) -> str:
    words = [sys.executable, str(_TOP / "python" / "virage-convert"), str(path), "--skip", "voter", "-o", str(output)]
    began = time.monotonic()
    run = subprocess.Popen(words, stderr=subprocess.DEVNULL)
    _, status, used = os.wait4(run.pid, 0)
    passed = time.monotonic() - began
    run.returncode = os.waitstatus_to_exitcode(status)
    if run.returncode:
        sys.exit(f"bench: {path.name} isn't converted")
    return f"{used.ru_utime + used.ru_stime:.1f} | {passed:.1f} | {used.ru_maxrss // 1024}"


def main() -> None:
    """Makes the tables one by one, and prints a row for each."""
    rows = int(sys.argv[1]) if len(sys.argv) > 1 else 1_000_000
    print("| Table | MB | Processor, s | Passed, s | Peak, MB |\n|---|---|---|---|---|")
    with tempfile.TemporaryDirectory() as folder:
        for kind in _TABLES:
            path = Path(folder) / f"{kind}.csv"
            _make(path, kind, rows)
            size = path.stat().st_size // 10**6
            print(f"| {kind}, {rows:,} rows of {len(_NAMES)} | {size} | {_measure(path, Path(folder) / 'votes.soc')} |")
            path.unlink()


main()
