#!/usr/bin/env python3
"""The map of a rule: each property derived, false by a case that is found now, or open.

    python3 examples/search/map.py examples/rules/benham.vir

Of what isn't derived cases are looked for, as `counterexample.py` does. What is false is proved so by `refute` (`neut`
by two counts); what is open may be true or false, and laws of docs/KNOWN.md may say which. The status is 0, or 3 where
virage gives no answer.
"""

from __future__ import annotations

import argparse
import sys
import warnings
from pathlib import Path
from typing import Any, Union

TOP = Path(__file__).resolve().parents[2]
if (TOP / "python" / "virage").is_dir():
    sys.path.insert(0, str(TOP / "python"))

import virage  # noqa: E402
from virage.searches import Search  # noqa: E402


def tell(message: Union[Warning, str], *_: Any, **__: Any) -> None:
    """Says a warning, or what judges, as the script of a checkout says it of its build."""
    print(f"virage: {message}", file=sys.stderr)


# the properties of a rule that defers nobody
OF_NOBODY = {"dli", "dmono"}


def ends_in_elect(term: virage.Term) -> bool:
    """Whether a rule is `elect`, or a sequence that ends in it."""
    while term.word == "seq":
        term = term.parts[1]
    return term.word == "elect"


def of_open(found: virage.PropertyMap) -> str:
    """Where to look further for what is open."""
    cells = [cell.property for cell in found.cells.values() if cell.kind == "open"]
    if not cells:
        return ""
    text = f"laws of docs/KNOWN.md may speak of what is open: {', '.join(cells)}\n"
    held = [word for word in cells if word in OF_NOBODY]
    if held and ends_in_elect(found.term):
        text += f"the rule ends in elect, so that it defers nobody: by these laws it has {' and '.join(held)}\n"
    return text


def main() -> int:
    parser = argparse.ArgumentParser(description=__doc__, formatter_class=argparse.RawDescriptionHelpFormatter)
    parser.add_argument("rule", metavar="RULE", help="a rule file, of which the last rule is meant")
    parser.add_argument("--seed", type=int, default=1, help="what the profiles are drawn from (%(default)s)")
    parser.add_argument("--cases", type=int, default=10_000, help="how many are tried of a property (%(default)s)")
    options = parser.parse_args()
    terminal = sys.stderr.isatty()
    warnings.showwarning = tell

    def tell_progress(property: str, tried: int, cases: int) -> None:
        if terminal and tried % 50 == 0:
            sys.stderr.write(f"\r{property}: {tried:,} of {cases:,} cases\x1b[K")

    try:
        search = Search(options.rule, "ne")
        tell(f"the cases are judged by {search.means}")
        found = virage.map(
            search.rule, seed=options.seed, cases=options.cases, progress=tell_progress, program=search.program)
    except (virage.Fault, OSError) as fault:
        print(f"virage gives no answer: {type(fault).__name__} {fault}", file=sys.stderr)
        return 3
    finally:
        if terminal:
            sys.stderr.write("\r\x1b[K")
    print(found)
    print(of_open(found), end="")
    return 0


if __name__ == "__main__":
    sys.exit(main())
