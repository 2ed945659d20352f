"""`python3 -m virage.report_page [RULE]` reads a report from standard input and writes its page to standard output.

Where a rule file is named the page is headed by the name of the rule, which is that of the file's last definition.
Behind the report may stand what `explain`, what `pairs` and what `cat` of the profile prints, in this order, or some of
them: each is shown too.
"""

import re
import sys
from pathlib import Path
from typing import List, Optional

from . import Profile, page, read_explanation, read_pairs, read_report

# where an explanation and pairs begin, behind a report
_PARTS = re.compile(
    rb"(?m)^(?=rule )|^(?=explanation too long$)|^(?=alternatives [0-9]+\nvoters [0-9]+\n(?:name .*\n)*prefer )"
)

# where a profile begins: no line of what the program prints begins so, and its empty lines stand within explanations
_PROFILE = re.compile(rb"(?m)^(?:[ \t\r]*\n)*(?:\xef\xbb\xbf|[ \t]*(?:#|[0-9]+[ \t]*:))")


# a definition of a rule file without comments
_DEFINITION = re.compile(r"([a-z][a-z0-9-]*)\s*=[^;]*;")


def name_of(rule_file: str) -> Optional[str]:
    """What the rule of a rule file is called."""
    names = _DEFINITION.findall(re.sub(r"#.*", "", rule_file))
    return str(names[-1]) if names else None


def drawn(text: bytes, name: Optional[str] = None) -> str:
    """The page of these texts, one behind the other."""
    begins = _PROFILE.search(text)
    printed, votes = (text, b"") if begins is None else (text[: begins.start()], text[begins.start() :])
    parts: List[bytes] = [part for part in _PARTS.split(printed) if part]
    report = read_report(parts[0] if parts else b"")
    explanation, pairs = None, None
    for part in parts[1:]:
        if part.startswith(b"rule "):
            explanation = read_explanation(part)
        elif part.startswith(b"alternatives "):
            pairs = read_pairs(part)
    return page(report, explanation, pairs, Profile.read(votes) if votes else None, name)


def main() -> int:
    """The status: 1 where there is no report, with a line on standard error."""
    text = sys.stdin.buffer.read()
    if not text:
        print("report-page: nothing on standard input, so no report was printed", file=sys.stderr)
        return 1
    try:
        name = name_of(Path(sys.argv[1]).read_text(encoding="utf-8")) if len(sys.argv) > 1 else None
        shown: Optional[str] = drawn(text, name)
    except OSError as stop:
        print(f"report-page: the rule file can't be read: {stop}", file=sys.stderr)
        return 1
    except ValueError as stop:
        print(f"report-page: what is on standard input is no report: {stop}", file=sys.stderr)
        return 1
    sys.stdout.buffer.write(str(shown).encode("utf-8"))
    return 0


if __name__ == "__main__":
    sys.exit(main())
