"""Elements of a page. What isn't markup already is text, and is written so that it can't be anything else."""

from __future__ import annotations

import re
from html import escape

# what isn't a character of a page, and what would turn the text behind it round
_CONTROLS = "\x00-\x08\x0b-\x1f\x7f-\x9f\u2028-\u202e\u2066-\u2069\ufeff"
_UNSEEN = re.compile(f"[{_CONTROLS}\ud800-\udfff\ufdd0-\ufdef\ufffe\uffff]")
_BYTES = range(0xDC80, 0xDD00)


class Markup(str):
    """Text that is markup already."""


def element(name: str, *content: str, **attributes: str) -> Markup:
    """The element of this name. An attribute's name may end in `_`, and has `_` for `-`."""
    given = "".join(f' {key.rstrip("_").replace("_", "-")}="{_safe(value)}"' for key, value in attributes.items())
    return Markup(f"<{name}{given}>{joined(*content)}</{name}>")


def joined(*content: str) -> Markup:
    """These parts, one behind the other."""
    return Markup("".join(part if isinstance(part, Markup) else _safe(part) for part in content))


def _safe(text: str) -> str:
    return escape(_UNSEEN.sub(_named, text))


def _named(found: re.Match[str]) -> str:
    code = ord(found[0])
    return f"[byte {code - 0xDC00:02X}]" if code in _BYTES else f"[U+{code:04X}]"


def term_code(text: str) -> Markup:
    """The text of a term, in which lines may be broken before each part."""
    return element("code", Markup(re.sub(r"([(,])(?=[a-z])", r"\1<wbr>", _safe(text))))


def prose(text: str) -> Markup:
    """A sentence of a page of this repository: code, stress and the words of links are kept."""
    parts = re.split(r"`([^`]*)`", re.sub(r"\[([^]]*)\]\([^)]*\)", r"\1", text))
    return joined(*(term_code(part) if i % 2 else _stressed(part) for i, part in enumerate(parts)))


def _stressed(text: str) -> Markup:
    parts = re.split(r"\*+([^*]+)\*+", text)
    return joined(*(element("em", part) if i % 2 else part for i, part in enumerate(parts)))
