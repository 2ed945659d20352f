"""Writes long and hostile certificates into a folder, and lists each with its bytes, nesting, and what is said of it.

Each is in the first version. What is said is `accepted`, the first node that is refused, or the fault of the text and
its byte.
"""
import sys
from typing import NamedTuple

LONGEST = 16777216
DEEPEST = 256
MONO = "virage-certificate 1\nterm seq(max(copeland),elect)\nproperty mono\nderivation "
REFUSED = "refused node 0: RuleDoesNotFit"


class Certificate(NamedTuple):
    name: str
    text: str
    nesting: int
    said: str


def with_mono(name, derivation, nesting, said=REFUSED):
    """A derivation that isn't one of that property."""
    return Certificate(name, f"{MONO}{derivation}\n", nesting, said)


def nested(rule, levels, leaf):
    """So many levels, the leaf among them."""
    return f"{rule}(" * (levels - 1) + leaf + ")" * (levels - 1)


def balanced(rule, leaf, leaves):
    half = leaves // 2
    return leaf if leaves == 1 else f"{rule}({balanced(rule, leaf, half)},{balanced(rule, leaf, leaves - half)})"


def room(*others):
    """How many bytes are left in a derivation of that property, beside these."""
    return LONGEST - len(MONO) - len("\n") - sum(map(len, others))


def as_often(rule, child):
    """A rule with so many of a child as a certificate has room for."""
    return f"{rule}({','.join([child] * ((room(rule, '()') + 1) // (len(child) + 1)))})"


def doubling(levels):
    """So many loops, and a valid derivation that is twice as long with each: that of a loop has its body's twice."""
    ne, defers = "ne-leaf", "defers-leaf"
    for _ in range(levels):
        defers = f"defers-loop-one({ne},nb-defers({ne},{defers}),decr-defers({ne},{defers}))"
        ne = f"ne-loop({ne})"
    term = "loop(1," * levels + "pass(1)" + ")" * levels
    return f"virage-certificate 1\nterm {term}\nproperty defers(1)\nderivation {defers}\n"


def valid():
    levels = 1
    while len(doubling(levels + 1)) <= LONGEST:
        levels += 1
    yield Certificate("valid", doubling(levels), 2 * levels + 1, "accepted")


def large():
    for leaves in 162567, 325133, 650265:
        yield with_mono(f"balanced-{leaves}", balanced("dli-seq-both", "dli-leaf", leaves), leaves.bit_length() + 1)
    for child in "ne-rev", "cc-par", "disj-rev-right":
        yield with_mono(f"children-{child}", as_often("ccomp-cc", child), 2)
    yield with_mono("deep", as_often("ccomp-cc", nested("ea-seq", DEEPEST - 1, "ea-leaf")), DEEPEST)


def faulty():
    deepest = nested("ea-seq", DEEPEST - 1, "ea-leaf")
    deep = as_often("ccomp-cc", deepest)
    before = deep[:-len(f",{deepest})")]
    yield with_mono("too-deep", f"{before},ea-seq({deepest}))", DEEPEST + 1,
                    f"TooDeep at byte {len(MONO) + len(before) + len(',ea-seq(') + deepest.index('ea-leaf')}")
    yield with_mono("signs", "ne-seq" + "(" * room("ne-seq"), 1, f"Unexpected at byte {len(MONO) + len('ne-seq(')}")
    yield with_mono("commas", "ne-seq(ne-leaf" + "," * room("ne-seq(ne-leaf"), 2,
                    f"Unexpected at byte {len(MONO) + len('ne-seq(ne-leaf,')}")
    yield with_mono("long-word", "n" * room(), 1, f"UnknownRule at byte {len(MONO)}")
    yield with_mono("too-long", "n" * (room() + 1), 1, f"TextTooLong at byte {LONGEST}")


def of_a_term(name, before, part, behind):
    """A term of so many of a part, with a comma between, as a certificate has room for: none, and told so at once."""
    start = "virage-certificate 1\nterm " + before
    text = ",".join([part] * ((LONGEST - len(start) - len(behind) + 1) // (len(part) + 1)))
    return Certificate(name, start + text + behind, 1, f"WrongCountOfArguments at byte {len(start) - len(before)}")


def bulky():
    """Terms that are read whole before the first fault is told."""
    yield of_a_term("term-words", "elect(", "a", ")")
    yield of_a_term("term-calls", "elect(", "a(a)", ")")
    yield of_a_term("term-deep", "elect(", nested("a", 79, "a"), ")")
    yield of_a_term("term-numbers", "elect([", "1", "])")


for certificates in valid, large, faulty, bulky:
    for certificate in certificates():
        assert len(certificate.text) <= LONGEST or certificate.name == "too-long", certificate.name
        with open(f"{sys.argv[1]}/{certificate.name}", "w") as file:
            file.write(certificate.text)
        print(certificate.name, len(certificate.text), certificate.nesting, certificate.said)
