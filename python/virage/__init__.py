"""Calls virage, the compiler of composed voting rules, and gives its answers as data.

    >>> import virage
    >>> votes = [(4, [1, 2, 3]), (3, [2, 3, 1]), (2, [3, 2, 1])]
    >>> virage.count("copeland-rule = seq(max(copeland), elect);", votes).elected
    frozenset({2})

A function for each command, with the command's name. A rule is the path of a rule file, the text of one (a string with
a semicolon, or bytes), or a term, as a string or a Term. A profile is the path of a `.soc` file, the text of one (a
string with a line feed, or bytes), a Profile, or a list of weights and orders. What gives no answer raises a Fault.
docs/PYTHON.md goes on.

A call is made in this process, by the library, where there is one, and else by the program: `engine()` says which.
What it gives is what that printed; of this module itself nothing is proved.
"""

from .adapters import from_pref_voting, from_preflib, from_table
from .answers import (
    CaseVerdict,
    Certificate,
    Counted,
    Drill,
    Found,
    Instruction,
    Refused,
    Report,
    Result,
    Simplified,
    Step,
    Verdict,
    read_certificate,
    read_report,
)
from .ballots import Ballots, read_ballots
from .commands import (
    batch,
    check,
    count,
    drill,
    explain,
    listing,
    pairs,
    position,
    prove,
    refute,
    report,
    simplify,
    synth,
)
from .derivations import Derivation, Finding, Holds, Reason, Underived
from .engines import engine
from .explanations import Account, Explanation, Pairs, Visit, read_explanation, read_pairs
from .faults import (
    BallotsRefused,
    Broken,
    Fault,
    NoCounter,
    NoProgram,
    OutOfMemory,
    ProfileRefused,
    ReadFault,
    TextRefused,
    UsageFault,
    WriteFault,
)
from .library import Library
from .maps import Cell, PropertyMap
from .maps import property_map as map
from .pages import page
from .profiles import Profile
from .program import BuildWarning, Program
from .rules import Judgement, Property, Rule, Table, table
from .searches import Counterexample, search
from .terms import Term

# (`map` stands not here, so that `from virage import *` leaves Python's own)
__all__ = [
    "Account",
    "Ballots",
    "BallotsRefused",
    "Broken",
    "BuildWarning",
    "CaseVerdict",
    "Cell",
    "Certificate",
    "Counted",
    "Counterexample",
    "Derivation",
    "Drill",
    "Explanation",
    "Fault",
    "Finding",
    "Found",
    "Holds",
    "Instruction",
    "Judgement",
    "Library",
    "NoCounter",
    "NoProgram",
    "OutOfMemory",
    "Pairs",
    "Profile",
    "ProfileRefused",
    "Program",
    "Property",
    "PropertyMap",
    "ReadFault",
    "Reason",
    "Refused",
    "Report",
    "Result",
    "Rule",
    "Simplified",
    "Step",
    "Table",
    "Term",
    "TextRefused",
    "Underived",
    "UsageFault",
    "Verdict",
    "Visit",
    "WriteFault",
    "batch",
    "check",
    "count",
    "drill",
    "engine",
    "explain",
    "from_pref_voting",
    "from_preflib",
    "from_table",
    "listing",
    "page",
    "pairs",
    "position",
    "prove",
    "read_ballots",
    "read_certificate",
    "read_explanation",
    "read_pairs",
    "read_report",
    "refute",
    "report",
    "search",
    "simplify",
    "synth",
    "table",
]
