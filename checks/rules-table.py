#!/usr/bin/env python3
"""Compares the rules of docs/RULES.md with the table of crates/vir_rules/specs: number, name, what each rule concludes,
and its premises. It prints a line; where they differ it names each rule that does, and ends with 1."""
import os
import re
import sys
from pathlib import Path

os.chdir(Path(__file__).resolve().parent.parent)

SPECS = "crates/vir_rules/specs/"
SCORES = ["Plurality", "Borda", "Copeland", "Minimax", "Condorcet"]
PLAIN = {"Elect": "elect", "Defer": "defer", "PassFirst": "pass", "DropFirst": "drop", "Plurality": "plurality"}
ELIMINATIONS = {"Max": "max", "Min": "min", "Below": "below", "Upto": "upto"}
SHAPES = {
    "any": "any", "rev": "`rev(m)`", "seq": "`seq(m,n)`", "par": "`par(m,n)`",
    "loop": "`loop(k,m)`", "loop_1": "`loop(1,m)`", "until": "`until(k,m)`", "until_1": "`until(1,m)`",
    "loop_k": "`loop(k,m)`, with the same k", "until_k": "`until(k,m)`, with the same k",
    "pass_k": "`pass(k,o)`, with the same k", "drop_k": "`drop(k,o)`, with the same k",
}
PAIRINGS = {
    "pass_and_drop": "`pass(k,o)` and `drop(k,o)`, with the same k and the same o",
    "drop_and_pass": "`drop(k,o)` and `pass(k,o)`, with the same k and the same o",
    "seq_left": "`seq(m,n)` and u", "seq_right": "u and `seq(m,n)`",
    "rev_left": "`rev(m)` and u", "rev_right": "u and `rev(m)`",
}


def read(path):
    with open(path, encoding="utf-8") as file:
        return file.read()


def clauses(text, name):
    """the clauses of a definition by cases: their patterns, and what they say"""
    found = re.findall(rf"^{name} (.*?) = (.*)$", text, re.M)
    return [(re.findall(r"\([^)]*\)|\S+", patterns), says) for patterns, says in found]


def value(text, name, *arguments):
    """a truth value that a definition by cases gives"""
    for patterns, says in clauses(text, name):
        bound = {}
        if all(matches(p, a, bound) for p, a in zip(patterns, arguments)):
            if says in ("true", "false"):
                return says == "true"
            call, argument = says.split(" ")
            return value(text, call, bound[argument])
    raise SystemExit(f"table of rules: {name} has no case for {arguments}")


def matches(pattern, argument, bound):
    words = pattern.strip("()").split(" ")
    if len(words) == 2:
        if not isinstance(argument, tuple) or argument[0] != words[0]:
            return False
        bound[words[1]] = argument[1]
        return True
    if words[0][0].isupper():
        return argument == ("Plurality" if words[0] == "First" else words[0])
    bound[words[0]] = argument
    return True


def modules(families, family):
    """the modules of a family, in words"""
    plain = [f"`{PLAIN[kind]}`" for kind in PLAIN if value(families, "is_of", family, kind)]
    scored = []
    for kind, word in ELIMINATIONS.items():
        scores = [score for score in SCORES if value(families, "is_of", family, (kind, score))]
        if scores:
            scored.append((f"`{word}`", scores))
    if not scored:
        return ", ".join(plain)
    scores = scored[0][1]
    words = ", ".join(plain + [word for word, _ in scored])
    if any(other != scores for _, other in scored) or (plain and scores != SCORES):
        raise SystemExit(f"table of rules: no words for the modules of {family}")
    return words if scores == SCORES else words + " of " + ", ".join(f"`{score.lower()}`" for score in scores)


def wanted(word):
    """a property as a row names it"""
    counted = re.fullmatch(r"(defers|rejects|elim)_(\w+)", word)
    return f"`{counted[1]}({counted[2]})`" if counted else f"`{word}`"


def need(words):
    if words[0] == "Disj":
        return f"`disj` of {words[1]} and {words[2]}"
    return f"{wanted(words[1])} of {words[2]}"


def coded_rules():
    """of each rule of the table its name, conclusion and premises, in the words of the page"""
    table = read(SPECS + "Table.antt")
    families = read(SPECS + "Families.antt")
    body = " ".join(table[table.index("\ntable =") :].split())
    rules = []
    row = r'rule \(codes "([^"]*)"\) \((.*?)\) (\[\]|\((?:Of|Disj).*?\[\]\)) ∷'
    for name, conclusion, needs in re.findall(row, body):
        words = conclusion.split(" ", 2)
        if words[0] == "Apart":
            says = "`disj` of " + PAIRINGS[words[1]]
        elif words[2].startswith("(module_of"):
            says = f"{wanted(words[1])} of " + modules(families, words[2].strip("()").split(" ")[1])
        else:
            says = f"{wanted(words[1])} of {SHAPES[words[2]]}"
        premises = [need(part.split(" ")) for part in needs.strip("()").split(" ∷ ") if part != "[]"]
        rules.append((name, says, "; ".join(premises)))
    return rules


def page_rules():
    """by its number the name, conclusion and premises of each rule of the page"""
    rules, prop, short = {}, "", False
    for line in read("docs/RULES.md").split("\n"):
        heading = re.match(r"### .*: (`[^`]*`)$", line)
        if heading:
            prop = heading[1]
        if line.startswith("| No. |"):
            short = "Concludes it of" in line
        row = re.match(r'\| (\d+) \| <a id="([^"]*)"></a>`([^`]*)` \| (.*?) \| ?(.*?) ?\|$', line)
        if row:
            number, anchor, name, says, premises = row.groups()
            if int(number) in rules or anchor != name:
                print(f"table of rules: rule {number} stands twice, or has another anchor")
                sys.exit(1)
            rules[int(number)] = (name, f"{prop} of {says}" if short else says, premises)
    return rules


coded, page = coded_rules(), page_rules()
differing = [n for n, rule in enumerate(coded, 1) if page.get(n) != rule]
differing += [n for n in page if n > len(coded)]
for n in differing:
    print(f"rule {n}: docs/RULES.md {page.get(n)}, the table {coded[n - 1] if n <= len(coded) else None}")
if differing or not coded:
    print("table of rules: docs/RULES.md DIFFERS from it")
    sys.exit(1)
print(f"table of rules: docs/RULES.md has its {len(coded)} rules")
