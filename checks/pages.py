#!/usr/bin/env python3
"""Looks in the pages for what isn't so: a link or a path of a file that isn't there; a name of a clause, a law, a type
or a definition that no crate has; and a number of crates, commands, rules, properties, equations or counters that is
another one here. The pages are all of the repository, and the man page. It prints a line for each, and one at the end.
"""
import re
import subprocess
import sys
from pathlib import Path

TOP = Path(__file__).resolve().parent.parent
PAGES = [path for path in sorted(TOP.rglob("*.md")) if "out" not in path.parts and not path.parts[-2].startswith(".")]
# those that name what stands in crates
OF_CRATES = {TOP / "docs" / f"{name}.md" for name in "ARCHITECTURE DECISIONS KNOWN PROMISES TRUST".split()}
FOLDERS = "bench checks crates docs editors examples help model packaging pages python tools c".split()
LINK = re.compile(r"\]\(([^)#\s]*)(#[^)\s]*)?\)")
PATH = re.compile(rf"`((?:{'|'.join(FOLDERS)})/[\w./*{{}},-]+)`")
IN_CRATE = re.compile(r"`(vir\w*/(?:src|specs|proofs|must-fail)/[\w./+-]+)`")
NAME = re.compile(r"`((?:\w+::)?(?:[a-z0-9]+_\w+|[A-Z][a-z0-9]+\w*))`")
# names that stand in these pages and are of no crate of this repository
ELSEWHERE = {"top_call_always_wants_memory"}
# numbers of other things stand there
OF_MEASUREMENTS = {TOP / "bench" / "RESULTS.md", TOP / "CHANGELOG.md"}
# what is always counted whole; a small number of others, such as rules, is one of some of them
EXACT = ("counters", "crates of the kit")
WORDS = "one two three four five six seven eight nine ten eleven twelve thirteen fourteen fifteen sixteen".split()


def count(pattern, path):
    return len(re.findall(pattern, (TOP / path).read_text(encoding="utf-8"), re.M))


def counts():
    """How many there are of what the pages count, by the word for several."""
    crates = count(r"^[a-z_]+(?: [a-z0-9_=]+)*:", "crates.txt")
    tests = count(r"^[a-z_]+_tests:", "crates.txt")
    return {
        "crates": {crates, crates - tests, tests},
        "commands": {count(r"^command:", "help/commands")},
        # those that there are, and how many may be wanted at a time
        "properties": {count(r"^[^#\s]", "help/properties"), 32},
        "rules": {count(r"^\| \d+ \| <a id=", "docs/RULES.md")},
        # those of the full bench, and the types of them
        "counters": {count(r"bench\.push\(", "crates/vir_bench/src/full_bench.rt"),
                     len([*TOP.glob("crates/vir_counter/src/*_counter.rt")])},
        "crates of the kit": {len(kit_crates())},
        "equations": {count(r"^\| \d+ \|", "docs/EQUATIONS.md") or count(r"^\| `", "docs/EQUATIONS.md")},
    }


def kit_crates():
    """The crates that ours stand on and that the kit has."""
    lines = [line.split(":") for line in (TOP / "crates.txt").read_text(encoding="utf-8").splitlines() if ":" in line]
    ours = {left.split()[0] for left, *_ in lines if left.split()}
    return {name for left, right in lines if not left.startswith("#") for name in right.split()} - ours


def names_in_crates():
    """All words of the crates, and the names of their wrong bodies."""
    words = {path.stem for path in TOP.glob("crates/*/must-fail/*.edit")} | {path.name for path in TOP.glob("crates/*")}
    for folder in ("src", "specs", "proofs"):
        for path in TOP.glob(f"crates/*/{folder}/**/*"):
            if path.suffix in (".rt", ".antt"):
                words.add(path.stem)
                words |= set(re.findall(r"\w+", path.read_text(encoding="utf-8")))
    return words


def anchors(page):
    """The anchors of a page: those of its headings, and those that it names."""
    text = page.read_text(encoding="utf-8")
    named = set(re.findall(r'<a id="([^"]*)">', text))
    headings = re.findall(r"^#+ (.*)$", re.sub(r"^    .*$", "", text, flags=re.M), re.M)
    return named | {re.sub(r"[^\w -]", "", heading.lower()).replace(" ", "-") for heading in headings}


def wrong_links(page, text):
    for target, anchor in LINK.findall(text):
        if "://" in target:
            continue
        file = (page.parent / target).resolve() if target else page
        if not file.exists():
            yield f"links to {target}, which isn't there"
        elif anchor and file.suffix == ".md" and anchor[1:] not in anchors(file):
            yield f"links to {target}{anchor}, and no heading is called so"


def wrong_paths(text):
    for path in PATH.findall(text):
        pattern = re.sub(r"\{[^}]*\}", "*", path.rstrip("."))
        if not any(TOP.glob(pattern)) and "out/" not in path and not re.search(r"/[A-Z]+[/.]", path):
            yield f"names {path}, which isn't there"


    for path in IN_CRATE.findall(text):
        if not (TOP / "crates" / path).exists():
            yield f"names {path}, which isn't there"


def wrong_names(text, known):
    for name in sorted(set(NAME.findall(text))):
        if not set(name.split("::")) <= known:
            yield f"names {name}, which no crate has"


def man_page():
    """The man page as text, with its marks of paths as in the pages."""
    told = subprocess.run([TOP / "help" / "page", "man"], capture_output=True, text=True, check=True).stdout
    return re.sub(r"^\.Pa (\S+).*$", r"`\1`", told, flags=re.M)


def wrong_numbers(text, known):
    for what, right in known.items():
        for number, exact in re.findall(rf"(?<![,\d])\b((\d+)|{'|'.join(WORDS)}) {what}\b", text, re.I):
            value = int(exact) if exact else WORDS.index(number.lower()) + 1
            # (a number far from it counts something else)
            is_small = value <= 10 and what not in EXACT
            if value not in right and not is_small and min(abs(value - it) for it in right) < 20:
                yield f"says '{number} {what}', and there are {' or '.join(map(str, sorted(right)))}"


def main():
    known, names = counts(), names_in_crates()
    faults = 0
    for said in [*wrong_paths(man_page()), *wrong_numbers(man_page(), known)]:
        faults += 1
        print(f"pages: the man page {said}")
    for page in PAGES:
        text = page.read_text(encoding="utf-8")
        prose = re.sub(r"^    .*$", "", text, flags=re.M)
        of_crates = wrong_names(prose, names | ELSEWHERE) if page in OF_CRATES else []
        numbers = [] if page in OF_MEASUREMENTS else wrong_numbers(prose, known)
        for said in [*wrong_links(page, prose), *wrong_paths(prose), *numbers, *of_crates]:
            faults += 1
            print(f"pages: {page.relative_to(TOP)} {said}")
    print(f"pages: {len(PAGES)} pages and the man page, {faults} faults")
    return 1 if faults else 0


sys.exit(main())
