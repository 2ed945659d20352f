#!/usr/bin/env python3
"""What has to be read to believe what virage says: the files of definitions behind each promise, in reading order.

    checks/trust.py check    compares the tables of docs/TRUST.md, and the marks, with what the crates say
    checks/trust.py write    writes the tables into docs/TRUST.md
    checks/trust.py mark     writes the marks into the files of definitions that no promise stands on

A file of definitions is one of crates/*/specs. What a promise stands on is found by following imports: from the file of
definitions that states it, or from the function in whose clauses it stands. A file that no promise of the program
stands on says so at the end of its head, by the line MARK.
"""
import re
import sys
from pathlib import Path

TOP = Path(__file__).resolve().parent.parent
CRATES = TOP / "crates"
PAGE = TOP / "docs" / "TRUST.md"
MARK = "-- (The program's promises don't stand on this file.)"
IMPORT = re.compile(r"use Rattle\.(\w+)\.specs\.([\w.]+?)\.\{([^}]*)\}")
WHOLE = re.compile(r"use Rattle\.(\w+)\.specs\.([\w.]+) as (\w+)")

# each promise: its name in the page, and the files from which its definitions are reached
PROMISES = [
    ("who is elected", ["vir_mean/specs/Meaning.antt"]),
    ("what holds on every profile", ["vir_mean/specs/Properties.antt"]),
    ("the headline", ["vir_top/specs/Headline.antt"]),
    ("the whole call", ["vir_top/src/top.rt", "vir_top/specs/Headline.antt"]),
    ("the library for C", ["vir_c/specs/Answered.antt"]),
]


def definitions():
    """Each file of definitions, by its crate and its name in imports."""
    found = {}
    for path in sorted(CRATES.glob("*/specs/**/*.antt")):
        crate = path.relative_to(CRATES).parts[0]
        name = ".".join(path.relative_to(CRATES / crate / "specs").with_suffix("").parts)
        if path.name != "Lib.antt":
            found[crate, name] = File(path)
    return found


class File:
    """A file of definitions: its imports by name, and its parts, which blank lines set apart."""

    def __init__(self, path):
        self.path = path
        text = path.read_text(encoding="utf-8")
        self.imported = {}
        for crate, module, names in IMPORT.findall(text):
            for name in names.replace("\n", " ").split(","):
                first, _, other = name.strip().partition(" as ")
                self.imported[other or first] = crate, module, first
        self.called = {name: (crate, module) for crate, module, name in WHOLE.findall(text)}
        parts = [part for part in re.split(r"\n\s*\n", text) if not re.match(r"(--.*\n)*use ", part)]
        self.parts = [Part(self, part) for part in parts if names_defined(part)]
        self.defining = {name: part for part in self.parts for name in part.names}


class Part:
    """One definition, or a few that stand together, with the comment above."""

    def __init__(self, file, text):
        self.file = file
        self.lines = len(text.splitlines())
        self.names = names_defined(text)
        code = "\n".join(line.split("--")[0] for line in text.splitlines())
        self.words = list(dict.fromkeys(re.findall(r"[\w'-]+|◌\S+", code)))
        self.paths = re.findall(r"(\w+)\.([\w'-]+)", code)


def names_defined(text):
    """The names that a part of a file defines: definitions, and the constructors and fields of types."""
    kinds = r"(?:abbrev |unfoldable |opaque )*(?:pub )?(?:data |record )?"
    names = re.findall(rf"^{kinds}([\w'-]+|◌\S+)(?=[ \n:])", text, re.M)
    return names + re.findall(r"^  (?:pub )?([\w'-]+) +:", text, re.M)


def reached(starts, known):
    """The parts that some files stand on, each behind those that it names itself."""
    order = []
    seen = set()

    def visit(part):
        if part in seen:
            return
        seen.add(part)
        for word in part.words:
            if word in part.file.defining:
                visit(part.file.defining[word])
            elif word in part.file.imported:
                visit_named(*part.file.imported[word])
        for name, word in part.paths:
            if name in part.file.called:
                visit_named(*part.file.called[name], word)
        order.append(part)

    def visit_named(crate, module, name):
        file = known.get((crate, module))
        if file and name in file.defining:
            visit(file.defining[name])
        elif file and name in file.imported:
            visit_named(*file.imported[name])

    for start in starts:
        file = File(CRATES / start)
        for place in file.imported.values():
            visit_named(*place)
        for part in known[place_of(CRATES / start)].parts if start.endswith(".antt") else []:
            visit(part)
    return order


def place_of(path):
    """The crate of a file of definitions, and its name in imports."""
    crate, _, *rest = path.relative_to(CRATES).with_suffix("").parts
    return crate, ".".join(rest)


def head(path):
    """The comment at the head of a file, without the mark, as one line, and whether the mark is there."""
    lines = []
    marked = False
    for line in path.read_text(encoding="utf-8").splitlines():
        if not line.startswith("--"):
            break
        if line == MARK:
            marked = True
        else:
            lines.append(line.lstrip("- ").strip())
    return " ".join(lines), marked


def sentence(path):
    """The first sentence at the head of a file."""
    text = head(path)[0]
    end = re.search(r"[.:] |\.$", text)
    return text[: end.start()] if end else text


def lines(parts):
    return sum(part.lines for part in parts)


def tables(known):
    """The tables of the page: each promise's definitions that no earlier one has, and the files that none has."""
    seen = set()
    text = []
    for name, starts in PROMISES:
        parts = reached(starts, known)
        new = [part for part in parts if part not in seen]
        seen |= set(new)
        more = f", {lines(new)} of them not above" if len(new) < len(parts) else ""
        text.append(f"### {name[0].upper()}{name[1:]}: {lines(parts)} lines{more}\n")
        text.append("| File | Lines | What the file says |\n|---|---|---|")
        for file in dict.fromkeys(part.file for part in new):
            there = lines(part for part in new if part.file is file)
            text.append(f"| `{file.path.relative_to(CRATES)}` | {there} | {sentence(file.path)} |")
        text.append("")
    files = {part.file for part in seen}
    rest = [file.path for file in known.values() if file not in files]
    behind = sum(lines(file.parts) for file in known.values() if file not in files)
    text.append(f"### Behind the promises: {len(rest)} files, {behind} lines\n")
    text.append("Proofs, private clauses and calls of the library cite these. No promise of the program stands on "
                "them, and each says so at its head.\n")
    names = {}
    for path in rest:
        crate, name = place_of(path)
        names.setdefault(crate, []).append(name.replace(".", "/"))
    text += [f"- `{crate}`: {', '.join(names[crate])}" for crate in sorted(names)]
    return "\n".join(text) + "\n", rest


def with_tables(page, text):
    """The page with these tables between its two marks."""
    begin, end = "<!-- tables -->\n", "<!-- end of tables -->"
    return page[: page.index(begin) + len(begin)] + "\n" + text + "\n" + page[page.index(end):]


def mark(path, wanted):
    """Writes the mark at the end of the head of a file, or takes it away."""
    lines = path.read_text(encoding="utf-8").splitlines(keepends=True)
    lines = [line for line in lines if line.rstrip("\n") != MARK]
    if wanted:
        place = next((i for i, line in enumerate(lines) if not line.startswith("--")), len(lines))
        lines.insert(place, MARK + "\n")
    path.write_text("".join(lines), encoding="utf-8")


def wrongly_marked(known, rest):
    """The files whose mark isn't there and should be, or the other way round."""
    return [file.path for file in known.values() if head(file.path)[1] != (file.path in rest)]


def main(words):
    if words not in (["check"], ["write"], ["mark"]):
        print(__doc__, file=sys.stderr)
        return 2
    known = definitions()
    text, rest = tables(known)
    if words == ["mark"]:
        for path in wrongly_marked(known, rest):
            mark(path, path in rest)
        return 0
    page = PAGE.read_text(encoding="utf-8")
    sets, holds, headline = (reached(starts, known) for _, starts in PROMISES[:3])
    told = (f"{lines(sets)} lines say who is elected, {lines(part for part in holds if part not in sets)} more what "
            f"holds, and {lines(headline):,} what a report prints")
    if told not in (TOP / "README.md").read_text(encoding="utf-8"):
        print(f"trust: README.md doesn't say: {told}")
        return 1
    if words == ["write"]:
        PAGE.write_text(with_tables(page, text), encoding="utf-8")
        return 0
    wrong = wrongly_marked(known, rest)
    for path in wrong:
        print(f"trust: {path.relative_to(TOP)} has the wrong mark: checks/trust.py mark")
    if page != with_tables(page, text):
        print("trust: docs/TRUST.md doesn't have the tables as they are: checks/trust.py write")
        return 1
    if not wrong:
        print("trust: docs/TRUST.md has the definitions that each promise stands on")
    return 1 if wrong else 0


sys.exit(main(sys.argv[1:]))
