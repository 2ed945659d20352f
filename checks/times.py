#!/usr/bin/env python3
"""Watches a command that runs `rt`, and says how many seconds of processor time each proof, test and edit took.

The times are those that the system keeps of each process, so it doesn't matter how many run beside each other. They are
read some times a second, so what is told of a process may lack its last third of a second; one that was too short to be
seen stands in the rest, which is the command's exact sum without what was seen. checks/times.sh calls this.
"""
import argparse
import collections
import json
import os
import pathlib
import re
import resource
import signal
import subprocess
import sys
import time

TOP = pathlib.Path(__file__).resolve().parent.parent
TICKS = os.sysconf("SC_CLK_TCK")
PROVERS = re.compile(r"rattle(-[a-z]+)?")
# a prover that was seen: who started it, its seconds so far, the folder it works in and its words
Seen = collections.namedtuple("Seen", "parent seconds folder words")
# what a row of the table is about
PROOF, TESTS, EDIT, BASE, CHECK = "proof", "tests", "edit", "base of edits", "check"


def words_of(pid):
    """The words of a process, and the folder that it works in."""
    words = pathlib.Path(f"/proc/{pid}/cmdline").read_bytes().decode(errors="replace").split("\0")
    try:
        return words, os.readlink(f"/proc/{pid}/cwd")
    except OSError:
        # (another user's)
        return words, ""


def look_at_all(known):
    """All processes, by their numbers and when they began; `known` has the words of those that were seen before."""
    found = {}
    for pid in filter(str.isdigit, os.listdir("/proc")):
        try:
            stat = pathlib.Path(f"/proc/{pid}/stat").read_text().rsplit(")", 1)[1].split()
            key = int(pid), stat[19]
            # (what becomes a prover is another program at first)
            words, folder = known[key] if key in known else words_of(pid)
        except (OSError, IndexError):
            continue
        if is_prover(words):
            known[key] = words, folder
        found[key] = Seen(int(stat[1]), sum(map(int, stat[11:15])) / TICKS, folder, words)
    return found


def is_prover(words):
    return PROVERS.fullmatch(os.path.basename(words[0])) is not None


def chain(pid, top, processes):
    """The processes from one up to the one below `top`, or none where `top` hasn't begun it."""
    found = []
    while pid in processes and pid != top:
        found.append(pid)
        pid = processes[pid].parent
    return found if pid == top else []


def begun_by(top, looked):
    """The provers that `top` has begun, at whatever distance, each with the seconds of all that it has begun itself."""
    processes, keys, provers = {pid: it for (pid, _), it in looked.items()}, {pid: (pid, at) for pid, at in looked}, {}
    for pid, seen in processes.items():
        found = [it for it in chain(pid, top, processes) if is_prover(processes[it].words)]
        if found:
            # (the outermost, since a process has the times of those that it has waited for)
            outer = found[-1]
            so_far = provers.get(keys[outer], processes[outer]._replace(seconds=0.0))
            provers[keys[outer]] = so_far._replace(seconds=so_far.seconds + seen.seconds)
    return provers


def applied(edit, folder):
    """The files that an edit changes, with their texts as it has them."""
    texts, path, old = {}, None, None
    for line in edit.read_text(errors="replace").split("\n"):
        if line.startswith("file: "):
            path = line[len("file: ") :].strip()
            texts.setdefault(path, (folder / path).read_text())
        elif line.startswith("old: "):
            old = line[len("old: ") :]
        elif line.startswith("new:") and path and old:
            texts[path] = texts[path].replace(old, line[len("new:") :].removeprefix(" "))
    return texts


def edits_of(crate, top):
    """The edits of a crate in the order in which `rt` numbers them."""
    return sorted((top / "crates" / crate / "must-fail").glob("*.edit"))


def edit_in(room, crate, top):
    """The name of the edit that the copy of a crate in the folder `room` has, or nothing where it has none."""
    folder = top / "crates" / crate
    for edit in edits_of(crate, top):
        try:
            if all((pathlib.Path(room) / path).read_text() == text for path, text in applied(edit, folder).items()):
                return edit.stem
        except OSError:
            continue
    return None


def named(seen, top=TOP):
    """What a prover's process is about, where `top` has the crates: a kind, a crate and an edit's name."""
    words = seen.words
    # rattle-test runs the file NAME_tests
    ran = next((os.path.basename(it) for it in words if it.endswith("_tests")), None)
    crate = words[words.index("--crate-name") + 1] if "--crate-name" in words else (ran or "").removesuffix("_tests")
    if not crate:
        return None
    kept = words[words.index("--incremental") + 1] if "--incremental" in words else ""
    if kept.endswith("/seed"):
        return BASE, crate, ""
    if os.path.basename(seen.folder).startswith("rt-edit-"):
        number, edits = os.path.basename(kept), edits_of(crate, top)
        if number.isdigit() and int(number) < len(edits):
            return EDIT, crate, edits[int(number)].stem
        edit = edit_in(seen.folder, crate, top)
        return (EDIT, crate, edit) if edit else (BASE, crate, "")
    return TESTS if ran or "--test" in words else PROOF, crate, ""


class Watch:
    """What was seen of a command's provers. Each that ended is a line of the log."""

    def __init__(self, log, top):
        self.log, self.top, self.live, self.names, self.known = log, top, {}, {}, {}

    def look(self, begun):
        now = begun_by(begun, look_at_all(self.known)) if begun else {}
        for key in self.live.keys() - now.keys():
            self.keep(key)
        for key, seen in now.items():
            # (once, since its folder is gone when it has ended)
            if key not in self.names:
                self.names[key] = named(seen, self.top)
        self.live = now

    def keep(self, key):
        name = self.names.pop(key, None)
        if name:
            kind, crate, edit = name
            row = {"kind": kind, "crate": crate, "name": edit, "seconds": round(self.live[key].seconds, 2)}
            print(json.dumps(row), file=self.log, flush=True)


def watch(folder, command, pause, top):
    """Runs the command under the watch, and gives its status. What was seen stands in the folder then."""
    folder.mkdir(parents=True, exist_ok=True)
    checks = folder / "checks"
    checks.unlink(missing_ok=True)
    began = time.time()
    with open(folder / "seen.jsonl", "w", encoding="utf-8") as log:
        child = subprocess.Popen(command, env={**os.environ, "VIRAGE_TIMES": str(checks.resolve())})
        for it in (signal.SIGINT, signal.SIGTERM):
            signal.signal(it, lambda number, _: child.send_signal(number))
        watched = Watch(log, top)
        while child.poll() is None:
            watched.look(child.pid)
            time.sleep(pause)
        watched.look(None)
    used = resource.getrusage(resource.RUSAGE_CHILDREN)
    seconds, clock = round(used.ru_utime + used.ru_stime, 2), round(time.time() - began)
    all_of_it = {"command": command, "seconds": seconds, "clock": clock}
    (folder / "sum.json").write_text(json.dumps(all_of_it) + "\n")
    return child.returncode if child.returncode >= 0 else 128 - child.returncode


def rows_of(folder):
    """The rows of one watch: seconds by what they are about. Of several processes on one thing it is the sum."""
    rows = collections.Counter()
    for line in (folder / "seen.jsonl").read_text().splitlines():
        it = json.loads(line)
        rows[it["kind"], it["crate"], it["name"]] += it["seconds"]
    checks = folder / "checks"
    # each line is SECONDS CLOCK NAME
    for line in checks.read_text().splitlines() if checks.is_file() else ():
        seconds, _, name = line.split(" ", 2)
        if name != "rt ci":
            rows[CHECK, "", name] += float(seconds)
    return rows


def all_rows(folders):
    """The rows of several watches. What a later one tells of a crate stands in place of what an earlier one does."""
    rows = {}
    for folder in folders:
        newer = rows_of(folder)
        about = {it[1:2] if it[1] else it for it in newer}
        rows = {it: seconds for it, seconds in rows.items() if (it[1:2] if it[1] else it) not in about} | newer
    return rows


def print_crates(rows):
    """A line for each crate, and one for all of them."""
    kinds = (PROOF, TESTS, EDIT, BASE)
    sums = collections.defaultdict(lambda: dict.fromkeys(kinds, 0.0))
    for (kind, crate, _), seconds in rows.items():
        if kind != CHECK:
            sums[crate][kind] += seconds
    edits = collections.Counter(crate for kind, crate, _ in rows if kind == EDIT)
    print("Processor seconds of each crate, dearest first:\n")
    print(f"{'all':>9} {'proof':>9} {'tests':>9} {'edits':>9} {'base':>9}  crate")
    dearest = sorted(sums.items(), key=lambda it: -sum(it[1].values()))
    whole = {kind: sum(it[kind] for it in sums.values()) for kind in kinds}
    for crate, of in [*dearest, (f"{len(sums)} crates", whole)]:
        number = edits[crate] if crate in edits else (sum(edits.values()) if of is whole else 0)
        print(f"{sum(of.values()):9.1f} " + " ".join(f"{of[it]:9.1f}" for it in kinds) + f"  {crate}, {number} edits")


def print_each(rows, least):
    print(f"\nEach proof, test, edit and check of {least:g} seconds and more, dearest first:\n")
    for (kind, crate, name), seconds in sorted(rows.items(), key=lambda it: -it[1]):
        if seconds >= least:
            print(f"{seconds:9.1f}  {kind:13}  {crate}{'/' if crate and name else ''}{name}")


def print_sums(rows, folders):
    seen = sum(rows.values())
    print(f"\n{seen:9.1f}  all that stands above, or is shorter: {seen / 60:.1f} minutes")
    for folder in folders:
        told = folder / "sum.json"
        if told.is_file():
            it = json.loads(told.read_text())
            rest, command = it["seconds"] - sum(rows_of(folder).values()), " ".join(it["command"])
            print(f"{it['seconds']:9.1f}  {command}, in {it['clock']} s; {rest:.1f} by what wasn't seen")


def main():
    parser = argparse.ArgumentParser(description=__doc__.split("\n", maxsplit=1)[0])
    parser.add_argument("--watch", type=pathlib.Path, metavar="FOLDER", help="run the command, and keep what is seen")
    parser.add_argument("--table", type=pathlib.Path, nargs="+", metavar="FOLDER", help="print what was kept there")
    parser.add_argument("--least", type=float, default=1, help="leave out single things below so many seconds")
    parser.add_argument("--top", type=pathlib.Path, default=TOP, help="the repository that the command is about")
    parser.add_argument("--pause", type=float, default=0.3, help="seconds between two looks")
    parser.add_argument("command", nargs="*")
    asked = parser.parse_args()
    status = watch(asked.watch, asked.command, asked.pause, asked.top) if asked.watch else 0
    folders = [asked.watch] if asked.watch else asked.table or parser.error("--watch or --table is wanted")
    rows = all_rows(folders)
    print_crates(rows)
    print_each(rows, asked.least)
    print_sums(rows, folders)
    return status


if __name__ == "__main__":
    sys.exit(main())
