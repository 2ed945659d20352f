#!/usr/bin/env bash
# Rule files that mean harm: each is generated, counted on a small profile by the proved build, and printed with its
# length, the answer, the seconds and the peak memory. Usage: bench/hostile.sh [FOLDER], where FOLDER keeps the files.
set -eu
top=$(cd "$(dirname "$0")/.." && pwd)
program=$top/crates/virage/out/virage
profile=$top/examples/profiles/divided.soc
room=${1:-$(mktemp -d)}
[ $# -gt 0 ] || trap 'rm -rf "$room"' EXIT
mkdir -p "$room"

# times TEXT N: the text so many times
times() { python3 -c 'import sys; sys.stdout.write(sys.argv[1] * int(sys.argv[2]))' "$1" "$2"; }

most=1048576
times '(' $most >"$room/parentheses"
times 'rev(' $((most / 4)) >"$room/revisions"
{ printf 'r = '; times 'rev(' $((most / 4 - 1)); } >"$room/revisions-of-a-rule"
times '[' $most >"$room/brackets"
{ printf 'r = pass(1,'; times '[' $((most - 11)); } >"$room/brackets-of-an-order"
times 'a' $most >"$room/one-word"
{ printf 'r = '; times 'a' $((most - 6)); printf ';\n'; } >"$room/one-name"
times '#' $most >"$room/comment-signs"
times ' ' $most >"$room/spaces"
{ printf 'r = pass('; times '9' $((most - 12)); printf ');\n'; } >"$room/long-number"
{ printf 'r = pass('; times '0' $((most - 13)); printf '1);\n'; } >"$room/zeros-before-1"
python3 - "$room" <<'PY'
import sys
room = sys.argv[1]
def write(name, text):
    with open(f"{room}/{name}", "wb") as f:
        f.write(text if isinstance(text, bytes) else text.encode())
write("definitions", "".join(f"n{i:05d}=elect;\n" for i in range(60000)))
write("doubling", "a0=elect;" + "".join(f"a{i+1}=seq(a{i},a{i});" for i in range(100)))
large = "a=elect;b=seq(a,a);c=seq(b,b);d=seq(c,c);e=seq(d,d);f=seq(e,e);"
write("doubling-in-one", large + "r=" + "seq(" * 60 + "f" + ",f)" * 60 + ";")
part = "seq(f,seq(f,seq(f,f)))"
write("large-names", large + "".join(f"g{i}={part};" for i in range(30000)))
write("wide", "r = seq(" + ",".join(["elect"] * 170000) + ");")
write("late-and-early", "r=seq(last,elect);" + "".join(f"m{i}=defer;" for i in range(50000)) + "last=elect;")
write("used-at-once", "a=elect;" + "".join(f"b{i}=a;" for i in range(70000)))
write("long-order", "r = pass(1,[" + ",".join(str(i) for i in range(1, 1025)) + "]);")
write("order-of-one-number", "r = pass(1,[" + ",".join(["7"] * 500000) + "]);")
write("every-byte", bytes(range(256)) * 4096)
write("line-ends", "r = elect;\r\n".encode() + b"# more\r\n" * 100000)
write("too-long", b"#" * 1048577)

import itertools, string
behind_letter = string.ascii_letters + string.digits + "_-"
built_in = {"rev", "seq", "par", "max", "min"}
names = [n for n in map("".join, itertools.product(string.ascii_letters, behind_letter, behind_letter))
         if n not in built_in]
def balanced(part, parts):
    return part if parts == 1 else f"seq({balanced(part, parts // 2)},{balanced(part, parts - parts // 2)})"
def named(before, term):
    """These definitions, and behind them as many of a term, each under a new name, as a rule file has room for."""
    room = (1048576 - len(before)) // len(f"aaa={term};")
    return before + "".join(f"{name}={term};" for name in names[:room])
full_order = "p0=pass(1,[" + ",".join(str(i) for i in range(1, 1025)) + "]);"
write("names-of-full-orders", named(full_order + "f0=" + balanced("p0", 100) + ";", "f0"))
write("names-of-199-modules", named("f0=" + balanced("elect", 100) + ";", "rev(f0)"))
PY

printf '%-24s %9s  %-42s %8s %9s\n' file bytes answer seconds 'peak KiB'
for file in "$room"/*; do
  rc=0
  command time -f '%e %M' -o "$room.time" "$program" count "$file" "$profile" >"$room.out" 2>"$room.err" || rc=$?
  read -r seconds peak < <(tail -n 1 "$room.time")
  answer=$(cat "$room.err"; head -n 1 "$room.out")
  printf '%-24s %9s  %-42s %8s %9s\n' "$(basename "$file")" "$(stat -c %s "$file")" "$rc $answer" "$seconds" "$peak"
done
rm -f "$room.time" "$room.out" "$room.err"
