#!/usr/bin/env bash
# Measures the counting of large profiles with four rules, reading included: the proved program, and the ordinary Rust
# program of bench/plain, which counts a table of pairs where a rule asks for one, as virage does. Prints two tables as
# in bench/RESULTS.md: instructions and memory, and for the largest profile the seconds of five runs, the least of them.
set -u
. "$(dirname "$0")/common.sh"

yardstick plain || echo "bench: no rustc, so there is no yardstick" >&2

# rule_of I: puts the rule of this number where it is measured
rule_of() {
  printf 'r = %s;\n' "${rules[$1]}" >"$room/rule"
}

# counts LINES ALTERNATIVES: the rows of each rule on one profile
counts() {
  profile "$1" "$2" , '\n' >"$room/profile" || exit 1
  local i
  for i in "${!rules[@]}"; do
    rule_of "$i"
    row "${names[$i]}, $1 lines of $2"
  done
}

# least PROGRAM: the least seconds of processor of five runs on the profile
least() {
  local i
  for i in 1 2 3 4 5; do
    /usr/bin/time -o "$room/time" -f '%U' "$1" count "$room/rule" "$room/profile" >/dev/null || return 1
    cat "$room/time"
  done | sort -n | head -1
}

head_of 'Rule and profile'
counts 1000000 10
counts 20000 128
counts 500 1024

if [ -x /usr/bin/time ] && [ -x "$room/plain" ]; then
  echo
  echo '| Rule, 4000 lines of 1024 | Seconds, virage | Seconds, plain Rust | Ratio |'
  echo '|---|---|---|---|'
  profile 4000 1024 , '\n' >"$room/profile" || exit 1
  names+=('no module that looks at a ballot')
  rules+=('elect')
  for i in "${!rules[@]}"; do
    rule_of "$i"
    own=$(least "$program")
    other=$(least "$room/plain")
    echo "| ${names[$i]} | $own | $other | $(ratio "$own" "$other") |"
  done
fi
