#!/usr/bin/env bash
# Measures how the instructions of counting, reading included, grow with the lines and with the alternatives of a
# profile, for four rules, by the proved program. Prints a table as in bench/RESULTS.md; valgrind has to be there.
set -u
. "$(dirname "$0")/common.sh"

echo '| Profile | Instant runoff | Borda | Copeland | Baldwin |'
echo '|---|---|---|---|---|'
for size in '50000 10' '100000 10' '200000 10' '2000 16' '2000 32' '2000 64' '2000 128'; do
  read -r lines alternatives <<<"$size"
  profile "$lines" "$alternatives" , '\n' >"$room/profile" || exit 1
  printf '| %s lines of %s |' "$lines" "$alternatives"
  for rule in "${rules[@]}"; do
    printf 'r = %s;\n' "$rule" >"$room/rule"
    read -r _ _ instructions < <(measure "$program")
    printf ' %s |' "$instructions"
  done
  echo
done
