#!/usr/bin/env bash
# Measures `explain` beside `count`, reading included: seconds of processor, the least of five runs of each, and the
# peak of memory. Then what a rule comes to whose loops stand in loops, and `pairs`. Prints two tables.
set -u
. "$(dirname "$0")/common.sh"
[ -x /usr/bin/time ] || { echo "bench: no GNU time" >&2; exit 1; }

# least COMMAND: seconds and kilobytes of the fastest of five runs with the rule and the profile
least() {
  local i
  for i in 1 2 3 4 5; do
    /usr/bin/time -o "$room/time" -f '%U %M' "$program" "$1" "$room/rule" "$room/profile" >"$room/said" || return 1
    cat "$room/time"
  done | sort -n | head -1
}

# beside WHAT RULE LINES ALTERNATIVES: a row
beside() {
  local counted explained
  printf 'r = %s;\n' "$2" >"$room/rule"
  profile "$3" "$4" , '\n' >"$room/profile" || exit 1
  counted=$(least count) || exit 1
  explained=$(least explain) || exit 1
  echo "| $1, $3 lines of $4 | ${counted% *} | ${explained% *} | $(ratio "${explained% *}" "${counted% *}")" \
    "| ${counted#* } | ${explained#* } | $(wc -c <"$room/said") |"
}

echo '| Rule and profile | Seconds, `count` | Seconds, `explain` | Ratio | KB, `count` | KB, `explain` | Bytes |'
echo '|---|---|---|---|---|---|---|'
beside 'instant runoff' 'seq(loop(1,min(plurality)),elect)' 1000000 10
beside "Baldwin's rule" 'seq(loop(1,min(borda)),elect)' 20000 128
beside "Baldwin's rule" 'seq(loop(1,min(borda)),elect)' 500 1024
beside "Copeland's rule" 'seq(max(copeland),elect)' 500 1024
duel='seq(pass(2),seq(rev(plurality),pass(1)))'
beside 'sequential majority' "seq(loop(1,par($duel,drop(2))),elect)" 1 1024

echo
echo '| What | Status | Seconds | KB | Bytes of text |'
echo '|---|---|---|---|---|'

# alone WHAT WORDS..: a row of one run
alone() {
  local what=$1 status
  shift
  /usr/bin/time -q -o "$room/time" -f '%U %M' "$program" "$@" >"$room/said"
  status=$?
  read -r seconds peak <"$room/time"
  echo "| $what | $status | $seconds | $peak | $(wc -c <"$room/said") |"
}

nested='loop(1,par(drop(1),loop(1,drop(1))))'
for alternatives in 128 512 1024; do
  printf 'r = %s;\n' "$nested" >"$room/rule"
  profile 1 "$alternatives" , '\n' >"$room/profile" || exit 1
  alone "\`$nested\`, $alternatives alternatives" explain "$room/rule" "$room/profile"
done
deep='loop(1,par(drop(1),loop(1,par(drop(1),loop(1,max(borda))))))'
printf 'r = %s;\n' "$deep" >"$room/rule"
alone "\`$deep\`, 1024 alternatives" explain "$room/rule" "$room/profile"
profile 500 1024 , '\n' >"$room/profile" || exit 1
alone '`pairs`, 500 lines of 1024' pairs "$room/profile"
