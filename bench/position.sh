#!/usr/bin/env bash
# Measures `position` beside `count`, reading included, on large profiles: with Borda's weights, which have to defer
# whom `max(borda)` defers, with those of 2-approval and with those of the veto. Prints a table as in bench/RESULTS.md.
# It ends with 1 where a result differs, or where `position` takes a hundredth more instructions than `count` with
# `max(borda)`, which adds up the same places; valgrind and GNU time have to be there.
set -u
. "$(dirname "$0")/common.sh"
need_time
printf 'r = max(borda);\n' >"$room/rule"

# weights_of NAME ALTERNATIVES: the list of weights of a rule
weights_of() {
  case $1 in
    Borda) seq -s , $(($2 - 1)) -1 0 ;;
    2-approval) echo 1,1,0 ;;
    veto) printf '1,%.0s' $(seq 2 "$2") && echo 0 ;;
  esac
}

# position_rows NAME ALTERNATIVES INSTRUCTIONS: the rows of a rule, and what `count` took beside it
position_rows() {
  local seconds peak instructions
  read -r seconds peak instructions < <(measure_call "$program" position "$(weights_of "$1" "$2")" max "$room/profile")
  echo "| | \`position\`, $1 | $seconds | $peak | $instructions |"
  echo "| | ratio to \`count\` | | | $(ratio "$instructions" "$3") |"
  if [ "$1" = Borda ] && ! cmp -s "$room/said" "$room/expected"; then
    echo "bench: max by Borda's weights defers others than max(borda)" >&2
    exit 1
  fi
  ((instructions <= $3 + $3 / 100)) || missed+=("position, $1, $2 alternatives")
}

# positions LINES ALTERNATIVES: the rows of one profile
positions() {
  local seconds peak instructions rule
  profile "$1" "$2" , '\n' >"$room/profile" || exit 1
  read -r seconds peak instructions < <(measure "$program")
  cp "$room/said" "$room/expected"
  echo "| $1 lines of $2 | \`count\`, max(borda) | $seconds | $peak | $instructions |"
  for rule in Borda 2-approval veto; do position_rows "$rule" "$2" "$instructions"; done
}

if ! command -v valgrind >/dev/null; then
  echo "bench: there is no valgrind, which counts instructions" >&2
  exit 1
fi
head_of Profile
positions 1000000 10
positions 4000 1024
tell_missed
