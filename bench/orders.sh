#!/usr/bin/env bash
# Measures rules that go by fixed orders, with `pass` and `drop`: the cookbook's sequential majority on one ballot and
# on 4,000 lines of 1,024 alternatives, beside the ordinary program of bench/plain; the same with an agenda of all
# 1,024, on one ballot; and a batch of 5,000 profiles of 20 ballots of 10, beside one with Copeland's rule. Prints
# three tables as in bench/RESULTS.md. It ends with status 1 where sequential majority takes more than half of the
# yardstick's instructions, the agenda of all takes 0.2 seconds, or the batch takes more than twice the instructions
# of Copeland's.
. "$(dirname "$0")/common.sh"
missed=()

for tool in valgrind /usr/bin/time python3; do
  if ! command -v "$tool" >/dev/null; then
    echo "bench: $tool isn't here" >&2
    exit 1
  fi
done

cookbook=$top/examples/rules/sequential-majority.vir

# beside_yardstick WHAT: the rows of the rule and the profile at hand, and whether it keeps to half of the yardstick
beside_yardstick() {
  local own other
  row "$1" >"$room/rows"
  cat "$room/rows"
  own=$(awk -F '|' '$3 ~ /virage/ { printf "%.0f", $6 }' "$room/rows")
  other=$(awk -F '|' '$3 ~ /plain Rust/ { printf "%.0f", $6 }' "$room/rows")
  if [ -n "$other" ] && ((own * 2 > other)); then missed+=("$1"); fi
}

# batch_instructions RULE: of a batch of the names at hand
batch_instructions() {
  valgrind --tool=callgrind --callgrind-out-file=/dev/null "$program" batch "$1" "$room/names" 2>&1 >/dev/null |
    awk '/Collected/ { print $NF }'
}

yardstick plain || echo "bench: no rustc, so there is no yardstick" >&2

head_of 'Rule and profile'
cp "$cookbook" "$room/rule"
profile 1 1024 , '\n' >"$room/profile" || exit 1
beside_yardstick 'sequential majority, 1 line of 1024'
profile 4000 1024 , '\n' >"$room/profile" || exit 1
beside_yardstick 'sequential majority, 4000 lines of 1024'

# the agenda of all alternatives, from the last to the first
agenda=$(seq -s , 1024 -1 1)
sed "s/\[3, 1, 2\]/[$agenda]/g" "$cookbook" >"$room/rule"
profile 1 1024 , '\n' >"$room/profile" || exit 1
elected=$("$program" count "$room/rule" "$room/profile" | head -n 1 | cut -c 1-100)
printf '\n| Rule and profile | Answer | Seconds | Peak memory in MB |\n|---|---|---|---|\n'
due_row 'an agenda of all, 1 line of 1024' "$elected" 200 $((64 * 1000000)) count "$room/rule" "$room/profile"

for number in {1..20}; do profile 20 10 , '\n' "$number" >"$room/small.$number.soc" || exit 1; done
for ((i = 0; i < 5000; i++)); do echo "$room/small.$((i % 20 + 1)).soc"; done >"$room/names"
printf 'r = %s;\n' "${rules[2]}" >"$room/rule"
copeland=$(batch_instructions "$room/rule")
majority=$(batch_instructions "$cookbook")
printf '\n| Batch of 5,000 profiles of 20 ballots of 10 | Instructions |\n|---|---|\n'
printf '| Copeland | %s |\n| sequential majority | %s |\n| ratio to it | %s |\n' "$copeland" "$majority" \
  "$(ratio "$majority" "$copeland")"
if ((majority > 2 * copeland)); then missed+=("batch of sequential majority"); fi
tell_missed
