#!/usr/bin/env bash
# Measures batches: 10,000 small profiles, and 200 of 1,000 ballots of 10 alternatives, beside single calls. Of each it
# prints a table with the instructions and the peak of memory of one batch; of the single calls on these profiles added
# up, less what a call takes that has nothing to do; and the seconds of the batch and of a loop over `count`. Then it
# compares one call with GNU parallel, where that is here, on 2,000 profiles of 1,000 ballots of 100 alternatives. It
# ends with status 1 where a batch takes more than 1.1 times the instructions of its single calls, its memory grows from
# 100 profiles to all of them by more than a tenth and three times the names and the text, which are held to the end, or
# 4 processors are less than 2.5 times as fast as one.
. "$(dirname "$0")/common.sh"

echo 'r = seq(max(copeland),elect);' >"$room/rule"
missed=()

# manifest COUNT FILE..: the files again and again, so many names
manifest() {
  local count=$1 i
  shift
  for ((i = 0; i < count; i++)); do echo "${@:i % $# + 1:1}"; done
}

# instructions_of WORDS..: of a call of the program, whatever its status
instructions_of() {
  valgrind --tool=callgrind --callgrind-out-file=/dev/null "$program" "$@" 2>&1 >/dev/null |
    awk '/Collected/ { print $NF }'
}

# peak_of WORDS..: kilobytes of a call
peak_of() {
  /usr/bin/time -o "$room/peak" -f %M "$program" "$@" >/dev/null && cat "$room/peak"
}

# seconds_of COMMAND..: seconds by the clock
seconds_of() {
  local TIMEFORMAT=%R
  { time "$@" >/dev/null 2>&1; } 2>&1
}

loop_over_count() {
  local name
  while IFS= read -r name; do "$program" count "$room/rule" "$name"; done <"$1"
}

# single_calls MANIFEST: the instructions of a call of `count` for each name, less what a call takes at least
single_calls() {
  local start times name sum=0
  start=$(instructions_of)
  while read -r times name; do
    sum=$((sum + times * ($(instructions_of count "$room/rule" "$name") - start)))
  done < <(sort "$1" | uniq -c)
  echo "$sum"
}

# least_peak_of WORDS..: the least peak of memory of three calls in kB, which differs by some hundred from call to call
least_peak_of() {
  for _ in 1 2 3; do peak_of "$@"; done | sort -n | head -n 1
}

# batch_row NAME COUNT FILE..: the row of a batch of so many names
batch_row() {
  local what=$1 batch singles peak few held
  shift
  manifest "$@" >"$room/names"
  head -n 100 "$room/names" >"$room/few"
  batch=$(instructions_of batch "$room/rule" "$room/names")
  singles=$(single_calls "$room/names")
  peak=$(least_peak_of batch "$room/rule" "$room/names")
  few=$(least_peak_of batch "$room/rule" "$room/few")
  echo "| $what | $batch | $singles | $(ratio "$batch" "$singles") | $few | $peak |" \
    "$(seconds_of "$program" batch "$room/rule" "$room/names") | $(seconds_of loop_over_count "$room/names") |"
  if ((batch * 10 > singles * 11)); then missed+=("$what: instructions"); fi
  held=$((($(wc -c <"$room/names") + $("$program" batch "$room/rule" "$room/names" | wc -c)) / 1024))
  if ((peak * 10 > few * 11 + held * 30)); then missed+=("$what: memory"); fi
}

# count_in_parts: the names at hand, cut, counted by 4 jobs of GNU parallel, and joined
count_in_parts() {
  rm -rf "$room/parts"
  "$top/examples/many/cut" "$room/names" 625 "$room/parts"
  "$top/examples/many/undone" "$room/parts" |
    VIRAGE=$program parallel --jobs 4 "$top/examples/many/part" "$room/rule" {}
  "$top/examples/many/join" "$room/parts" >"$room/joined"
}

parallel_row() {
  local number one four times
  for number in {1..20}; do profile 1000 100 , '\n' "$number" >"$room/wide.$number.soc" || exit 1; done
  manifest 10000 "$room"/wide.*.soc >"$room/names"
  one=$(seconds_of "$program" batch "$room/rule" "$room/names")
  four=$(seconds_of count_in_parts)
  if ! "$program" batch "$room/rule" "$room/names" | cmp -s - "$room/joined"; then missed+=("parallel: the answer"); fi
  times=$(ratio "$one" "$four")
  printf '\n| 10,000 profiles | Seconds |\n|---|---|\n| one call | %s |\n| GNU parallel, 4 jobs | %s |\n' "$one" "$four"
  printf '| times as fast | %s |\n' "$times"
  awk -v times="$times" 'BEGIN { exit times < 2.5 }' || missed+=("parallel: $times times as fast")
}

for tool in valgrind /usr/bin/time python3; do
  if ! command -v "$tool" >/dev/null; then
    echo "bench: $tool isn't here" >&2
    exit 1
  fi
done

cp "$top/examples/profiles/divided.soc" "$room/small.soc"
for number in {1..20}; do profile 1000 10 , '\n' "$number" >"$room/large.$number.soc" || exit 1; done

echo "| Profiles | Instructions | Single calls | Ratio | Peak of 100 in kB | Peak in kB | Seconds | Loop over count |"
echo "|---|---|---|---|---|---|---|---|"
batch_row "10,000 of 3 ballots" 10000 "$room/small.soc"
batch_row "200 of 1,000 ballots" 200 "$room"/large.*.soc
if command -v parallel >/dev/null; then
  parallel_row
else
  echo "bench: GNU parallel isn't here" >&2
fi
tell_missed
