#!/usr/bin/env bash
# Measures reports on a small profile: on the rules of bench/dear_rules.py, and on those of examples/rules. Prints a
# table as in bench/RESULTS.md. It ends with 1 where a report isn't made, or takes 2 seconds of processor, or 10 ms for
# a rule of examples/rules, or 200 MB; a rule has three runs to keep to these, and the first that does is shown.
# Usage: bench/report.sh [FOLDER], where FOLDER keeps the rules.
set -u
. "$(dirname "$0")/common.sh"
export LC_ALL=C
TIMEFORMAT='%3U %3S'
most_milliseconds=2000
most_milliseconds_of_examples=10
most_bytes=200000000

if [ ! -x /usr/bin/time ]; then
  echo "bench: there is no GNU time" >&2
  exit 1
fi
kept=${1:-$room/rules}
mkdir -p "$kept" && profile 20 5 , '\n' >"$room/profile" || exit 1
python3 "$top/bench/dear_rules.py" "$kept" >"$room/list" || exit 1

# report_of FILE: makes its report, $room/said, in at most 5 seconds of processor
report_of() (
  ulimit -c 0 -t 5
  exec /usr/bin/time -o "$room/peak" -f %M "$program" report "$1" "$room/profile" >"$room/said" 2>"$room/faults"
)

# measure_report FILE: milliseconds of processor, bytes of peak memory and bytes of the report
measure_report() {
  local user system peak
  { time report_of "$1"; } 2>"$room/time" && [ -s "$room/said" ] || return 1
  read -r user system <"$room/time"
  read -r peak <"$room/peak"
  echo "$((10#${user/./} + 10#${system/./})) $((peak * 1024)) $(stat -c %s "$room/said")"
}

missed=()
# report_row FILE NAME SIZE NESTING MOST: the row of a rule that may take less than MOST milliseconds
report_row() {
  local try milliseconds peak printed row
  for try in 1 2 3; do
    row="failed | | |"
    if read -r milliseconds peak printed < <(measure_report "$1"); then
      row="$((milliseconds / 1000)).$(printf %03d $((milliseconds % 1000))) | $((peak / 1000000)) | $printed |"
      ((milliseconds >= $5 || peak >= most_bytes)) || break
    fi
    ((try < 3)) || missed+=("$2")
  done
  echo "| $2 | $3 | $4 | $row"
}

echo '| Rule | Size | Nesting | Seconds | Peak memory in MB | Bytes printed |'
echo '|---|---|---|---|---|---|'
while read -r name size nesting; do
  report_row "$kept/$name" "$name" "$size" "$nesting" "$most_milliseconds"
done <"$room/list"
for file in "$top"/examples/rules/*.vir; do
  report_row "$file" "$(basename "$file")" - - "$most_milliseconds_of_examples"
done
if [ ${#missed[@]} -gt 0 ]; then
  echo "bench: no report, or one that took too long or too much memory: ${missed[*]}" >&2
  exit 1
fi
