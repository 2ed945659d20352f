#!/usr/bin/env bash
# Measures `check` on long and on hostile certificates: those of bench/certificates.py, and the one that `prove` prints
# with the longest first derivation that is known. Prints a table as in bench/RESULTS.md. It ends with 1 where another
# answer is given than is due, or where a check takes too much: of a valid certificate, and of 15 MB of derivation, 1
# second of processor or 300 MB; of any other 2 seconds or 600 MB.
# Usage: bench/check.sh [FOLDER], where FOLDER keeps the certificates.
set -u
. "$(dirname "$0")/common.sh"
need_time
kept=${1:-$room/certificates}
mkdir -p "$kept" "$room/rules" || exit 1

# longest: writes the certificate of the longest known first derivation beside the others, and lists it
longest() {
  python3 "$top/bench/dear_rules.py" "$room/rules" >/dev/null || return 1
  "$program" prove "$room/rules/longest-derivation" dimono >"$kept/longest-derivation" || return 1
  echo "longest-derivation $(stat -c %s "$kept/longest-derivation") - accepted"
}

# check_row NAME BYTES NESTING ANSWER: the row of a certificate
check_row() {
  local milliseconds=2000 bytes=600000000 due=$4
  case $1 in valid | longest-derivation | balanced-*) milliseconds=1000 bytes=300000000 ;; esac
  case $due in accepted | refused*) ;; *) due="text refused: $due" ;; esac
  due_row "$1 | $2 | $3" "$due" "$milliseconds" "$bytes" check "$kept/$1"
}

python3 "$top/bench/certificates.py" "$kept" >"$room/list" && longest >>"$room/list" || exit 1
echo '| Certificate | Bytes | Nesting | Answer | Seconds | Peak memory in MB |'
echo '|---|---|---|---|---|---|'
while read -r name bytes nesting answer; do
  check_row "$name" "$bytes" "$nesting" "$answer"
done <"$room/list"
tell_missed
