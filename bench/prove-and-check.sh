#!/usr/bin/env bash
# Has the program check what it proves: of each rule of the cookbook and of COUNT generated ones, each property that a
# report tells of is proved, and each certificate that is printed is checked. Prints how many were proved, and
# accepted, and how many denied. It ends with 1 where a certificate isn't accepted, or another answer comes than those
# two; each is named.
# Usage: bench/prove-and-check.sh [COUNT [SEED [JOBS]]], which are 2000, 1 and 4 where they aren't said.
set -u
. "$(dirname "$0")/common.sh"
count=${1:-2000} seed=${2:-1} jobs=${3:-4}
props=(ne ea el 'defers(1)' 'rejects(1)' 'elim(1)' nb decr dli imono dimono dmono mono cc dcc cprog ccomp neut)

# accepts FILE: whether a certificate is accepted
accepts() {
  local verdict=
  "$program" check "$1" >"$1.verdict" 2>&1 && read -r verdict <"$1.verdict"
  [ "$verdict" = accepted ]
}

# try PROVED FILE PROP: what comes of one property of a rule, in a word: `denied`, the version of a certificate that is
# accepted, or `wrong`. PROVED is where the answers may stand.
try() {
  local status head
  "$program" prove "$2" "$3" >"$1" 2>&1
  status=$?
  read -r head <"$1"
  if [ "$status" -eq 1 ] && [ "$head" = "underived $3" ]; then
    echo denied
  elif [ "$status" -eq 0 ] && [[ $head == 'virage-certificate '[12] ]] && accepts "$1"; then
    echo "$head"
  else
    echo "wrong: $3 of $2"
  fi
}

# share JOB: the rules of one job of several, each with all properties
share() {
  local i prop
  for ((i = $1; i < ${#rules[@]}; i += jobs)); do
    for prop in "${props[@]}"; do try "$room/proved.$1" "${rules[i]}" "$prop"; done
  done
}

mkdir "$room/rules" && python3 "$top/bench/generated_rules.py" "$room/rules" "$count" "$seed" || exit 1
rules=("$top"/examples/rules/*.vir "$room"/rules/*.vir)
for ((job = 0; job < jobs; job++)); do share "$job" >"$room/told.$job" & done
wait
cat "$room"/told.* >"$room/told"

# lines_of TEXT: how many answers begin with it
lines_of() { grep -c "^$1" "$room/told"; }

echo "| Rules | Properties asked for | Accepted, version 1 | Accepted, version 2 | Denied | Wrong |"
echo "|---|---|---|---|---|---|"
printf '|'
printf ' %s |' "${#rules[@]}" "$(wc -l <"$room/told")" "$(lines_of 'virage-certificate 1')" \
  "$(lines_of 'virage-certificate 2')" "$(lines_of denied)" "$(lines_of wrong)"
echo
if [ "$(wc -l <"$room/told")" -ne $((${#rules[@]} * ${#props[@]})) ]; then
  echo "bench: a job ended before its time" >&2
  exit 1
fi
grep '^wrong' "$room/told" | head -n 20 >&2
[ "$(lines_of wrong)" -eq 0 ]
