#!/usr/bin/env bash
# Checks the scripts of examples/many: a manifest that is cut, counted part by part and joined gives to the byte what
# one call prints, also where a part failed first, and by GNU parallel where that is here. Torn and hostile answers are
# told to be none. Calls are killed at moments by chance, so many times as the first word says, of which the second is
# the seed: what is joined then is whole, or the parts that lack an answer are named. It prints what is wrong, and a
# line at the end; its status is 0 where nothing is.
#   checks/many.sh [ROUNDS [SEED]]
set -u
rounds=${1-12}
RANDOM=${2-7}
top=$(cd "$(dirname "$0")/.." && pwd)
many=$top/examples/many
rule=$top/examples/rules/copeland.vir
virage=${VIRAGE:-$top/virage}
room=$(mktemp -d) || exit 1
trap 'rm -rf "$room"' EXIT
cd "$room" || exit 1
faults=0

wrong() {
  faults=$((faults + 1))
  echo "many: $1"
}

# Writes the manifest `names`: 50 profiles, of which every tenth is refused, with an empty line and a carriage return,
# and without a line feed at its end.
write_manifest() {
  local i
  mkdir profiles
  for i in {1..50}; do
    printf '# NUMBER ALTERNATIVES: 3\n%d: 1,2,3\n5: 3,2,1\n' "$i" >"profiles/votes $i.soc"
    if ((i % 10 == 0)); then echo '1: 2,1' >>"profiles/votes $i.soc"; fi
  done
  {
    printf '\nprofiles/votes 1.soc\r\n'
    printf 'profiles/votes %d.soc\n' {2..49}
    printf 'profiles/votes 50.soc'
  } >names
}

check_joined() {
  if ! "$many/join" "$1" 2>&1 | cmp -s - whole; then wrong "the joined answer of $1 isn't that of one call"; fi
}

# Counts the undone parts one after another.
count_parts() {
  "$many/undone" "$1" | while IFS= read -r part; do "$many/part" "$rule" "$part" 2>>said || true; done
}

check_parts() {
  if [ "$("$many/cut" names 7 parts)" != "8 parts" ]; then wrong "51 lines aren't cut to 8 parts of 7"; fi
  mv profiles/votes\ 33.soc missing
  count_parts parts
  if "$many/join" parts >joined 2>complaint || [ -s joined ]; then wrong "an answer is joined that lacks a part"; fi
  if [ "$(cat complaint)" != "parts/part.00004 has no answer" ]; then wrong "the part without an answer isn't named"; fi
  if ! grep -qx 'parts/part.00004: status 5' said; then wrong "the status of that part isn't told"; fi
  mv missing profiles/votes\ 33.soc
  if [ "$("$many/undone" parts)" != parts/part.00004 ]; then wrong "not that part alone is undone"; fi
  count_parts parts
  check_joined parts
}

# The array job as Slurm runs it, task by task, without Slurm.
check_array() {
  local task
  "$many/cut" names 20 array >/dev/null
  for task in 0 1 2; do
    SLURM_ARRAY_TASK_ID=$task "$many/array.sbatch" array "$many/part" "$rule" || wrong "task $task of the array fails"
  done
  check_joined array
}

check_parallel() {
  "$many/cut" names 9 parallel >/dev/null
  "$many/undone" parallel | parallel --quote --jobs 2 "$many/part" "$rule" {} || wrong "GNU parallel fails"
  check_joined parallel
}

# What can't be cut is refused, and leaves no folder behind.
check_refused_cuts() {
  local call
  for call in "names 0" "names 10001" "names abc" "missing 5"; do
    # shellcheck disable=SC2086
    if "$many/cut" $call left >/dev/null 2>&1 || [ -e left ]; then wrong "'cut $call left' isn't refused"; fi
  done
  mkdir there
  if "$many/cut" names 5 there >/dev/null 2>&1 || [ ! -d there ]; then wrong "a folder that is there is cut into"; fi
}

# Parts have no more bytes than a manifest may have.
check_long_names() {
  seq -f "%0131.0f" 10000 >long
  "$many/cut" long 10000 long-parts >/dev/null
  if find long-parts -size +1048576c | grep -q .; then wrong "a part is longer than a manifest may be"; fi
  if ! cat long-parts/part.????? | cmp -s - long; then wrong "long names are lost"; fi
}

# The table of two rules has a row for each and each name, and says who is elected as the answers do.
check_table() {
  local first=$rule second=$top/examples/rules/plurality.vir
  VIRAGE=$virage "$many/table" names "$first" "$second" >table 2>complaint || wrong "no table is made"
  if [ "$(wc -l <table)" -ne 101 ]; then wrong "the table doesn't have 100 rows below its head"; fi
  if [ "$(grep -c '"profiles/votes [0-9]*0.soc",,,,,Short at line 4$' table)" -ne 10 ]; then
    wrong "the table doesn't have the refused profiles"
  fi
  sed -n '2,51{s/^"[^"]*","[^"]*",//;p}' table | awk -F, '$1 != "" { print $1 "," $2 }' >listed
  sed -n 's/.* voters \([0-9]*\) elected: \([0-9 ]*\) rejected.*/\1,\2/p' whole >told
  if ! cmp -s listed told; then wrong "the table and the answer differ"; fi
}

# An answer that isn't whole, or that is another's, is none, whatever stands in it; and nothing in it is run.
check_torn() {
  local torn number=0
  "$many/cut" names 20 torn >/dev/null
  count_parts torn
  cp torn/part.00001.answer right
  for torn in '' 'profiles' 'profiles $(touch ran) refused 0' 'profiles profiles[$(touch ran)] refused 1' \
    'profiles 20 refused 2 ' 'profiles 20 refused $((21))' 'profiles -20 refused 2' 'profiles 19 refused 2' \
    'profiles 020 refused 2x' 'refused[$(touch ran)] 20 1'; do
    number=$((number + 1))
    { head -n -1 right && printf '%s\n' "$torn"; } >torn/part.00001.answer
    check_lacking torn "a last line of '$torn'"
  done
  : >torn/part.00001.answer && check_lacking torn "an empty answer"
  tail -n 1 right >torn/part.00001.answer && check_lacking torn "a last line alone"
  head -n -1 right >torn/part.00001.answer && check_lacking torn "an answer without its last line"
  head -c -1 right >torn/part.00001.answer && check_lacking torn "an answer without its last byte"
  head -n 3 right >torn/part.00001.answer && check_lacking torn "the front of an answer"
  cat right right >torn/part.00001.answer && check_lacking torn "an answer that stands there twice"
  if [ -e ran ]; then wrong "what stands in an answer is run"; fi
  cp right torn/part.00001.answer
  check_joined torn
}

# check_lacking FOLDER WHAT: the second part alone is undone, and is named.
check_lacking() {
  if "$many/join" "$1" >joined 2>complaint || [ -s joined ] ||
    [ "$(cat complaint)" != "$1/part.00001 has no whole answer" ] ||
    [ "$("$many/undone" "$1")" != "$1/part.00001" ]; then
    wrong "$2 is taken for an answer"
  fi
}

# A folder may have any name.
check_odd_names() {
  local folder
  # shellcheck disable=SC1003
  for folder in 'x\ty' 'two words' "it's" 'a"b' '$(touch ran)' 'end/'; do
    "$many/cut" names 30 "$folder" >/dev/null || wrong "'$folder' can't be cut into"
    count_parts "${folder%/}"
    check_joined "${folder%/}"
  done
  if [ -e ran ]; then wrong "the name of a folder is run"; fi
}

# Waits until the file $1 is there.
await() {
  local left=1500
  until [ -e "$1" ] || [ $((left--)) -eq 0 ]; do sleep 0.02; done
}

# A second call on a part begins while the first has written half of its answer; the first then ends, and publishes it.
check_doubled() {
  local first second
  cat >slow <<'END'
#!/usr/bin/env bash
# Answers as "$REAL" does: the first line once the file $TURN.front is there, and the others once $TURN.rest is.
"$REAL" "$@" >"$TURN.said"
: >"$TURN.begun"
until [ -e "$TURN.front" ]; do sleep 0.02; done
head -n 1 "$TURN.said"
: >"$TURN.half"
until [ -e "$TURN.rest" ]; do sleep 0.02; done
tail -n +2 "$TURN.said"
END
  chmod +x slow
  "$many/cut" names 60 doubled >/dev/null
  : >one.front
  REAL=$virage TURN=one VIRAGE=./slow "$many/part" "$rule" doubled/part.00000 &
  first=$!
  await one.half
  REAL=$virage TURN=two VIRAGE=./slow "$many/part" "$rule" doubled/part.00000 &
  second=$!
  await two.begun
  : >one.rest
  wait "$first" || wrong "the first of two calls on a part fails"
  check_joined doubled
  : >two.front
  await two.half
  check_joined doubled
  : >two.rest
  wait "$second" || wrong "the second of two calls on a part fails"
  check_joined doubled
}

# Ends the process $1, or its group, by this signal after so many milliseconds.
kill_after() {
  sleep "$(printf '0.%03d' "$3")"
  kill "-$2" -- "$1" 2>/dev/null
}

# Cuts the manifest while that is killed: the folder isn't there, or is whole.
cut_while_killed() {
  local cut
  setsid "$many/cut" names 13 killed >/dev/null 2>&1 &
  cut=$!
  kill_after "-$cut" "$1" "$((RANDOM % 12))"
  wait "$cut" 2>/dev/null
  if [ ! -e killed ]; then
    "$many/cut" names 13 killed >/dev/null || wrong "it can't be cut after a call that was killed"
  elif ! cat killed/part.????? | cmp -s - <(cat names && echo); then
    wrong "a cut that was killed leaves parts that aren't the manifest"
  fi
}

# Two calls on each part at once, of which one or both are killed; some with all that they have begun, some alone.
count_while_killed() {
  local part first second signals=(KILL TERM INT HUP)
  for part in killed/part.?????; do
    setsid "$many/part" "$rule" "$part" 2>/dev/null &
    first=$!
    setsid "$many/part" "$rule" "$part" 2>/dev/null &
    second=$!
    kill_after "$([ $((RANDOM % 3)) -eq 0 ] || echo -)$first" "${signals[RANDOM % 4]}" "$((RANDOM % $1))"
    if [ $((RANDOM % 2)) -eq 0 ]; then kill_after "-$second" "${signals[RANDOM % 4]}" "$((RANDOM % 8))"; fi
    # (or the next part is begun beside what isn't killed)
    if [ $((RANDOM % 2)) -eq 0 ]; then wait "$first" "$second" 2>/dev/null; fi
  done
}

# What is joined is whole, or parts without an answer are named. (Calls may still run, so that a part that lacks its
# answer has it when it is named.)
check_after_killed() {
  if "$many/join" killed >joined 2>complaint; then
    whole_at_once=$((whole_at_once + 1))
    cmp -s joined whole || wrong "the joined answer isn't whole after calls that were killed"
  elif [ -s joined ] || ! grep -q . complaint ||
    grep -qv '^killed/part\.[0-9]\{5\} has no \(whole \)\{0,1\}answer$' complaint; then
    wrong "after calls that were killed it says: $(tr '\n' ' ' <complaint)"
  fi
}

# Once no call runs any more, an answer that is there is whole.
check_none_torn() {
  local part
  while IFS= read -r part; do
    if [ -e "$part.answer" ]; then wrong "a call that was killed left a torn answer"; fi
  done < <("$many/undone" killed)
}

# Calls that are killed, of the build itself, so that most of their time is the work and not the script.
check_killed() {
  local round longest=$1 whole_at_once=0 build
  build=$("$virage" --version 2>/dev/null | sed -n 's/^build: [a-z]*, //p')
  for ((round = 0; round < rounds; round++)); do
    rm -rf killed killed.*
    VIRAGE=${build:-$virage}
    export VIRAGE
    cut_while_killed KILL
    rm -rf killed
    cut_while_killed TERM
    count_while_killed "$longest"
    check_after_killed
    wait
    check_none_torn
    count_parts killed
    check_joined killed
    unset VIRAGE
  done 2>/dev/null
  echo "many: calls killed in $rounds rounds, of which $whole_at_once had the whole answer at once"
}

check_empty() {
  "$many/cut" /dev/null 5 empty >/dev/null
  count_parts empty
  if [ "$("$many/join" empty)" != "profiles 0 refused 0" ]; then wrong "an empty manifest isn't counted"; fi
}

"$virage" batch "$rule" /dev/null >said 2>&1
if [ $? -eq 2 ]; then
  echo "many: skipped, since the program has no batch"
  exit 0
fi
write_manifest
"$virage" batch "$rule" names >whole || wrong "one call on all profiles fails"
check_parts
check_array
check_empty
check_refused_cuts
check_long_names
check_table
check_torn
check_odd_names
check_doubled
check_killed 60
skipped=
if command -v parallel >/dev/null && parallel --version 2>/dev/null | grep -q '^GNU parallel'; then
  check_parallel
else
  skipped="; GNU parallel isn't here"
fi
echo "many: $(wc -l <whole) lines, $faults faults$skipped"
[ "$faults" -eq 0 ]
