# What the measuring scripts share: profiles, the yardstick of bench/plain, and rows that compare. It is sourced, makes
# a folder of its own, $room, which it removes, and stops where there is no proved build, unless VIRAGE is the file of
# another program to measure. What isn't here is left out: rustc makes the yardsticks, valgrind counts instructions, and
# GNU time tells seconds of processor and the peak of memory.
set -u
top=$(cd "$(dirname "${BASH_SOURCE[0]}")/.." && pwd)
program=${VIRAGE:-$top/crates/virage/out/virage}
room=$(mktemp -d) || exit 1
trap 'rm -rf "$room"' EXIT

# profile LINES ALTERNATIVES BETWEEN END [SEED]: shuffled orders with weights from 1 to 9, with BETWEEN members and END
# of line
profile() {
  python3 - "$@" <<'PY'
import random, sys
lines, alternatives = int(sys.argv[1]), int(sys.argv[2])
between, end = (word.encode().decode("unicode_escape") for word in sys.argv[3:5])
source = random.Random(int(sys.argv[5]) if len(sys.argv) > 5 else 1)
order = [str(x) for x in range(1, alternatives + 1)]
sys.stdout.reconfigure(newline="")
sys.stdout.write(f"# NUMBER ALTERNATIVES: {alternatives}{end}")
for _ in range(lines):
    source.shuffle(order)
    sys.stdout.write(f"{source.randrange(1, 10)}: {between.join(order)}{end}")
PY
}

# yardstick NAME FLAGS..: builds it, where rustc is here
yardstick() {
  local name=$1
  shift
  command -v rustc >/dev/null && rustc -O --edition 2021 "$@" "$top/bench/plain/main.rs" -o "$room/$name"
}

# measure_call PROGRAM WORDS..: seconds, kilobytes and instructions of a call; its output goes to $room/said. Callgrind
# counts an instruction that fills memory (`rep stos`) once for each byte that it fills, though the processor takes many
# at a time: so whoever fills memory stands worse in instructions than in seconds.
measure_call() {
  local seconds=- peak=- instructions=-
  if [ -x /usr/bin/time ]; then
    /usr/bin/time -o "$room/time" -f '%U %M' "$@" >"$room/said" || return 1
    read -r seconds peak <"$room/time"
  else
    "$@" >"$room/said" || return 1
  fi
  if command -v valgrind >/dev/null; then
    instructions=$(valgrind --tool=callgrind --callgrind-out-file=/dev/null "$@" 2>&1 >/dev/null |
      awk '/Collected/ { print $NF }')
  fi
  echo "$seconds $peak $instructions"
}

# measure PROGRAM: the same of counting the profile with the rule
measure() {
  measure_call "$1" count "$room/rule" "$room/profile"
}

# ratio A B: their quotient with two digits
ratio() {
  awk -v a="$1" -v b="$2" 'BEGIN { if (a > 0 && b > 0) printf "%.2f", a / b; else printf "-" }'
}

# compare YARDSTICK NAME: its row, and that of the ratios
compare() {
  local seconds_y peak_y instructions_y
  read -r seconds_y peak_y instructions_y < <(measure "$room/$1")
  if ! cmp -s "$room/said" "$room/expected"; then
    echo "bench: $2 prints something else" >&2
    exit 1
  fi
  echo "| | $2 | $seconds_y | $peak_y | $instructions_y |"
  echo "| | ratio to it | | $(ratio "$peak" "$peak_y") | $(ratio "$instructions" "$instructions_y") |"
}

# shape NAME LINES ALTERNATIVES BETWEEN END: the rows of one profile
shape() {
  local name=$1
  shift
  profile "$@" >"$room/profile" || exit 1
  row "$name ($(($(stat -c %s "$room/profile") / 1000)) kB)"
}

# row NAME: the rows of the profile and the rule at hand
row() {
  local seconds peak instructions
  read -r seconds peak instructions < <(measure "$program")
  cp "$room/said" "$room/expected"
  echo "| $1 | virage | $seconds | $peak | $instructions |"
  local yardstick
  for yardstick in plain plain_pairs; do
    [ ! -x "$room/$yardstick" ] || compare "$yardstick" "${yardstick_names[$yardstick]}"
  done
}

if [ -z "${VIRAGE:-}" ] && { [ ! -x "$program" ] || ! "$top/virage" --version | grep -q "^build: proved, "; }; then
  echo "bench: there is no proved build of the sources as they are: run 'rt ci' first" >&2
  exit 1
fi

declare -A yardstick_names=([plain]='plain Rust' [plain_pairs]='with its table of pairs')

# head WHAT: the head of a table
head_of() {
  echo "| $1 | | Seconds | Peak memory in kB | Instructions |"
  echo "|---|---|---|---|---|"
}

# the rules that are counted, each with its name
names=('instant runoff' Borda Copeland Baldwin)
rules=('seq(loop(1,min(plurality)),elect)' 'seq(max(borda),elect)' 'seq(max(copeland),elect)'
  'seq(loop(1,min(borda)),elect)')

# ---- calls that have to answer something within bars

# call WORDS..: a call of the program in at most 30 seconds of processor; both its streams go to $room/said
call() (
  ulimit -c 0 -t 30
  exec /usr/bin/time -o "$room/peak" -f %M "$program" "$@" >"$room/said" 2>&1
)

# cost_of WORDS..: milliseconds of processor and bytes of peak memory of such a call
cost_of() {
  local user system LC_ALL=C TIMEFORMAT='%3U %3S'
  { time call "$@"; } 2>"$room/time"
  read -r user system <"$room/time"
  echo "$((10#${user/./} + 10#${system/./})) $(($(tail -n 1 "$room/peak") * 1024))"
}

# due_row CELLS ANSWER MILLISECONDS BYTES WORDS..: the row of a call whose first line has to be ANSWER, and which may
# take less than these. It has three runs to keep to them, and the first that does is shown; `missed` keeps those that
# don't.
missed=()
due_row() {
  local cells=$1 due=$2 most_milliseconds=$3 most_bytes=$4 try milliseconds peak answer
  shift 4
  for try in 1 2 3; do
    read -r milliseconds peak < <(cost_of "$@")
    answer=$(head -n 1 "$room/said" | cut -c 1-100)
    if [ "$answer" = "$due" ] && ((milliseconds < most_milliseconds && peak < most_bytes)); then break; fi
    ((try < 3)) || missed+=("$cells")
  done
  printf '| %s | `%s` | %d.%03d | %d |\n' "$cells" "$answer" $((milliseconds / 1000)) $((milliseconds % 1000)) \
    $((peak / 1000000))
}

# tell_missed: names what missed its bars, if anything, and is false then
tell_missed() {
  if [ ${#missed[@]} -eq 0 ]; then return 0; fi
  {
    echo "bench: these answered something else, or missed their bars:"
    printf '  %s\n' "${missed[@]}"
  } >&2
  return 1
}

# need_time: stops where there is no GNU time
need_time() {
  if [ ! -x /usr/bin/time ]; then
    echo "bench: there is no GNU time" >&2
    exit 1
  fi
}
