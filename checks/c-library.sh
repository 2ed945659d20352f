#!/usr/bin/env bash
# Checks the library for C: proves and builds it where it isn't there, and tries it beside the program. The answers are
# the program's to the byte, on every example and for each status; buffers of every size hold the front of the texts;
# calls by the million take no more memory; little memory gives status 6 or 7 and nothing else; and the address
# sanitizer, where the compiler has it, finds nothing. It prints a line for each, and its status is 0 where all is well.
#   checks/c-library.sh [CALLS]
set -u
top=$(cd "$(dirname "$0")/.." && pwd)
calls=${1-1000000}
program=$top/crates/virage/out/virage
if ! command -v cc >/dev/null; then
  echo "C library: skipped, since there is no cc"
  exit 0
fi
if [ ! -x "$program" ]; then
  echo "C library: there is no built program to compare with"
  exit 1
fi
room=$(mktemp -d) || exit 1
trap 'rm -rf "$room"' EXIT
faults=0

wrong() {
  faults=$((faults + 1))
  echo "C library: $1"
}

if [ -z "${VIRAGE_ARCHIVE-}" ] && ! "$top/c/archive" >"$room/log" 2>&1; then
  echo "C library: it isn't proved or can't be built:"
  sed 's/^/  | /' "$room/log" | tail -n 20
  exit 1
fi
# (where the archive is the repository's own, it is built where the Python module looks for it)
built=$top/c/out
if [ -n "${VIRAGE_ARCHIVE-}" ]; then built=$room/virage; fi
if ! "$top/c/build" "$built" >"$room/log" 2>&1; then
  echo "C library: it can't be built:"
  sed 's/^/  | /' "$room/log"
  exit 1
fi
lib=$built/lib

# Compiles a test $1 with the further words.
compile() {
  local name=$1 source
  shift
  for source in "$top/c/tests/$name.c" "$top/c/tests/caller.c"; do
    cc -std=c99 -D_DEFAULT_SOURCE -Wall -Wextra -Werror -O2 -g "$@" -I "$built/include" -I "$top/c/tests" \
      -c -o "$room/$(basename "$source" .c).o" "$source" || return 1
  done
  cc "$@" -o "$room/$name" "$room/$name.o" "$room/caller.o" "$lib/libvirage.a" -lpthread
}

# Answers the words $2 .. by the test program $1 with all files that stand in the folder and are named, or that a
# manifest names.
answered() {
  local test=$1 word files=()
  shift
  for word in "$@"; do
    if [ -f "$word" ]; then files+=("$word"); fi
    case $word in
      *.txt) if [ -f "$word" ]; then mapfile -O "${#files[@]}" -t files <"$word"; fi ;;
    esac
  done
  "$room/$test" "${files[@]}" -- "$@"
}

# Compares the answer of the test program $1 with that of the program for these words.
compare() {
  local test=$1 status same
  shift
  "$program" "$@" >"$room/wanted.out" 2>"$room/wanted.err"
  status=$?
  answered "$test" "$@" >"$room/got.out" 2>"$room/got.err"
  same=$?
  if [ "$status" -ne "$same" ] || ! cmp -s "$room/wanted.out" "$room/got.out" ||
    ! cmp -s "$room/wanted.err" "$room/got.err"; then
    wrong "$test answers $same, the program $status, or they write otherwise: $*"
  fi
  compared=$((compared + 1))
}

# Compares calls of every command, and of each status that they can end with.
compare_all() {
  local test=$1 rule profile word
  compared=0
  for rule in examples/rules/*.vir; do
    for profile in examples/profiles/*.soc; do
      compare "$test" count "$rule" "$profile"
      compare "$test" report "$rule" "$profile"
      compare "$test" refute "$rule" cc "$profile"
      compare "$test" refute "$rule" mono "$profile" "$profile" 1
    done
    for word in mono cc 'defers(1)' neut monotone; do compare "$test" prove "$rule" "$word"; done
    compare "$test" listing "$rule"
    compare "$test" simplify "$rule"
    compare "$test" batch "$rule" examples/profiles/all.txt
  done
  compare "$test" check examples/certificates/copeland-mono.cert
  compare "$test" check examples/rules/borda.vir
  compare "$test" synth 3 cc,mono,el
  compare "$test" synth 4 ne,el 'elect;defer'
  compare "$test" drill 7 500 6
  compare "$test" position 2,1,0 min examples/profiles/board.soc
  compare "$test" position 0,1 min examples/profiles/board.soc
  compare "$test" count examples/profiles/board.soc examples/rules/borda.vir
  compare "$test" count examples/rules/borda.vir examples/rules/borda.vir
  compare "$test" count examples/rules/borda.vir 'no such file'
  compare "$test" count 'no such file' examples/profiles/board.soc
  compare "$test" batch examples/rules/borda.vir examples/certificates/copeland-mono.cert
  compare "$test" count
  compare "$test"
  compare "$test" "$(printf 'count\377')"
}

# Calls with buffers of every size.
try_rooms() {
  local said all=0
  local rules=examples/rules profiles=examples/profiles
  for said in "report $rules/copeland.vir $profiles/board.soc" "count $rules/borda.vir $profiles/five-ways.soc" \
    "count $rules/borda.vir none" "count $profiles/board.soc none" "prove $rules/plurality.vir cc" "count x"; do
    # (each is a list of words)
    # shellcheck disable=SC2086
    if ! answered rooms $said >"$room/log"; then wrong "buffers of some sizes don't hold the texts' fronts: $said"; fi
    all=$((all + $(sed 's/ .*//' "$room/log")))
  done
  echo "C library: $all calls with buffers of every size"
}

# Calls of the shortest kind, as often as is asked for, in two threads.
try_many() {
  local words=(count examples/rules/plurality.vir examples/profiles/divided.soc)
  "$room/many" "$calls" 2 "${words[@]:1}" -- "${words[@]}" >"$room/log" 2>&1 || wrong "of many calls:"
  echo "C library: $(cat "$room/log")"
}

# Prints a profile of 40,000 lines.
large_profile() {
  awk 'BEGIN {
    print "# NUMBER ALTERNATIVES: 10"
    for (i = 0; i < 40000; i++) {
      printf "1: "
      for (j = 0; j < 10; j++) printf "%d%s", (i + j) % 10 + 1, j < 9 ? "," : "\n"
    }
  }'
}

# A call under each of these bounds of memory, in KiB: the answer, or status 6 or 7. A bound below what the process
# itself takes ends it before the call.
try_little_memory() {
  local bound status whole=0 wanting=0 none=0
  local words=(count examples/rules/borda.vir "$room/large.soc")
  large_profile >"$room/large.soc"
  "$program" "${words[@]}" >"$room/wanted.out"
  for bound in $(seq 2500 250 12000) 16000 64000; do
    (ulimit -v "$bound" && exec "$room/answer" "${words[@]:1}" -- "${words[@]}") >"$room/got.out" 2>"$room/got.err"
    status=$?
    case $status in
      0) whole=$((whole + 1)) && cmp -s "$room/wanted.out" "$room/got.out" || wrong "another text with $bound KiB" ;;
      6 | 7) wanting=$((wanting + 1)) ;;
      99 | 127 | 13[0-9]) none=$((none + 1)) ;;
      *) wrong "status $status with $bound KiB" ;;
    esac
  done
  echo "C library: bounds of memory: $whole whole answers, $wanting out of memory, $none below what a process takes"
  if [ "$whole" -eq 0 ] || [ "$wanting" -eq 0 ]; then wrong "the bounds show nothing"; fi
}

# Prints the fields of the record $1 of vir_c, one a line.
exported() {
  sed -n "/^pub struct $1 {/,/^}/s/^    pub \\([a-z_]*\\): usize,\$/\\1/p" "$top/crates/vir_c/src/sizes.rt"
}

# The header beside the export: types, layout and parameters by the compiler, names by the sources, and the version.
try_header() {
  local said version
  version=$(<"$top/VERSION")
  said=$(cc -std=c11 -Wall -Wextra -Werror -fsyntax-only -I "$built/include" "$top/c/tests/layout.c" 2>&1) ||
    wrong "the header isn't that of the call: $said"
  if [ "$(exported FileSizes | xargs)" != "name content" ] || [ "$(exported Told | xargs)" != "out err" ]; then
    wrong "the records of vir_c have other fields than the header's"
  fi
  said=$(sed -n '/^pub extern "C" fn virage_call(/,/^)/s/^    \([a-z_]*\): &.*/\1/p' "$top/crates/vir_c/src/export.rt" |
    xargs)
  if [ "$said" != "word_sizes words file_sizes files out err told" ]; then
    wrong "the call of vir_c has other parameters than the header's: $said"
  fi
  said=$(printf '#include "virage.h"\nVIRAGE_VERSION VIRAGE_VERSION_MAJOR.VIRAGE_VERSION_MINOR.VIRAGE_VERSION_PATCH\n' |
    cc -E -P -I "$built/include" - | tail -n 1 | tr -d ' ')
  if [ "$said" != "\"$version\"$version" ]; then wrong "the header has another version than $version: $said"; fi
}

# The shared library, as pkg-config finds it, where that is here.
try_shared() {
  local words
  words=$(PKG_CONFIG_PATH=$lib/pkgconfig pkg-config --cflags --libs virage 2>/dev/null) ||
    words="-I$built/include -L$lib -lvirage"
  # shellcheck disable=SC2086
  if ! cc -std=c99 -Wall -Wextra -Werror -O2 -o "$room/count" "$top/c/count.c" $words; then
    wrong "the example in C can't be compiled"
  elif ! LD_LIBRARY_PATH=$lib "$room/count" examples/rules/borda.vir examples/profiles/five-ways.soc |
    cmp -s - examples/expected/borda.five-ways; then
    wrong "the example in C counts otherwise"
  fi
  if [ "$(nm -D --defined-only "$lib/libvirage.so" | sed 's/.* //')" != virage_call ]; then
    wrong "the library has other names than virage_call"
  fi
  if command -v c++ >/dev/null && ! c++ -Wall -Werror -fsyntax-only -x c++ "$top/c/virage.h"; then
    wrong "the header isn't one of C++"
  fi
}

try_sanitized() {
  echo 'int main(void) { return 0; }' >"$room/none.c"
  if ! cc -fsanitize=address,undefined -o "$room/none" "$room/none.c" 2>/dev/null || ! "$room/none"; then
    echo "C library: no address sanitizer, since cc has none that runs"
    return
  fi
  compile answer -fsanitize=address,undefined || wrong "a test can't be compiled with the sanitizer"
  compile rooms -fsanitize=address,undefined || wrong "a test can't be compiled with the sanitizer"
  compare_all answer
  try_rooms >/dev/null
  echo "C library: the address sanitizer watched $compared answers, and buffers of every size"
}

cd "$top" || exit 1
for test in answer rooms many; do compile "$test" || wrong "the test $test can't be compiled"; done
compare_all answer
echo "C library: $compared answers compared with the program's"
try_rooms
try_little_memory
try_many
try_header
try_shared
try_sanitized
echo "C library: $faults faults"
[ "$faults" -eq 0 ]
