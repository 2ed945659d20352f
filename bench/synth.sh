#!/usr/bin/env bash
# Measures `synth`: ten wishes up to the sizes 9, 12 and 15, of the 27 modules that are composed where none are named;
# and the same sizes of 64 modules with many numbers or many fixed orders, for a wish that nothing has and for 32
# properties. Prints a table as in bench/RESULTS.md. It ends with 1 where another answer is given than is due, or where
# a search takes too much: of 27 modules 0.2 seconds of processor or 20 MB, of 64 modules 8 seconds or 100 MB.
set -u
. "$(dirname "$0")/common.sh"
need_time

# ten wishes, each with the rule that is found for it, or `none`
wishes='
ne,el none
cc,mono,el seq(max(copeland),elect)
cc,imono none
cc,dli seq(seq(max(copeland),pass(1)),elect)
dcc,dli,neut none
elim(1) par(drop(2),seq(pass(2),pass(1)))
elim(1),neut none
defers(1),neut none
cc,mono,el,defers(1) none
nb,decr,neut none
'

# alike N FORM: so many modules pass and as many drop, with a number from 1 to N for the k of a form
alike() {
  local k words=
  for ((k = 1; k <= $1; k++)); do words+=";pass(${2//k/$k});drop(${2//k/$k})"; done
  echo "$words"
}

plain='elect;defer;plurality;max(borda);max(copeland);min(plurality);min(borda);below(borda)'
numbers=$plain$(alike 28 k)
orders=$plain$(alike 28 '2,[k]')
many=ne,el$(printf ',defers(%s)' {101..130})

# wish_row NAME SIZE RULE MILLISECONDS BYTES WORDS..: the row of a search up to a size that has to find a rule or `none`
wish_row() {
  local due="found $3"
  if [ "$3" = none ]; then due="none up to $2"; fi
  due_row "$1 | $2" "$due" "$4" "$5" synth "$2" "${@:6}"
}

echo '| Wish, and modules | Size | Answer | Seconds | Peak memory in MB |'
echo '|---|---|---|---|---|'
while read -r wish rule; do
  [ -n "$wish" ] || continue
  for size in 9 12 15; do wish_row "\`$wish\`, 27" "$size" "$rule" 200 20000000 "$wish"; done
done <<<"$wishes"
for size in 9 12 15; do
  wish_row '`ne,el`, 64 with 28 numbers' "$size" none 8000 100000000 ne,el "$numbers"
  wish_row '`ne,el`, 64 with 28 fixed orders' "$size" none 8000 100000000 ne,el "$orders"
  wish_row '32 properties with 30 numbers, 64 with 28 numbers' "$size" none 8000 100000000 "$many" "$numbers"
done
tell_missed
