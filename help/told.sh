# What is said behind the program's own line on standard error: which word is wrong, and which file can't be read.
# guide.sh reads this file, and places.sh, which has what is said of a fault in a file. Each line begins with
# `virage: `.

readonly MODULES=(elect defer plurality pass drop max min below upto) COMPOSITIONS=(rev seq par loop until)
readonly SCORES=(plurality borda copeland minimax condorcet)

# ---- usage faults

# Prints the words of a table's rows for the field $1, a line each.
column() {
  sed -n "s/^$1: //p" "$2"
}

# Prints which line of standard input is nearest to the word $1, where one is near enough to be meant.
nearest() {
  awk -v word="$1" '
    function least(a, b) { return a < b ? a : b }
    function distance(a, b,   i, j, row, before, at, same) {
      for (j = 0; j <= length(b); j++) row[j] = j
      for (i = 1; i <= length(a); i++) {
        before = row[0]; row[0] = i
        for (j = 1; j <= length(b); j++) {
          at = row[j]
          same = substr(a, i, 1) == substr(b, j, 1)
          row[j] = least(least(row[j], row[j - 1]) + 1, before + (same ? 0 : 1))
          before = at
        }
      }
      return row[length(b)]
    }
    word != "" && length(word) <= 40 {
      if ($0 == word) away = 0
      else if (index($0, word) == 1 || (length($0) > 3 && index(word, $0) == 1)) away = 1
      else away = distance(word, $0)
      if (best == "" || away < fewest) { best = $0; fewest = away }
    }
    END { if (best != "" && fewest <= (length(word) < 4 ? 1 : 2)) print best }'
}

# Whether the word $1 is one of the further words.
is_one_of() {
  local word=$1 other
  shift
  for other; do [ "$word" != "$other" ] || return 0; done
  return 1
}

# Whether the word is a number without zeros in front, from $2 to $3.
is_number() {
  [[ $1 =~ ^(0|[1-9][0-9]{0,18})$ ]] && [ "$1" -ge "$2" ] && [ "$1" -le "$3" ]
}

# The same, where zeros may come first.
is_padded_number() {
  [[ $1 =~ ^0*([0-9]+)$ ]] && is_number "${BASH_REMATCH[1]}" "$2" "$3"
}

# Prints what is wrong with a property, or nothing.
wrong_property() {
  local near
  if [[ $1 =~ ^(defers|rejects|elim)\((.*)\)$ ]]; then
    is_number "${BASH_REMATCH[2]}" 1 1000000 ||
      echo "the number of $1 isn't one from 1 to 1000000 without zeros in front"
  elif ! sed -n 's/^\([^#:(]*\): .*/\1/p' "$tables/properties" | grep -qxF -- "$1"; then
    case ${1,,} in
      *condorcet*) near=cc ;;
      *) near=$(sed -n 's/^\([^#:]*\): .*/\1/p' "$tables/properties" | nearest "${1//[[:blank:]]/}") ;;
    esac
    echo "'$1' is no property${near:+ (is $near meant?)}; '$called help properties' has them"
  fi
}

# Prints what is wrong with a list, the word $2 cut at the sign $1: more than $3 parts, or a part that $4 finds wrong.
wrong_list() {
  local part said
  local -a parts
  mapfile -t -d "$1" parts < <(printf '%s%s' "$2" "$1")
  if [ ${#parts[@]} -gt "$3" ]; then
    echo "it has ${#parts[@]} parts, and at most $3 are read"
    return
  fi
  for part in "${parts[@]}"; do
    said=$("$4" "$part")
    if [ -n "$said" ]; then
      case $part in
        *' '*) if [ -z "$("$4" "${part// /}")" ]; then said="a list has no blanks: ${2// /}"; fi ;;
      esac
      echo "$said"
      return
    fi
  done
}

wrong_module() {
  local score near
  score="($(IFS='|' && echo "${SCORES[*]}"))"
  case $1 in elect | defer | plurality) return ;; esac
  if [[ $1 =~ ^(max|min|below|upto)\($score\)$ ]]; then return; fi
  if [[ $1 =~ ^(pass|drop)\(([0-9]+)(,\[[1-9][0-9]*(,[1-9][0-9]*)*\])?\)$ ]]; then
    is_number "${BASH_REMATCH[2]}" 1 1000000 && return
  fi
  if [ -z "$(wrong_property "$1")" ]; then
    echo "'$1' is a property, and properties are joined by commas, as el,mono"
    return
  fi
  near=$(sed -n '/^word: LEAVES/,/^between/p' "$tables/words" | grep -o '[a-z]*([a-z0-9]*)\|[a-z]*' |
    nearest "${1// /}")
  echo "'$1' is no module as it is printed${near:+ (is $near meant?)}"
}

wrong_weight() {
  is_number "$1" 0 1000000 || echo "'$1' is no number from 0 to 1000000 without zeros in front"
}

# Prints what is wrong with a list of weights.
wrong_weights() {
  local said weight before=
  said=$(wrong_list , "$1" 1024 wrong_weight)
  if [ -n "$said" ]; then
    echo "$said"
    return
  fi
  for weight in ${1//,/ }; do
    if [ -n "$before" ] && [ "$weight" -gt "$before" ]; then
      echo "$weight stands behind $before, and weights never rise"
      return
    fi
    before=$weight
  done
}

# Prints what is wrong with $2, which stands for the word $1 of a command, or nothing.
wrong_word() {
  local name=$1 word=$2 near
  case $name in
    PROP) wrong_property "$word" ;;
    PROPS) wrong_list , "$word" 32 wrong_property ;;
    LEAVES) wrong_list ';' "$word" 64 wrong_module ;;
    WEIGHTS) wrong_weights "$word" ;;
    SIZE) is_padded_number "$word" 1 15 || echo "'$word' is no size from 1 to 15" ;;
    ALT) is_padded_number "$word" 1 1024 || echo "'$word' is no alternative from 1 to 1024" ;;
    LINES) is_padded_number "$word" 1 100000 || echo "'$word' is no number of lines from 1 to 100000" ;;
    ALTERNATIVES) is_padded_number "$word" 1 128 || echo "'$word' is no number of alternatives from 1 to 128" ;;
    SEED) [[ $word =~ ^[0-9]+$ ]] || echo "'$word' is no number" ;;
    KIND)
      case $word in
        max | min | below | upto) ;;
        *)
          near=$(printf '%s\n' max min below upto | nearest "$word")
          echo "'$word' is no eliminator${near:+ (is $near meant?)}; max, min, below and upto are" ;;
      esac ;;
  esac
}

# Prints what is wrong with how many words `refute` has for its property, the word $3; its words are all given.
wrong_case() {
  case $3 in
    dli | imono | dimono | dmono | mono)
      [ $# -eq 6 ] || echo "$3 is judged on two profiles and the alternative that is raised" ;;
    neut) echo "no case of neut is judged; examples/search/counterexample.py looks for one by two counts" ;;
    *) [ $# -eq 4 ] || echo "$3 is judged on one profile" ;;
  esac
}

# Says which of the words of a command that is known is wrong.
say_wrong_word() {
  local form=$1 command=$2 called_with=$(($# - 2)) least most said words i
  local -a names needed
  read -ra names <<<"${form//[][]/}"
  read -ra needed <<<"${form%%[*}"
  least=${#needed[@]} most=${#names[@]}
  if [ "$called_with" -lt "$least" ] || [ "$called_with" -gt "$most" ]; then
    words="are $called_with words"
    if [ "$called_with" -eq 1 ]; then words="is 1 word"; fi
    say "there $words behind '$command', and it takes $least$([ "$least" -eq "$most" ] || echo " or $most")"
    if [ "$command" = synth ] && [ "$called_with" -gt "$most" ] && [ -z "$(wrong_property "$4")" ]; then
      say "properties are joined by commas, as el,mono"
    fi
    return
  fi
  shift 2
  for ((i = 0; i < $#; i++)); do
    said=$(wrong_word "${names[i]}" "${@:i+1:1}")
    if [ -n "$said" ]; then
      say "word $((i + 2)), ${names[i]}: $said"
      return
    fi
  done
  if [ "$command" = refute ]; then
    said=$(wrong_case refute "$@")
    if [ -n "$said" ]; then say "$said"; fi
  fi
}

# Says after a usage fault what the words should have been.
say_how() {
  local form near
  printf '%s' "$*" | iconv -f UTF-8 -t UTF-8 >/dev/null 2>&1
  if [ "${PIPESTATUS[1]}" -eq 1 ]; then
    say "a word isn't text in UTF-8"
  elif find_form "$@"; then
    say_wrong_word "$form" "$@"
    say "a call is '$called $1 $form'; '$called help $1' says what these words are"
  else
    near=$(column command "$tables/commands" | nearest "${1-}")
    if [ -n "$near" ]; then say "there is no command '$1' (is $near meant?)"; fi
    say "'$called help' has the commands"
  fi
}

# ---- files

# Prints why the file $1 can't be read, as far as that is seen from here.
reading_fault() {
  if [ ! -e "$1" ]; then
    if [ -L "$1" ]; then echo "a link to no file"; else echo "no such file"; fi
  elif [ -d "$1" ]; then
    echo "a folder"
  elif [ ! -r "$1" ]; then
    echo "no permission to read it"
  fi
}

# Says which of the names in the manifest $1 can't be read: the first three, with their lines.
say_unread_names() {
  local name why number=0 found=0
  [ -f "$1" ] || return 1
  while IFS= read -r name || [ -n "$name" ]; do
    number=$((number + 1)) name=${name%$'\r'}
    if [ -z "$name" ]; then continue; fi
    why=$(reading_fault "$name")
    if [ -n "$why" ]; then
      found=$((found + 1))
      if [ "$found" -le 3 ]; then say "line $number of $1, '$name': $why"; fi
    fi
  done <"$1"
  if [ "$found" -gt 3 ]; then say "and $((found - 3)) more names of $1"; fi
  [ "$found" -gt 0 ]
}

# Says after a count or a report where nobody has voted: no line of the profile says that somebody did.
say_nobody() {
  case $1 in count | report) ;; *) return 0 ;; esac
  if [ -f "$3" ] && ! LC_ALL=C grep -aqm 1 '^[[:blank:]]*0*[1-9]' -- "$3"; then say "'$3': nobody voted"; fi
}

# Says after a read fault which file can't be read, and why.
say_unread() {
  local form why found= i
  local -a names
  find_form "$@" || return 0
  read -ra names <<<"${form//[][]/}"
  for ((i = 0; i < ${#names[@]} && i + 1 < $#; i++)); do
    if [ -z "${endings[${names[i]}]+known}" ]; then continue; fi
    why=$(reading_fault "${@:i+2:1}")
    if [ -n "$why" ]; then say "'${*:i+2:1}': $why" && found=yes; fi
  done
  if [ -z "$found" ] && [ "$1" = batch ]; then say_unread_names "$3" && found=yes; fi
  if [ -z "$found" ]; then say "each file is there and can be opened now: a device may have failed"; fi
}
