# What is said of a fault in a file: where it stands, what its kind means, and what may be meant or missing there.
# guide.sh reads this file. Files are read again for it, so of a pipe no place is shown.

# Says what a kind of fault means, by the table `faults`.
say_kind() {
  local words
  words=$(sed -n "s/^$1 $2: //p" "$tables/faults")
  if [ -n "$words" ]; then say "$2: $words"; fi
}

# Says a text that a user's file has, without control characters.
say_quoted() {
  local LC_ALL=C text=$1
  text=${text//$'\302'[$'\200'-$'\237']/?}
  say "  ${text//[$'\001'-$'\010'$'\013'-$'\037'$'\177']/?}"
}

# Prints how many bytes of the file $1 stand before its end and the blanks, comments and line ends there.
end_of_text() {
  LC_ALL=C awk '
    { line = $0; sub(/#.*/, "", line); sub(/[ \t\r]+$/, "", line) }
    line != "" { end = at + length(line) }
    { at += length($0) + 1 }
    END { print end + 0 }' "$1" 2>/dev/null
}

# Says where the byte $2 of the file $1 stands: its line, with a caret under it. For the end of the file it is the end
# of what stands there last.
say_place() {
  local shown place=$2
  if [ ! -f "$1" ]; then
    say "'$1' is no ordinary file, so its place isn't shown"
    return
  fi
  if [ "$place" -ge "$(wc -c <"$1")" ]; then place=$(end_of_text "$1"); fi
  shown=$("$place_tool" "$1" "$place") || return 0
  say "'$1', ${shown%%$'\n'*}"
  shown=${shown#*$'\n'}
  if [ "${#shown}" -le 400 ]; then
    say_quoted "${shown%$'\n'*}"
    say_quoted "${shown##*$'\n'}"
  fi
}

# ---- rule files

# Prints the bytes of the file $1 before the byte $2 without comments, and what stands from there on in the next lines.
parts_at() {
  head -c "$2" -- "$1" | tr -d '\000' | sed 's/#.*//'
  echo
  echo "@"
  tail -c "+$(($2 + 1))" -- "$1" | head -c 1000 | tr -d '\000' | sed 's/#.*//'
}

# Prints what may be missing at the byte $2 of the rule file $1, where signs and words tell that.
missing_at() {
  parts_at "$1" "$2" | LC_ALL=C awk '
    function takes(word) { return word ~ /^(max|min|below|upto|rev|seq|par|loop|until|pass|drop)$/ }
    function is_word(sign) { return sign ~ /^[A-Za-z0-9]/ }
    function next_sign() {
      if (!match(text, /[A-Za-z][A-Za-z0-9_-]*|[0-9]+|[^ \t\r\n]/)) return ""
      sign = substr(text, RSTART, RLENGTH)
      text = substr(text, RSTART + RLENGTH)
      return sign
    }
    function missing(here, last) {
      if (count == 0) return is_word(here) ? "" : "a definition begins with its name: NAME = TERM;"
      if (!named && is_word(here)) return "\047=\047 may be missing before it: a definition is NAME = TERM;"
      if (!named) return "\047NAME =\047 may be missing before \047" last "\047: a definition is NAME = TERM;"
      if (last ~ /^[=,([]$/) return here ~ /^[A-Za-z0-9[]/ ? "" : "something is missing behind \047" last "\047"
      if (takes(last) && here != "") return "a parenthesis may be missing behind \047" last "\047"
      if (here == "" && depth > 0) return signs(depth) " may be missing at the end, and a semicolon"
      if (here == "") return "a semicolon may be missing at the end of the definition"
      if (here == ";" && depth > 0) return signs(depth) " may be missing before it"
      if (here == ")" && depth == 0) return "this \047)\047 closes nothing"
      if (here == "," && depth == 0) return "a comma stands within parentheses alone, as in seq(A,B)"
      if (here == "=") return "a semicolon may be missing before \047" last "\047"
      if (is_word(here)) return "a " (depth > 0 ? "comma" : "semicolon") " may be missing before it"
      return ""
    }
    function signs(number,   row) { while (number-- > 0) row = row ")"; return "\047" row "\047" }
    /^@$/ && !behind { behind = 1; next }
    { if (behind) after = after "\n" $0; else before = before "\n" $0 }
    END {
      text = before
      while ((sign = next_sign()) != "") {
        if (sign == ";") { count = named = depth = 0; last = sign; continue }
        count++
        if (sign == "=") named = 1
        if (sign == "(") depth++
        if (sign == ")") depth--
        last = sign
      }
      text = after
      said = missing(next_sign(), last)
      if (said != "") print said
    }'
}

# Prints the word at the byte $2 of the file $1.
word_at() {
  tail -c "+$(($2 + 1))" -- "$1" | head -c 100 | tr -d '\000' | grep -ao '^[A-Za-z][A-Za-z0-9_-]*' | head -n 1
}

# Prints the words that may stand in a rule: those of the language, and the names that the file $1 defines before the
# byte $2.
words_before() {
  printf '%s\n' "${MODULES[@]}" "${COMPOSITIONS[@]}" "${SCORES[@]}"
  head -c "$2" -- "$1" | tr -d '\000' | sed 's/#.*//' | grep -ao '[A-Za-z][A-Za-z0-9_-]*[[:blank:]]*=' | tr -d '=\t '
}

# Whether the file $1 looks like a profile.
looks_like_profile() {
  head -c 100000 -- "$1" | grep -aq '^[[:blank:]]*[0-9]\{1,\}[[:blank:]]*:[[:blank:]]*[0-9]\|^# *NUMBER ALTERNATIVES *:'
}

# Whether the file $1 looks like a rule file.
looks_like_rule() {
  head -c 100000 -- "$1" | sed 's/#.*//' | grep -aq '^[[:blank:]]*[A-Za-z][A-Za-z0-9_-]*[[:blank:]]*='
}

# Says what is wanted behind the text $1 of a rule file, where its last word tells that.
say_wanted() {
  if [[ $1 =~ (^|[^A-Za-z0-9_-])(max|min|below|upto)[[:space:]]*\([[:space:]]*$ ]]; then
    say "${BASH_REMATCH[2]} takes a score: one of ${SCORES[*]}"
  elif [[ $1 =~ (^|[^A-Za-z0-9_-])(loop|until|pass|drop)[[:space:]]*\([[:space:]]*$ ]]; then
    say "${BASH_REMATCH[2]} takes a number from 1 first"
  fi
}

# Says what may be meant at the byte $3 of the rule file $2, whose fault is of the kind $1.
say_meant_in_rule() {
  local word near
  [ -f "$2" ] || return 0
  if looks_like_profile "$2" && ! looks_like_rule "$2"; then
    say "'$2' looks like a profile, and stands where a rule file is wanted"
    return
  fi
  word=$(word_at "$2" "$3")
  case $1 in
    Unexpected)
      near=$(missing_at "$2" "$3")
      if [ -n "$near" ]; then say "$near"; fi ;;
    UnknownName)
      near=$(words_before "$2" "$3" | nearest "$(tr '[:upper:]' '[:lower:]' <<<"$word")")
      if [ -n "$near" ]; then say "is $near meant by '$word'?"; fi ;;
    WrongSort)
      if [ "$word" != plurality ] && is_one_of "$word" "${SCORES[@]}"; then
        say "$word is a score; max($word) is a module, which keeps those with the greatest"
      else
        say_wanted "$(head -c "$3" -- "$2" | tr -d '\000' | tail -n 3)"
      fi ;;
  esac
}

# Says after a refused text which file it is, where, and what its kind means. The line of the program is $1, the program
# is $2, and its words follow.
say_refused_text() {
  local program=$2 file kind place table=text
  [[ $1 =~ ^text\ refused:\ ([A-Za-z]+)\ at\ byte\ ([0-9]+)$ ]] || return 0
  kind=${BASH_REMATCH[1]} place=${BASH_REMATCH[2]}
  shift 2
  file=$2
  if [ "$1" = batch ] && [ -f "$2" ] && "$program" listing "$2" >/dev/null 2>&1; then
    file=$3 table=manifest
  fi
  say_place "$file" "$place"
  say_kind $table "$kind"
  if [ "$1" != check ] && [ "$table" = text ]; then say_meant_in_rule "$kind" "$file" "$place"; fi
}

# ---- profiles

# Prints what the line $3 of the profile $2 has that it shouldn't, or lacks, where its fault is of the kind $1.
wrong_in_line() {
  LC_ALL=C awk -v kind="$1" -v number="$3" '
    function trimmed(text) { gsub(/^[ \t\r]+|[ \t\r]+$/, "", text); return text }
    function listed(wanted,   i, row, many) {
      for (i = 1; i <= alternatives; i++) {
        if ((i in times ? times[i] : 0) != wanted) continue
        if (++many > 20) return row ", .."
        row = row (row == "" ? "" : ", ") i
      }
      return row
    }
    /^[ \t]*#[ \t]*NUMBER ALTERNATIVES[ \t]*:/ { alternatives = substr($0, index($0, ":") + 1) + 0 }
    NR == number {
      at = index($0, ":")
      if (kind == "BadEntry" && trimmed(substr($0, at + 1)) == "") { print "no order stands behind the colon"; exit }
      many = split(substr($0, at + 1), entries, ",")
      column = at + 1
      for (i = 1; i <= many; i++) {
        entry = trimmed(entries[i])
        if (kind == "BadEntry" && entry !~ /^[0-9]+$/) {
          start = column + match(entries[i], /[^ \t]/) - (entry != "")
          print (entry == "" ? "nothing" : "\047" substr(entry, 1, 40) "\047") " stands at column " start \
            " where a number is wanted; a line is as \0473: 2,1,4\047, how many voters and then alternatives"
          exit
        }
        entry += 0
        if (kind == "Repeated" && entry in times) { print "alternative " entry " stands there twice"; exit }
        times[entry]++
        column += length(entries[i]) + 1
      }
      if (kind == "Short") print "not there: " listed(0)
      exit
    }' "$2"
}

# Prints what other ballots the file $2 looks like, which is refused for the kind $1, and words that it is converted
# with.
other_ballots() {
  local first
  case $1 in
    WrongType) echo "has another DATA TYPE:" && return ;;
    Tie) echo "has ties:" && return ;;
    Short) echo "has an incomplete ballot; if that is meant:" && return ;;
    NoAlternativeCount | NoColon | BadCount) ;;
    *) return ;;
  esac
  first=$(head -c 4096 -- "$2" | LC_ALL=C tr -d '\000\r\357\273\277\376\377' | sed -n '/[^[:blank:]]/{p;q}')
  case $first in '#'*) return ;; esac
  if [[ $first =~ ^[0-9]+$ ]]; then
    echo "looks like PrefLib's older layout:"
  elif [[ $first =~ ^[0-9]+[[:blank:]]+[0-9]+$ ]]; then
    echo "looks like a .blt file:"
  elif [[ $first == *[,\;$'\t']* || ${2,,} =~ \.(csv|tsv|tab)$ ]]; then
    echo "looks like a table:"
  elif [[ $first == *'>'* ]]; then
    echo "looks like lines of orders: --form orders"
  fi
}

# Says how the file $2, which is refused for the kind $1, becomes a profile, where it looks like other ballots.
say_converter() {
  local what more
  what=$(other_ballots "$1" "$2")
  [ -n "$what" ] || return 0
  more=${what#*:}
  say "'$2' ${what%%:*}: $called convert $(printf '%q' "$2")$more -o votes.soc"
}

# The same after a refused profile.
say_refused_profile() {
  local program=$2 kind number form file i shown
  local -a names
  [[ $1 =~ ^profile\ refused:\ ([A-Za-z]+)\ at\ line\ ([0-9]+)$ ]] || return 0
  kind=${BASH_REMATCH[1]} number=${BASH_REMATCH[2]}
  shift 2
  find_form "$@" || return 0
  read -ra names <<<"${form//[][]/}"
  for ((i = 0; i < ${#names[@]} && i + 1 < $#; i++)); do
    case ${names[i]} in SOC*) file=${*:i+2:1} ;; *) continue ;; esac
    # of two profiles the first that is refused is meant
    if [ -f "$file" ] && ! "$program" position 0 max "$file" >/dev/null 2>&1; then break; fi
  done
  if [ -f "$file" ]; then
    say "'$file', line $number"
    shown=$(sed -n "${number}{p;q}" -- "$file" | tr -d '\r\000' | head -c 200)
    if [ -n "$shown" ]; then say_quoted "$shown"; fi
  else
    say "'$file' is no ordinary file, so its line isn't shown"
  fi
  say_kind profile "$kind"
  if [ ! -f "$file" ]; then return; fi
  if looks_like_rule "$file" && ! looks_like_profile "$file"; then
    say "'$file' looks like a rule file, and stands where a profile is wanted"
    return
  fi
  case $kind in
    Short | Repeated | BadEntry)
      shown=$(wrong_in_line "$kind" "$file" "$number")
      if [ -n "$shown" ]; then say_quoted "$shown"; fi ;;
  esac
  say_converter "$kind" "$file"
}
