# Help for whoever calls virage, and the call itself. The script of a checkout and the installed command both read this
# file, and set `tables`, the folder of the tables beside it, `called`, how they are called, and `place_tool`, the tool
# that shows a place of a file.
. "$tables/told.sh"
. "$tables/places.sh"

# where a file may grow no further, whoever writes to it is told so, and not ended: then the status is 6
trap '' XFSZ

say() {
  echo "virage: $1" >&2
}

# Calls $2 for each stanza of the table $1, with its fields in the array `row`. A line that begins with a blank goes on.
each_row() {
  local line key
  local -A row=()
  while IFS= read -r line; do
    case $line in
      '#'*) ;;
      '') if [ ${#row[@]} -gt 0 ]; then "$2"; row=(); fi ;;
      ' '*) row[$key]+=$'\n'${line# } ;;
      *) key=${line%%:*} row[$key]=${line#*: } ;;
    esac
  done <"$tables/$1"
  if [ ${#row[@]} -gt 0 ]; then "$2"; fi
}

# Fills `forms` with the words of each command, by its name, and `endings` with those of files, by the word.
keep_form() {
  forms[${row[command]}]=${row[words]}
}

keep_ending() {
  if [ -n "${row[ending]:-}" ]; then endings[${row[word]}]=${row[ending]}; fi
}

read_forms() {
  declare -gA forms=() endings=()
  each_row commands keep_form
  each_row words keep_ending
}

tell_command() {
  printf '  virage %s %s\n    %s\n    %s %s\n\n' "${row[command]}" "${row[words]}" "${row[does]}" "$called" \
    "${row[example]}"
}

tell_word() {
  printf '  %-14s%s%s\n' "${row[word]}" "${row[is]}" "${row[ending]:+ (*.${row[ending]})}"
}

# Prints mdoc text as a paragraph of at most 80 columns: literals between quotes, punctuation behind its word.
plain_text() {
  awk '
    function put(word) {
      if (line == "") line = word
      else if (length(line) + 1 + length(word) <= 80) line = line " " word
      else { print line; line = word }
    }
    {
      first = 1; last = NF; left = right = quote = ""
      if ($1 ~ /^[.][A-Z][a-z]$/) {
        if ($1 == ".Pq") { left = "("; right = ")"; first = 2 }
        if ($first ~ /Ql$/) quote = "\047"
        first++
      }
      if (quote == "" && left == "") { for (i = first; i <= last; i++) joined = take(joined, $i); flush(); next }
      behind = ""
      while (last > first && $last ~ /^[,.:;]$/) { behind = $last behind; last-- }
      $first = left quote $first; $last = $last quote right behind
      for (i = first; i <= last; i++) put($i)
    }
    function take(before, word) {
      if (before == "") return word
      return before (word ~ /^[,.:;]$/ ? "" : " ") word
    }
    function flush(   words, n, i) {
      n = split(joined, words, " ")
      for (i = 1; i <= n; i++) put(words[i])
      joined = ""
    }
    END { if (line != "") print line }'
}

# Prints the row of a command that `asked` names, with what its words are.
tell_asked() {
  if [ "${row[command]}" != "$asked" ]; then return; fi
  printf 'virage %s %s\n\n%s.\n' "${row[command]}" "${row[words]}" "${row[does]^}"
  printf '%s\n' "${row[more]}" | plain_text
  printf '\n'
  asked_words=" ${row[words]//[][]/} "
  each_row words tell_asked_word
  printf '\n  %s %s\n' "$called" "${row[example]}"
}

tell_asked_word() {
  case $asked_words in *" ${row[word]} "*) tell_word ;; esac
}

# Prints help on what is asked: a command, or the properties.
tell_about() {
  local asked=$1 asked_words near
  if [ "$asked" = properties ]; then
    grep -v '^#' "$tables/properties" | sed 's/^\([^:]*\): /  \1\n    /'
  elif find_form "$asked"; then
    each_row commands tell_asked
  else
    near=$({ column command "$tables/commands"; echo properties; } | nearest "$asked")
    say "there is no command '$asked'${near:+ (is $near meant?)}; '$called help' has the commands"
    return 2
  fi
}

# Prints the help that is asked for, where $1 and $2 are as `tell_summary` takes them and the words of the call follow.
# Where none is asked for, the status is 1, and where it isn't there, 2.
help_asked() {
  local examples=$1 more=$2
  shift 2
  case ${1-help} in
    help | -h | --help)
      read_forms
      if [ $# -gt 1 ]; then tell_about "$2"; else tell_summary "$examples" "$more"; fi
      return ;;
  esac
  case ${2-} in -h | --help) ;; *) return 1 ;; esac
  read_forms
  [ $# -eq 2 ] && find_form "$1" && tell_about "$1"
}

# Prints the summary, where $1 is the folder that the examples are run in and $2 where there is more.
tell_summary() {
  printf 'virage counts ranked ballots with a voting rule, and tells what holds of the\n'
  printf 'rule whatever the ballots are. The commands, each with an example:\n\n'
  each_row commands tell_command
  printf 'The words:\n\n'
  each_row words tell_word
  printf '\nA file may be a pipe, as /dev/stdin. The examples are run in %s.\n' "$1"
  printf "'%s help', -h or --help prints this, and --version the version.\n" "$called"
  printf "'%s help COMMAND' says more of a command, as COMMAND --help does, and\n" "$called"
  printf "'%s help properties' has the properties.\n" "$called"
  printf "'%s convert FILE' makes a profile of a table, as of a form's answers, and\n" "$called"
  printf "of other files of ballots; '%s help convert' says more.\n%s\n" "$called" "$2"
}

# Makes a profile of a file of ballots, or helps with that, where the words behind $1 ask for it: the script $1 does so,
# which needs Python, and this ends with its status. Where the words ask for something else it does nothing.
convert_if_asked() {
  local script=$1
  shift
  case "${1-} ${2-}" in
    'convert '*) shift ;;
    'help convert') set -- --help ;;
    *) return ;;
  esac
  if ! command -v python3 >/dev/null; then
    say "convert needs Python, and there is no python3"
    exit 69
  fi
  VIRAGE_CALLED="$called convert" exec python3 "$script" "$@"
}

# Sets `form` to the words of the command $1, where it is one.
find_form() {
  case ${1:-} in '' | *[!a-z]*) return 1 ;; esac
  [ -n "${forms[$1]+known}" ] && form=${forms[$1]}
}

# Has the checks of memory that an unproved build holds, which are slow, leave want of memory to the program.
calm_checks() {
  export ASAN_OPTIONS=detect_leaks=0:detect_stack_use_after_return=0:allocator_may_return_null=1
}

# Runs the program $1 with the further words and gives its status. Behind the program's line on standard error it says
# more: which word is wrong, which file can't be read, or where a file has its fault. The program ends where this
# process does, as far as the system can see to that.
run_here() {
  local program=$1 status line
  local -a leash=()
  shift
  if setpriv --pdeathsig TERM true 2>/dev/null; then leash=(setpriv --pdeathsig TERM); fi
  { line=$("${leash[@]}" "$program" "$@" 2>&1 >&3 3>&-); } 3>&1
  status=$?
  if [ -n "$line" ]; then printf '%s\n' "$line" >&2; fi
  case $status in
    0) say_nobody "$@" ;;
    2) say_how "$@" ;;
    3) say_refused_text "${line##*$'\n'}" "$program" "$@" ;;
    4) say_refused_profile "${line##*$'\n'}" "$program" "$@" ;;
    5) say_unread "$@" ;;
  esac
  return "$status"
}

# The same, and ends with the status.
run() {
  local program=$1
  shift
  read_forms
  run_here "$program" "$@"
  exit
}
