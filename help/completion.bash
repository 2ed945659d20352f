# Completion of the words of virage and virage-convert for bash: commands, files by their endings, properties. Made by help/page.
@TABLES@

# Offers files that end in .$1, and folders; with none of them bash goes on to other files.
_virage_files() {
  compopt -o filenames
  mapfile -t COMPREPLY < <(compgen -f -X "!*.$1" -- "$word"; compgen -d -- "$word")
}

# Offers these words for the last part of the word, behind the last sign $1 in it, where it has several.
_virage_parts() {
  local before=
  if [ -n "$1" ]; then
    compopt -o nospace
    case $word in *"$1"*) before=${word%"$1"*}$1 ;; esac
  fi
  shift
  local choice
  for choice; do
    case $before$choice in "$word"*) COMPREPLY+=("$before$choice") ;; esac
  done
  compopt -o filenames
}

# Offers the options of virage-convert, what is chosen behind one, and files, whatever their endings.
_virage_convert() {
  local word=${COMP_WORDS[COMP_CWORD]} values=${_virage_options[${COMP_WORDS[COMP_CWORD - 1]}]-}
  COMPREPLY=()
  compopt -o default
  case $values in
    '*.'*) word=${word//[\\\"\']/} && _virage_files "${values#'*.'}" ;;
    ?*) mapfile -t COMPREPLY < <(compgen -W "$values" -- "$word") ;;
    *) case $word in -*) mapfile -t COMPREPLY < <(compgen -W "${!_virage_options[*]}" -- "$word") ;; esac ;;
  esac
}

_virage() {
  local word=${COMP_WORDS[COMP_CWORD]} command=${COMP_WORDS[1]} kind
  local -a form choices
  COMPREPLY=()
  # (as it is meant, without the signs that quote it)
  word=${word//[\\\"\']/}
  if [ "$COMP_CWORD" -eq 1 ]; then
    mapfile -t COMPREPLY < <(compgen -W "${!_virage_forms[*]} convert help --help --version" -- "$word")
    return
  fi
  if [ "$command" = convert ]; then
    _virage_convert
    return
  fi
  case $command in '' | *[!a-z]*) return ;; esac
  read -ra form <<<"${_virage_forms[$command]-}"
  kind=${form[COMP_CWORD - 2]-}
  kind=${kind//[][]/}
  compopt +o default
  [ -n "$kind" ] || return
  read -ra choices <<<"${_virage_choices[$kind]-}"
  if [ -n "${_virage_ending[$kind]-}" ]; then
    compopt -o default
    _virage_files "${_virage_ending[$kind]}"
  elif [ ${#choices[@]} -gt 0 ]; then
    _virage_parts "${_virage_between[$kind]-}" "${choices[@]}"
  fi
}

complete -o default -F _virage virage
complete -o default -F _virage_convert virage-convert
