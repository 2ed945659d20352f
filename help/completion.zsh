#compdef virage virage-convert
# Completion of the words of virage and virage-convert for zsh: commands, files by their endings, properties. Made by help/page.
@TABLES@

local kind
local -a form
if [[ $service = virage-convert || ( $words[2] = convert && CURRENT -gt 2 ) ]]; then
  local values=$_virage_options[${words[CURRENT - 1]}]
  if [[ -n $values && $values != '*.'* ]]; then
    compadd -- ${=values}
  elif [[ $PREFIX = -* ]]; then
    compadd -- ${(k)_virage_options}
  else
    _files ${values:+-g} ${values:+$values}
  fi
  return
fi
if (( CURRENT == 2 )); then
  _describe command _virage_commands
  return
fi
form=(${=_virage_forms[$words[2]]})
kind=${${form[CURRENT - 2]}//[][]/}
if [[ -z $kind ]]; then
  return 1
elif [[ -n $_virage_ending[$kind] ]]; then
  _files -g "*.$_virage_ending[$kind]"
elif [[ -n $_virage_between[$kind] ]]; then
  # the last part of the word, behind the last of these signs in it
  compset -P "*$_virage_between[$kind]"
  compadd -S '' -- ${=_virage_choices[$kind]}
elif [[ -n $_virage_choices[$kind] ]]; then
  compadd -- ${=_virage_choices[$kind]}
else
  _message "$kind"
fi
