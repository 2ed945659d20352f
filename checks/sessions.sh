#!/usr/bin/env bash
# Runs the sessions of README.md and docs/*.md, and compares: each `$ COMMAND` in an indented block, with its further
# lines behind `> `, and what is printed below it. The commands of a page run in one folder that looks like the top of
# the repository, and is removed.
set -u
top=$(cd "$(dirname "$0")/.." && pwd)
room=$(mktemp -d) || exit 1
trap 'rm -rf "$room"' EXIT
ran=0
differ=0

# run PAGE COMMAND EXPECTED: what the script `virage` says of its build is left out, and so are carriage returns
run() {
  local said
  said=$(cd "$room/top" && bash -c "$2" </dev/null 2>&1 | tr -d '\r' | grep -v '^virage: ')
  ran=$((ran + 1))
  if [ "$said" != "$3" ]; then
    differ=$((differ + 1))
    printf '%s: $ %s\n  the page has:\n%s\n  this is printed:\n%s\n' "${1#"$top/"}" "$2" "$3" "$said"
  fi
}

# session PAGE: its commands in order
session() {
  local line command='' expected=''
  rm -rf "$room/top"
  mkdir "$room/top"
  ln -s "$top/examples" "$top/tools" "$top/virage" "$room/top/"
  while IFS= read -r line; do
    case $line in
      "    \$ "*)
        [ -n "$command" ] && run "$1" "$command" "${expected%$'\n'}"
        command=${line#"    \$ "} expected= ;;
      "    > "*) command+=$'\n'${line#"    > "} ;;
      "    "*) expected+=${line#    }$'\n' ;;
      "") [ -n "$command" ] && expected+=$'\n' ;;
      *)
        [ -n "$command" ] && run "$1" "$command" "$(printf '%s' "$expected")"
        command='' expected='' ;;
    esac
  done < <(cat "$1"; echo end)
}

for page in "$top/README.md" "$top/docs/"*.md; do
  session "$page"
done
echo "sessions: $ran commands, $differ of them print something else"
[ "$differ" -eq 0 ] && [ "$ran" -gt 0 ]
