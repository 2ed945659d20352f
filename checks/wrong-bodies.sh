#!/usr/bin/env bash
# The table of wrong bodies in docs/PROMISES.md, by the files in crates/*/must-fail.
#   checks/wrong-bodies.sh          prints it
#   checks/wrong-bodies.sh write    puts it between its marks in the page
#   checks/wrong-bodies.sh check    says whether it stands there, by its status
set -u
cd "$(dirname "$0")/.." || exit 1
page=docs/PROMISES.md

table() {
  local crate edit names
  echo "| Crate | Wrong bodies |"
  echo "|---|---|"
  sed -n 's/^\([a-z0-9_]*\)\( staticlib\)\{0,1\}:.*/\1/p' crates.txt | while read -r crate; do
    names=
    for edit in "crates/$crate/must-fail/"*.edit; do
      [ -f "$edit" ] && names+=", \`$(basename "$edit" .edit)\`"
    done
    echo "| \`$crate\` | ${names#, } |"
  done
}

# the page, with the table between the marks
whole_page() {
  sed '/^<!-- printed by checks\/wrong-bodies.sh -->$/q' "$page"
  table
  sed -n '/^<!-- end -->$/,$p' "$page"
}

case ${1:-} in
  "") table ;;
  write) whole_page >"$page.new" && mv "$page.new" "$page" ;;
  check) whole_page | cmp -s - "$page" ;;
  *) sed -n '2,5s/^# \{0,1\}//p' "$0" >&2; exit 2 ;;
esac
