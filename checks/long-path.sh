#!/usr/bin/env bash
# Runs the checks of the scripts in a copy of this checkout whose path has more than 120 characters, a blank and an
# umlaut. The copy has the program that stands here. It prints what is wrong, and a line at the end; its status is 0
# where nothing is.
set -u
cd "$(dirname "$0")/.." || exit 1
room=$(mktemp -d) || exit 1
trap 'rm -rf "$room"' EXIT
place="$room/a checkout that somebody has put under a long name/with blanks, an ümlaut, and more folders/of a user"
faults=0

mkdir -p "$place/crates/virage/out"
git ls-files -z | xargs -0 cp --parents -t "$place"
cp -p crates/virage/out/virage crates/virage/out/virage.sources "$place/crates/virage/out/" || exit 1
cd "$place" || exit 1
git init -q . && git add -A && git -c user.name=checks -c user.email=checks@virage.example commit -qm "a copy" || exit 1
if [ ${#place} -le 120 ]; then echo "long path: the path isn't long" && faults=1; fi
case $(./virage --version) in
  *"build: proved, $place/"*) ;;
  *) echo "long path: the copied build isn't taken for a proved one" && faults=$((faults + 1)) ;;
esac
for check in help/check packaging/check checks/many.sh python/tests/run; do
  if ! "$check" >"$room/said" 2>&1; then
    faults=$((faults + 1))
    echo "long path: $check fails there:"
    tail -n 20 "$room/said" | sed 's/^/  | /'
  fi
done
echo "long path: ${#place} characters, $faults faults"
[ "$faults" -eq 0 ]
