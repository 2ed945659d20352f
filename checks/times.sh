#!/usr/bin/env bash
# Says how many seconds of processor time each proof, the tests of each crate, each must-fail edit and each check of
# .ci/run takes, dearest first. Four jobs may run at once, since the times are those of the processes themselves.
#   checks/times.sh CRATE..                     these crates anew, in a copy; of those below, what isn't kept already
#   checks/times.sh --watch FOLDER -- COMMAND.. a command that runs `rt`, as .ci/run does; FOLDER keeps what was seen
#   checks/times.sh --table FOLDER..            what was kept by one or more watches: a part at a time
#   checks/times.sh                             all of .ci/run, kept in times/
# It ends with the status of what it ran. TIMES_LEAST=SECONDS leaves out what is shorter; else that is a second.
set -u
top=$(cd "$(dirname "$0")/.." && pwd)
least=${TIMES_LEAST:-1}

case ${1-} in
  --watch)
    if [ $# -lt 4 ] || [ "$3" != -- ]; then
      sed -n '4,8s/^# \{0,1\}//p' "$0" >&2
      exit 2
    fi
    exec "$top/checks/times.py" --least "$least" --watch "$2" -- "${@:4}" ;;
  --table) exec "$top/checks/times.py" --least "$least" "$@" ;;
  '') exec "$top/checks/times.py" --least "$least" --watch "$top/times" -- "$top/.ci/run" ;;
  -*)
    sed -n '4,8s/^# \{0,1\}//p' "$0" >&2
    exit 2 ;;
esac

room=$(mktemp -d) || exit 1
trap 'rm -rf -- "$room"' EXIT
mkdir "$room/repository"
cd "$top" && tar -c --exclude='crates/*/out' crates crates.txt HANDLES | tar -x -C "$room/repository" || exit 1
# a crate whose text is new is proved anew, and those below it are as they were
for crate; do
  text=$room/repository/crates/$crate/src/lib.rt
  if [ ! -f "$text" ]; then text=${text%lib.rt}main.rt; fi
  if [ ! -f "$text" ]; then
    echo "$0: there is no crate '$crate'" >&2
    exit 2
  fi
  printf '\n// Its times were taken at %s.\n' "$(date +%s.%N)" >>"$text"
done
cd "$room/repository" && "$top/checks/times.py" --least "$least" --top . --watch "$room/seen" -- rt ci "$@"
