#!/usr/bin/env bash
# Refuses each growth of memory in turn, and says how many were refused, how the runs ended, and what stood after each.
#   tools/growths.sh CRATE..                   while the tests of a crate run, which `rt test` proves and builds first. A run may fail its test, by an
#                                              error or an assertion, since a call answers that it is out of memory; it must not fault or hang.
#   tools/growths.sh --program PROGRAM WORD..  of one run of a program, whose input is this script's own. It must end with the status of `no
#                                              memory`, or with 0. What it wrote must be whole lines, a prefix of what it writes where nothing is refused
#                                              (a node's text depends on its sockets: of it the lines alone are looked at), and a second run in its
#                                              folder, with nothing refused, must end well (a node's within 500 turns): its stores stand.
set -u
top="$(cd "$(dirname "${BASH_SOURCE[0]}")/.." && pwd)"
room=$(mktemp -d)
trap 'rm -rf "$room"' EXIT
cc -O1 -shared -fPIC -o "$room/refuse.so" "$top/tools/refuse.c" -ldl || exit 2

# refused N COMMAND..: runs it in an empty folder with its growth N refused, and leaves in `count` how many growths it asked for
refused() {
  local n=$1
  shift
  rm -rf "$room/count" "$room/run"
  mkdir "$room/run"
  {
    (cd "$room/run" && REFUSE=$n REFUSE_COUNT="$room/count" exec timeout 60 env LD_PRELOAD="$room/refuse.so" "$@" >"$room/out" 2>"$room/err" <"$room/in")
  } 2>/dev/null
  status=$?
  count=$(cat "$room/count" 2>/dev/null || echo 0)
}

# stands PROGRAM WORD..: whether what the last run left is as it should be
stands() {
  local size
  size=$(stat -c %s "$room/out")
  [[ -z $(tail -c 1 "$room/out") ]] || { echo "a line is cut"; return 1; }
  [[ $2 == node ]] || cmp -s -n "$size" "$room/out" "$room/whole" || { echo "the text is no prefix of the whole run's"; return 1; }
  # A client's earlier commands, asked for again after its last one, get no answer: a node's second run is cut short.
  [[ $2 == node ]] && set -- "$1" node --turns 500 "${@:3}"
  (cd "$room/run" && exec timeout 60 "$@" >"$room/again" 2>"$room/err" <"$room/in")
  status=$?
  [[ " $again " == *" $status "* ]] || { echo "a second run does not end well: status $status, $(tail -n 1 "$room/err")"; return 1; }
  stood=$((stood + 1))
}

# A failed assertion of a test aborts it.
is_well() {
  [[ " $wanted " == *" $status "* ]] || { [[ $status == 134 ]] && grep -q '^assertion' "$room/err"; }
}

# each COMMAND..: refuses each growth of it in turn; the statuses that are well are `wanted`
each() {
  local n=1
  while :; do
    refused "$n" "$@"
    [[ $count -lt $n && $status == 0 ]] && break
    tried=$((tried + 1))
    ended[$status]=$((${ended[$status]:-0} + 1))
    if ! is_well; then
      faults=$((faults + 1))
      echo "growth $n of $*: status $status"
      tail -n 3 "$room/err"
    elif [[ -n $again ]] && ! stands "$@"; then
      faults=$((faults + 1))
      echo "growth $n of $*: see above"
    fi
    n=$((n + 1))
  done
}

# How the runs ended: each status with how often it came.
endings() {
  local status
  for status in "${!ended[@]}"; do echo -n ", ${ended[$status]} with status $status"; done
}

worst=0 again=""
declare -A ended=()
if [[ ${1:-} == --program ]]; then
  shift
  cat >"$room/in"
  program=$(realpath "$1")
  shift
  tried=0 faults=0 stood=0 wanted="0 9" again="0"
  [[ $1 == node ]] && again="0 8"
  refused 0 "$program" "$@"
  cp "$room/out" "$room/whole"
  each "$program" "$@"
  set -- "$program" "$@"
  echo "$*: $tried growths refused$(endings), $faults faults"
  echo "after $stood of them: whole lines, and a second run in the same folder that ends well"
  exit $((faults > 0))
fi
: >"$room/in"
for crate in "$@"; do
  tests="$top/crates/$crate/out/${crate}_tests"
  (cd "$top/crates/$crate" && rt test) >"$room/said" 2>&1 || { tail -n 5 "$room/said"; exit 2; }
  tried=0 faults=0 wanted="0 101" ended=()
  while read -r test; do
    each "$tests" "$test"
  done < <("$tests" --list | sed -n 's/: test$//p')
  echo "$crate: $tried growths refused$(endings), $faults faults"
  [[ $faults == 0 ]] || worst=1
done
exit $worst
