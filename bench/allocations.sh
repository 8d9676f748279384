#!/usr/bin/env bash
# Makes each allocation and each start of a thread of a crate's tests fail in turn: bench/allocations.sh CRATE [TEST..]. Prove and build the tests first: rt test in
# crates/CRATE. A test is run with its first allocation failing, then with its second, and so on; of one that asks for more than MOST, 1,000 if not said, so many are
# taken, spread over all. The test has to pass in spite of that, or to end with that very fault; where anything else comes of it, the run went wrong.
set -eu
here=$(cd "$(dirname "$0")/.." && pwd)
crate=$1
shift
most=${MOST:-1000}
program=$here/crates/$crate/out/${crate}_tests
room=$(mktemp -d)
trap 'rm -rf "$room"' EXIT
. "$here/bench/refuse.sh"

make_refuser "$room"

# The test ended with one of the wants, and with nothing else
is_told() {
  [ $status -eq 101 ] && grep -qE "^[Ee]rror: ($wants)\$" "$room/said" && ! grep -q '^assertion failed' "$room/said"
}

# says TEST NUMBER: runs the test with that allocation refused, and keeps what it says and its status. `timeout` itself is refused nothing: its own allocations, some 200,
# would be counted as the test's
says() {
  rm -f "$room/mark"
  status=0
  timeout 120 env FEW_LOOKS=1 MARK="$room/mark" REFUSED="$2" LD_PRELOAD="$room/refuse.so" "$program" "$1" > "$room/said" 2>&1 || status=$?
}

# asks TEST NUMBER: whether the test asks for so many
asks() {
  says "$1" "$2"
  [ -e "$room/mark" ]
}

# How many the test asks for
count_all() {
  local above=1 middle
  made=0
  while asks "$1" $above; do
    made=$above
    above=$((above * 2))
  done
  while [ $((above - made)) -gt 1 ]; do
    middle=$(((above + made) / 2))
    if asks "$1" $middle; then made=$middle; else above=$middle; fi
  done
}

# The number of allocations that were refused to the test, of the runs that ended with it, and of those that went wrong
try_all() {
  local number step count=0 told=0 wrong=0
  count_all "$1"
  step=$(((made + most - 1) / most))
  for ((number = 1; number <= made; number += step)); do
    says "$1" $number
    count=$((count + 1))
    [ $status -ne 0 ] || continue
    if is_told; then
      told=$((told + 1))
    else
      wrong=$((wrong + 1))
      echo "$1, allocation $number, status $status:"
      cat "$room/said"
    fi
  done
  echo "$1: $count of $made allocations failed in turn, $told of the runs ended with that fault, $wrong went wrong"
  tried=$((tried + count))
  all_made=$((all_made + made))
  all_told=$((all_told + told))
  went_wrong=$((went_wrong + wrong))
}

tried=0
all_made=0
all_told=0
went_wrong=0
if [ $# -eq 0 ]; then
  mapfile -t tests < <("$program" --list | sed -n 's/: test$//p')
else
  tests=("$@")
fi
for test in "${tests[@]}"; do try_all "$test"; done
echo "$crate: $tried of $all_made allocations failed in turn, $all_told of the runs ended with that fault, $went_wrong went wrong"
[ "$went_wrong" -eq 0 ]
