#!/usr/bin/env bash
# Has eight sessions quarrel over two rows many times: bench/quarrels.sh [RUNS [REFUSED]]. Prove and build the tests first: rt test in crates/thread_tests.
# The test quarrels_replay makes 20 free runs, in which sessions update, wait, meet deadlocks and roll back, and each history has to replay. It is run until there
# were RUNS of them, 10,000 if not said; then REFUSED times, 1,000 if not said, under a limit of processes, so that a thread can't be started, and as often with
# one of its allocations refused, spread over all that it makes. Those have to end with that fault, or to pass in spite of it.
# A test that hasn't ended after a minute, fails otherwise or is ended by a signal went wrong.
set -eu
here=$(cd "$(dirname "$0")/.." && pwd)
runs=${1:-10000}
refused=${2:-1000}
test=free_runs::quarrels_replay
# Of nobody else, since the limit counts all processes of a user
user=64999
room=$(mktemp -d)
trap 'rm -rf "$room"' EXIT
chmod 711 "$room"
. "$here/bench/refuse.sh"
make_refuser "$room"
cp "$here/crates/thread_tests/out/thread_tests_tests" "$room/tests"
chmod 755 "$room/tests"
wrong=0

# went_wrong WHAT: counts it, and shows what the test said
went_wrong() {
  wrong=$((wrong + 1))
  echo "$1:"
  tail -n 5 "$room/said"
}

# says COMMAND..: runs the test so, and keeps what it says and its status
says() {
  status=0
  timeout 60 "$@" "$room/tests" "$test" > "$room/said" 2>&1 || status=$?
}

# is_told FAULT: the test ended with an error that this pattern fits, and no claim of it was false
is_told() {
  [ "$status" -eq 101 ] && grep -qE "^error: ($1)\$" "$room/said" && ! grep -q 'assertion failed' "$room/said"
}

began=$SECONDS
for ((run = 0; run < runs; run += 20)); do
  says env
  [ "$status" -eq 0 ] || went_wrong "runs $run to $((run + 19)), status $status"
done
echo "$run runs in $((SECONDS - began)) s, 20 in each test: $wrong tests went wrong"

# comes_of FAULT WHAT: counts what came of a test from which something was to be refused
comes_of() {
  if [ "$status" -eq 0 ]; then passed=$((passed + 1)); elif is_told "$1"; then told=$((told + 1)); else went_wrong "$2 refused, status $status"; fi
}

if [ "$(id -u)" -eq 0 ]; then
  began=$SECONDS
  told=0
  passed=0
  for ((run = 0; run < refused; run++)); do
    says setpriv --reuid=$user --regid=$user --clear-groups prlimit --nproc=$((1 + run % 8))
    comes_of ThreadRefused "thread $((1 + run % 8))"
  done
  echo "$refused times with 0 to 7 threads allowed at once, in $((SECONDS - began)) s: $told ended with that fault, $passed passed, since threads had ended before others started"
else
  echo "no start of a thread refused: that needs root, to run the test as a user without other processes"
fi

# How many allocations the test makes, to the next power of two
made=1
while
  rm -f "$room/mark"
  says env "MARK=$room/mark" REFUSED=$made "LD_PRELOAD=$room/refuse.so"
  [ -e "$room/mark" ]
do made=$((made * 2)); done
began=$SECONDS
told=0
passed=0
for ((run = 1; run <= refused; run++)); do
  says env "MARK=$room/mark" REFUSED=$((1 + run * made / 2 / refused)) "LD_PRELOAD=$room/refuse.so"
  comes_of "$wants" "allocation $((1 + run * made / 2 / refused))"
done
echo "$refused of at least $((made / 2)) allocations refused in $((SECONDS - began)) s: $told ended with that fault, $passed passed"
echo "$wrong went wrong"
[ "$wrong" -eq 0 ]
