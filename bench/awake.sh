#!/usr/bin/env bash
# Runs a command as on a machine whose processors do nothing else and are at hand at once: bench/awake.sh bench/waits.sh. A loop of idle priority keeps each processor awake, and the command runs at real-time priority, for which root is
# needed. On a virtual machine whose kernel keeps threads together on few of its processors, or where one that has halted takes milliseconds to wake, times of threads are times of that else. What the command starts has that priority
# too, so it isn't for measuring beside busy loops.
set -eu
loops=()
finish() {
  kill "${loops[@]}" 2> /dev/null || true
}
trap finish EXIT
for processor in $(seq 0 $(($(nproc) - 1))); do
  chrt -i 0 taskset -c "$processor" bash -c 'while :; do :; done' &
  loops+=($!)
done
sleep 0.3
chrt -r 5 "$@"
