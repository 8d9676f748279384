# Times the built program beside itself on one thread (crates/timings, built by `rt run` there) and beside the real tool, for the scripts beside this one, which source it behind cluster.sh: `program` is ours, and specs and texts lie in
# the folder `room`. Of each the best of five runs counts, with the start of its process.

# microseconds of a command, its output in $room/out; the shell's own clock needs no process that would be timed too
micros() {
  local from to
  from=${EPOCHREALTIME/[.,]/}
  "$@" > "$room/out" || true
  to=${EPOCHREALTIME/[.,]/}
  echo $((to - from))
}

# best SPEC COMMAND..: the least of five runs
best() {
  local least= us spec=$1
  shift
  for _ in 1 2 3 4 5; do
    us=$(micros "$@" < "$room/$spec")
    if [ -z "$least" ] || [ "$us" -lt "$least" ]; then least=$us; fi
  done
  echo "$least"
}

# starts the server that the real tool needs, where it is on this machine
start_beside() {
  if has_real; then
    start_cluster "$room"
  else
    echo "No isolationtester of PostgreSQL 15 here: ours alone."
  fi
}

# compare SPEC PERMUTATIONS WORDS: times the spec, and says so in these words; where the programs that time are built, on one thread too
timings="$here/crates/timings/out/timings"
compare() {
  local mine alone theirs said
  mine=$(best "$1" "$program")
  cp "$room/out" "$room/$1.ours"
  printf '%-46s %4d.%d ms, %8d permutations a second' "$3" $((mine / 1000)) $((mine % 1000 / 100)) $(($2 * 1000000 / mine))
  if [ -x "$timings" ]; then
    alone=$(best "$1" "$timings" alone)
    if tail -n +2 "$room/$1.ours" | cmp -s - "$room/out"; then said="the same text"; else said="ANOTHER TEXT"; fi
    printf '; on one thread %4d.%d ms, %8d a second, %s' $((alone / 1000)) $((alone % 1000 / 100)) $(($2 * 1000000 / alone)) "$said"
  fi
  if [ -n "$cluster" ]; then
    theirs=$(best "$1" "$real" "host=$room/socket user=tester dbname=postgres")
    if cmp -s "$room/out" "$room/$1.ours"; then said="the same text"; else said="ANOTHER TEXT"; fi
    printf '; the real tool %6d ms: %d times as long, %s' $((theirs / 1000)) $((theirs / mine)) "$said"
  fi
  echo
}
