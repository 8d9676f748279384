#!/usr/bin/env bash
# Times the built program on all 1,680 interleavings of three sessions of three steps, on all 924 of two sessions of six, and on one permutation of
# 1,000 entries; a table is made, filled and dropped in each permutation. Prints permutations a second, of the best of five runs.
# The first two it also times on two processors alone, and beside eight busy loops, with threads and on one thread: of these the median of nine runs each,
# one after the other in turn, since what else the machine does weighs more there.
# Where PostgreSQL 15 and its isolationtester are on the machine (Debian's package postgresql-15), a private cluster is started in a temporary folder
# (unix socket only, fsync off), the real tool runs the same files, five times too, its text is compared with ours, and the ratio of the best runs is printed.
# Build the program first: ./build
set -eu
here=$(cd "$(dirname "$0")/.." && pwd)
program="$here/crates/isolationtester/out/isolationtester"
. "$here/bench/cluster.sh"
. "$here/bench/beside.sh"
room=$(mktemp -d)
loops=()
finish() {
  [ ${#loops[@]} = 0 ] || kill "${loops[@]}" 2> /dev/null || true
  stop_cluster
  rm -rf "$room"
}
trap finish EXIT

table='setup { CREATE TABLE t (k int, v int); INSERT INTO t VALUES (1, 10), (2, 20); }
teardown { DROP TABLE t; }'
cat > "$room/three" <<SPEC
$table
session s1
step a1 { BEGIN; }
step a2 { INSERT INTO t VALUES (3, 30); }
step a3 { COMMIT; }
session s2
step b1 { BEGIN ISOLATION LEVEL REPEATABLE READ; }
step b2 { SELECT * FROM t WHERE k > 1; }
step b3 { SELECT v, k FROM t; }
teardown { ROLLBACK; }
session s3
step c1 { SELECT k FROM t; }
step c2 { INSERT INTO t (v) VALUES (40); }
step c3 { SELECT * FROM t WHERE k IS NULL; }
SPEC
cat > "$room/two" <<SPEC
$table
session s1
step a1 { BEGIN; }
step a2 { INSERT INTO t VALUES (3, 30); }
step a3 { SELECT * FROM t; }
step a4 { COMMIT; }
step a5 { INSERT INTO t VALUES (4, 40); }
step a6 { SELECT k + v AS sum FROM t; }
session s2
step b1 { BEGIN ISOLATION LEVEL REPEATABLE READ; }
step b2 { SELECT * FROM t; }
step b3 { INSERT INTO t VALUES (5, 50); }
step b4 { SELECT * FROM t; }
step b5 { ROLLBACK; }
step b6 { SELECT * FROM t; }
SPEC
{
  echo "$table"
  echo 'session s1 step a { SELECT * FROM t WHERE k = 1; }'
  echo 'session s2 step b { SELECT 1; }'
  echo 'session s3 step c { BEGIN; SELECT v FROM t; COMMIT; }'
  printf 'permutation'
  for _ in $(seq 250); do printf ' a b c b'; done
  echo
} > "$room/long"

start_beside
compare three 1680 "three sessions of three steps, 1,680 in all"
compare two 924 "two sessions of six steps, 924 in all"
compare long 1 "one permutation of 1,000 entries"

# the middle one of these numbers
median() {
  printf '%s\n' "$@" | sort -n | sed -n "$((($# + 1) / 2))p"
}

# in_turn SPEC WORDS [PREFIX..]: times the spec with threads and on one thread, behind these words of a command line
in_turn() {
  local spec=$1 words=$2 with=() alone=() a b
  shift 2
  [ -x "$timings" ] || return 0
  for _ in 1 2 3 4 5 6 7 8 9; do
    with+=("$(micros "$@" "$program" < "$room/$spec")")
    alone+=("$(micros "$@" "$timings" alone < "$room/$spec")")
  done
  a=$(median "${with[@]}")
  b=$(median "${alone[@]}")
  printf '%-46s %4d.%d ms with threads, %4d.%d on one thread: %d in 100 of its time\n' "$words" $((a / 1000)) $((a % 1000 / 100)) $((b / 1000)) $((b % 1000 / 100)) $((a * 100 / b))
}

for spec in three two; do
  in_turn "$spec" "$spec, all processors"
  in_turn "$spec" "$spec, on two processors" taskset -c 0,1
done
for _ in 1 2 3 4 5 6 7 8; do
  while :; do :; done &
  loops+=($!)
done
for spec in three two; do
  in_turn "$spec" "$spec, beside eight busy loops"
done
kill "${loops[@]}"
loops=()
