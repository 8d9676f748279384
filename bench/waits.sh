#!/usr/bin/env bash
# Times the built program on permutations in which a step waits, and on a table of 200 rows that 16 sessions update whole, one after the other. Prints permutations a second, of the best of five runs.
# Of the 70 interleavings of two sessions of four steps (BEGIN, an UPDATE of one row, a SELECT, COMMIT) a step waits in 60. In 14 of them nothing is asked of the session
# that waits before the other one's COMMIT; in the others its next step can't be started, which the real tool sits out (docs/DIFFERENCES.md). Those 14 are run, 20 times over.
# Where PostgreSQL 15 and its isolationtester are on the machine, it runs the same files beside, as in bench/permutations.sh: one run of this script takes about a minute.
# Build the program first: ./build
set -eu
here=$(cd "$(dirname "$0")/.." && pwd)
program="$here/crates/isolationtester/out/isolationtester"
. "$here/bench/cluster.sh"
. "$here/bench/beside.sh"
room=$(mktemp -d)
finish() {
  stop_cluster
  rm -rf "$room"
}
trap finish EXIT

# the orders in which the second one waits for the first: its UPDATE comes behind the other's UPDATE and before the other's COMMIT, and its SELECT behind that COMMIT
orders() {
  local x=$1 y=$2
  echo "permutation ${y}1 ${x}1 ${x}2 ${y}2 ${x}3 ${x}4 ${y}3 ${y}4"
  echo "permutation ${x}1 ${y}1 ${x}2 ${y}2 ${x}3 ${x}4 ${y}3 ${y}4"
  echo "permutation ${x}1 ${x}2 ${y}1 ${y}2 ${x}3 ${x}4 ${y}3 ${y}4"
  echo "permutation ${y}1 ${x}1 ${x}2 ${x}3 ${y}2 ${x}4 ${y}3 ${y}4"
  echo "permutation ${x}1 ${y}1 ${x}2 ${x}3 ${y}2 ${x}4 ${y}3 ${y}4"
  echo "permutation ${x}1 ${x}2 ${y}1 ${x}3 ${y}2 ${x}4 ${y}3 ${y}4"
  echo "permutation ${x}1 ${x}2 ${x}3 ${y}1 ${y}2 ${x}4 ${y}3 ${y}4"
}

{
  cat <<SPEC
setup { CREATE TABLE t (k int, v int); INSERT INTO t VALUES (1, 10), (2, 20); }
teardown { DROP TABLE t; }
session a
step a1 { BEGIN; }
step a2 { UPDATE t SET v = v + 1 WHERE k = 1; }
step a3 { SELECT * FROM t ORDER BY k; }
step a4 { COMMIT; }
session b
step b1 { BEGIN; }
step b2 { UPDATE t SET v = v + 2 WHERE k = 1; }
step b3 { SELECT * FROM t ORDER BY k; }
step b4 { COMMIT; }
SPEC
  for _ in $(seq 20); do
    orders a b
    orders b a
  done
} > "$room/waits"

{
  printf 'setup { CREATE TABLE t (k int, v int); INSERT INTO t VALUES (1, 0)'
  for k in $(seq 2 200); do printf ', (%d, 0)' "$k"; done
  echo '; }'
  echo 'teardown { DROP TABLE t; }'
  for n in $(seq 16); do echo "session s$n step u$n { UPDATE t SET v = v + $n; }"; done
  echo 'step sum { SELECT count(*), sum(v), min(v), max(v) FROM t; }'
  printf 'permutation'
  for n in $(seq 16); do printf ' u%d' "$n"; done
  echo ' sum'
} > "$room/rows"

start_beside
compare waits 280 "one wait in each, 280 permutations"
compare rows 1 "200 rows updated by 16 sessions"
