#!/usr/bin/env bash
# Counts how a statement's instructions grow with the rows, the history or the waiters: bench/growth.sh [ROW..], all rows if none is named.
# Build the program first: rt run in crates/timings; and valgrind has to be on the machine.
# The engine runs alone, without threads, under callgrind. A count is that of a run less that of the same run without the measured part, so what leads
# up to it falls out. Each line has the counts at N and at 2N, how many times as many the second is, and what is wanted. callgrind takes some fifty times as
# long as the program alone: a run that takes over 120 processor seconds (LIMIT) is ended, and the larger sizes of its row are left out; the line says so.
# Where SELECT is among the rows, the last lines say how long a SELECT of 64,000 rows takes without callgrind, and, where the real tool is there, beside it.
set -eu
here=$(cd "$(dirname "$0")/.." && pwd)
timings="$here/crates/timings/out/timings"
program="$here/crates/isolationtester/out/isolationtester"
# The C library is told to keep freed memory, so that no count is that of giving it back
export MALLOC_MMAP_THRESHOLD_=1073741824 MALLOC_TRIM_THRESHOLD_=4294967296
LIMIT=${LIMIT:-120}
JOBS=${JOBS:-$(nproc)}
. "$here/bench/cluster.sh"
. "$here/bench/beside.sh"
room=$(mktemp -d)
finish() {
  stop_cluster
  rm -rf "$room"
}
trap finish EXIT

# a row of `timings growth`; the sizes N; how many times as many instructions are wanted at most at 2N; what is counted
table() {
  cat << 'END'
select;1000 10000 64000;2.4;SELECT of all N rows
update;1000 10000 64000;2.4;UPDATE of all N rows
update-keyed;1000 10000 64000;2.4;the same, with a key
lock;1000 10000 64000;2.4;SELECT FOR UPDATE of all N rows
lock-keyed;1000 10000 64000;2.4;the same, with a key
delete;1000 10000 64000;2.4;DELETE of all N rows
delete-keyed;1000 10000 64000;2.4;the same, with a key
insert;1000 10000 64000;2.4;INSERT of N rows
insert-keyed;1000 10000 64000;2.4;the same, with a key
select-beside;1000 10000 64000;1.05;SELECT of 10 rows beside another table of N
commit;1000 10000 64000;1.05;COMMIT of one write after N
rollback;1000 10000 64000;1.05;ROLLBACK of one write after N
rollback-keyed;1000 10000 64000;1.05;the same, with a key
insert-one;1000 10000 64000;1.05;INSERT of one row into N
insert-one-keyed;1000 10000 64000;1.05;the same, with a key
statements;100 1000 10000;2.1;N statements, each an UPDATE of one of 10 rows
statements-keyed;100 1000 10000;2.1;the same, with a key
replays;100 1000 10000;2.1;replays of those N statements
replays-keyed;100 1000 10000;2.1;the same, with a key
hot-row;100 1000 10000;;N statements, each an UPDATE of the same row
hot-row-keyed;100 1000 10000;;the same, with a key
waiters;8 16 32;2.1;COMMIT for which N sessions wait, behind which the first goes on
waiters-beside;100 1000 10000;1.05;the same, 64 sessions in a table of N
waiters-after;100 1000 10000;1.05;the same, 64 sessions after N statements
resumed;100 1000 10000;1.05;COMMIT behind which an UPDATE goes on at the last of N rows
resumed-keyed;100 1000 10000;1.05;the same, with a key
release;1000 10000 64000;2.4;COMMIT that gives N locks back
END
}

# run ROW SIZE setup|whole: the instructions of a run, nothing where it was ended
run() {
  (ulimit -t "$LIMIT" && exec valgrind --tool=callgrind --callgrind-out-file=/dev/null "$timings" growth "$@") 2>&1 | sed -n 's/^==.*Collected : //p'
}

# count ROW SIZE: those of its measured part
count() {
  local whole setup
  setup=$(run "$1" "$2" setup)
  [ -n "$setup" ] || return 0
  whole=$(run "$1" "$2" whole)
  [ -n "$whole" ] || return 0
  echo $((whole - setup))
}

# line ROW SIZES WANTED WORDS: its counts
line() {
  local size once twice
  echo "$4"
  for size in $2; do
    once=$(count "$1" "$size")
    twice=
    [ -z "$once" ] || twice=$(count "$1" $((2 * size)))
    awk -v n="$size" -v a="$once" -v b="$twice" -v most="$3" -v limit="$LIMIT" 'BEGIN {
      printf "  N = %6d: ", n
      if (a == "") { printf "over %d s\n", limit; exit }
      printf "%15d", a
      if (b == "") { printf ", and over %d s at 2N\n", limit; exit }
      printf ", %15d at 2N: %.2f times", b, b / a
      if (most != "") printf "; wanted %s at most%s", most, (b / a > most + 0 ? ", NOT SO" : "")
      print ""
    }'
    if [ -z "$twice" ]; then
      for left in $2; do [ "$left" -le "$size" ] || echo "  N = $left: left out"; done
      break
    fi
  done
}

# A run that is ended leaves nothing behind, and says nothing of it
ulimit -c 0
mapfile -t lines < <(table | if [ $# -eq 0 ]; then cat; else grep -E "^($(IFS='|'; echo "$*"));"; fi)
for each in "${lines[@]}"; do
  while [ "$(jobs -rp | wc -l)" -ge "$JOBS" ]; do wait -n || true; done
  IFS=';' read -r row sizes wanted words <<< "$each"
  line "$row" "$sizes" "$wanted" "$words" > "$room/$row.line" 2> /dev/null &
done
wait
for each in "${lines[@]}"; do cat "$room/${each%%;*}.line"; done

case " ${*:-select} " in *" select "*) ;; *) exit 0 ;; esac
least=
for _ in 1 2 3 4 5; do
  us=$("$timings" growth select 64000 2>&1 > /dev/null | sed 's/ .*//')
  if [ -z "$least" ] || [ "$us" -lt "$least" ]; then least=$us; fi
done
echo "SELECT of 64,000 rows on the engine alone: $((least / 1000)) ms"
[ -x "$program" ] || exit 0

# filled NAME SQL: a spec of a table of 64,000 rows, and one step
filled() {
  {
    echo 'setup { CREATE TABLE t (k int, v int); }'
    echo "setup { INSERT INTO t VALUES $(seq -s ', ' -f '(%.0f,0)' 64000); }"
    echo 'teardown { DROP TABLE t; }'
    echo "session s step a { $2; }"
  } > "$room/$1"
}

filled rows 'SELECT k, v FROM t'
filled none 'SELECT 1'
echo "the program, with its text: $((($(best rows "$program") - $(best none "$program")) / 1000)) ms"
start_beside
if [ -n "$cluster" ]; then
  beside=("$real" "host=$room/socket user=tester dbname=postgres")
  echo "the real tool, with its text: $((($(best rows "${beside[@]}") - $(best none "${beside[@]}")) / 1000)) ms"
fi
