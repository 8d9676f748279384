#!/usr/bin/env bash
# Refuses the built program the start of a thread: bench/threads.sh [PROGRAM]. Build it first: ./build
# It may map as much as the run of one session needs, and 16 MiB more, in which the stacks of 60 sessions have no room: it has to end with the line of R10 and status 3, with the first line
# alone printed. Where it may map as much as it likes the same file has to run.
# Then one start alone is refused, on a file of 1,680 permutations. The first one is that of a thread which would run some of them beside the calling one, where there are several processors:
# without it the text has to be whole. With another one refused it has to be whole too, or the run ends with R10 and status 3 behind a prefix of it.
set -eu
here=$(cd "$(dirname "$0")/.." && pwd)
program=${1:-$here/crates/isolationtester/out/isolationtester}
room=$(mktemp -d)
trap 'rm -rf "$room"' EXIT
. "$here/bench/refuse.sh"

# spec SESSIONS: a file of so many sessions of one step each, all of which stand in its permutation
spec() {
  seq "$1" | sed "s/.*/session s& step a& { SELECT &; }/"
  echo "permutation $(seq -s ' ' -f 'a%g' "$1")"
}

# says KIBIBYTES SESSIONS: runs such a file where no more may be mapped than that, and keeps the status
says() {
  status=0
  spec "$2" > "$room/spec"
  (ulimit -v "$1" && exec "$program" < "$room/spec" > "$room/out" 2> "$room/err") || status=$?
}

least=8192
while says $least 1; [ "$status" -ne 0 ]; do
  least=$((least + 1024))
  [ $least -lt 1048576 ] || { echo "not even one session runs in a gibibyte: $(cat "$room/err")"; exit 1; }
done
says $((least + 16384)) 60
[ "$status" -eq 3 ] || { echo "a refused thread: status $status"; exit 1; }
cmp "$room/out" - <<< 'Parsed test spec with 60 sessions'
cmp "$room/err" - <<< 'isolationtester: R10 Threads'
says unlimited 60
[ "$status" -eq 0 ] || { echo "60 sessions: status $status, $(cat "$room/err")"; exit 1; }
echo "a thread's start that is refused ends the run as R10, with status 3"

seq 3 | sed 's/.*/session s& step a& { SELECT &; } step b& { SELECT &; } step c& { SELECT &; }/' > "$room/many"
"$program" < "$room/many" > "$room/whole"
[ "$(grep -c '^starting' "$room/whole")" -eq 1680 ] || { echo "1,680 permutations: $(grep -c '^starting' "$room/whole")"; exit 1; }
make_refuser "$room"

# starts NUMBER: runs that file with this start refused, and keeps the status
starts() {
  rm -f "$room/mark"
  status=0
  env MARK="$room/mark" REFUSED_START="$1" LD_PRELOAD="$room/refuse.so" timeout 60 "$program" < "$room/many" > "$room/out" 2> "$room/err" || status=$?
}

# (one processor alone has a thread for each session started, for up to 1,024 permutations, and then anew for the others)
ended=0 tried=0
for number in $(seq 40); do
  starts "$number"
  [ -e "$room/mark" ] || break
  tried=$number
  if [ "$status" -eq 0 ]; then
    cmp "$room/out" "$room/whole"
  else
    [ "$number" -gt 1 ] || [ "$(nproc)" -eq 1 ] || { echo "without the first thread: status $status, $(cat "$room/err")"; exit 1; }
    [ "$status" -eq 3 ] || { echo "start $number of a thread refused: status $status, $(cat "$room/err")"; exit 1; }
    cmp "$room/err" - <<< 'isolationtester: R10 Threads'
    cmp "$room/out" <(head -c "$(wc -c < "$room/out")" "$room/whole")
    ended=$((ended + 1))
  fi
done
[ "$tried" -ge 6 ] || { echo "no more than $tried starts of threads are asked for"; exit 1; }
echo "without the first thread 1,680 permutations run all the same; of $tried starts refused one by one $ended end the run as R10, behind a prefix of its text"
