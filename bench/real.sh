#!/usr/bin/env bash
# Gives spec files to PostgreSQL 15's own isolationtester and server, and compares byte for byte what they print.
#
#     bench/real.sh                       examples/specs, compared with examples/expected
#     bench/real.sh FOLDER|FILE..         folders, or single files: NAME.spec is compared with NAME.out beside it, or else with ../expected/NAME.out
#     bench/real.sh --ours FOLDER|FILE..  runs this project's tool too, and compares the two
#     bench/real.sh --into DIR ..         also puts what the real tool prints into DIR/NAME.out
#
# Files that differ are printed with their differing lines: `<` is the expected text, or ours, `>` the real one. A file that both refuse before any
# permutation is named as refused, one that the real tool was cut at after 30 seconds as cut. The last line counts them; the status is 0 where none
# differs and none was cut. Those of this project's examples that differ are named in docs/DIFFERENCES.md.
#
# It needs Debian's packages postgresql-15 and postgresql-client-15, and installs nothing. The cluster is a private one in a temporary folder (unix
# socket only, fsync off), with a database of its own for each file. What `deadlock_timeout` a session has is the file's to say; a file that doesn't
# gets the server's one second. A step that waits for over 5 seconds is cancelled by the real tool (PGISOLATIONTIMEOUT), a file that runs for over 30 is ended.
set -eu
here=$(cd "$(dirname "$0")/.." && pwd)
. "$here/bench/cluster.sh"

usage() {
  sed -n '4,7s/^# *//p' "$0" >&2
  exit 2
}

into=
ours=
while [ $# -gt 0 ]; do
  case $1 in
    --into)
      [ $# -ge 2 ] || usage
      mkdir -p "$2"
      into=$(cd "$2" && pwd)
      shift 2
      ;;
    --ours)
      ours=yes
      shift
      ;;
    -*) usage ;;
    *) break ;;
  esac
done
[ $# -gt 0 ] || set -- "$here/examples/specs"
specs=()
for given in "$@"; do
  if [ -d "$given" ]; then
    for spec in "$given"/*.spec; do [ ! -e "$spec" ] || specs+=("$spec"); done
  elif [ -f "$given" ]; then
    specs+=("$given")
  else
    usage
  fi
done
if ! has_real; then
  echo "bench/real.sh needs the server and the isolationtester of PostgreSQL 15. On Debian 12: apt-get install postgresql-15 postgresql-client-15" >&2
  echo "(that starts a cluster of Debian's own too, which this script doesn't use)" >&2
  exit 2
fi

room=$(mktemp -d)
finish() {
  stop_cluster
  rm -rf "$room"
}
trap finish EXIT
start_cluster "$room"
export PGISOLATIONTIMEOUT=${PGISOLATIONTIMEOUT-5}

# sql DATABASE STATEMENT
sql() {
  "$lib/bin/psql" -X -q -h "$room/socket" -U tester -d "$1" -c "$2"
}

# runs SPEC in a database of its own; its text goes to $room/out, and its status to $status: 124 where it was cut
run() {
  sql postgres 'CREATE DATABASE spec'
  status=0
  timeout -k 1 30 "$real" "host=$room/socket user=tester dbname=spec" < "$1" > "$room/out" 2> "$room/err" || status=$?
  sql postgres 'DROP DATABASE spec WITH (FORCE)'
}

# expects SPEC NAME: the text to compare with is $expected; is_refused says whether our own tool refuses the file
expects() {
  is_refused=
  if [ -n "$ours" ]; then
    expected=$room/ours
    "$here/isolationtester" < "$1" > "$expected" 2> "$room/ours.err" || true
    [ -s "$expected" ] || is_refused=yes
    return
  fi
  expected=$(dirname "$1")/$2.out
  [ -e "$expected" ] || expected=$(dirname "$1")/../expected/$2.out
  [ -e "$expected" ] || expected=/dev/null
}

equal=0
differ=0
refused=0
cut=0
for spec in "${specs[@]+"${specs[@]}"}"; do
  name=$(basename "$spec" .spec)
  run "$spec"
  expects "$spec" "$name"
  if [ "$status" = 124 ] || [ "$status" = 137 ]; then
    cut=$((cut + 1))
    echo "$name: cut after 30 seconds"
  elif [ -n "$is_refused" ] && [ "$status" != 0 ] && [ ! -s "$room/out" ]; then
    refused=$((refused + 1))
    echo "$name: both refuse it"
    sed 's/^/    ours: /' "$room/ours.err"
    sed 's/^/    standard error: /' "$room/err"
  elif cmp -s "$expected" "$room/out"; then
    equal=$((equal + 1))
  else
    differ=$((differ + 1))
    if [ "$expected" = /dev/null ]; then echo "$name: no expected text"; else echo "$name differs:"; fi
    diff "$expected" "$room/out" | sed 's/^/    /' || true
    [ -z "$is_refused" ] || sed 's/^/    ours: /' "$room/ours.err"
    grep -v '^unused step name' "$room/err" | sed 's/^/    standard error: /' || true
  fi
  [ -z "$into" ] || cp "$room/out" "$into/$name.out"
done
echo "$equal equal, $differ differ, $refused refused by both, $cut cut"
[ "$differ" = 0 ] && [ "$cut" = 0 ]
