#!/usr/bin/env bash
# Prints what happens at each level, as a table made from runs of the gallery's anomalies at Read Committed and at Repeatable Read.
#
#     bench/levels.sh           runs this project's tool
#     bench/levels.sh --real    runs PostgreSQL 15's own isolationtester, against a private server of release 15 (see bench/real.sh)
#
# The status is 0 where all are as the manual's Table 13.1 and Hermitage's rows for PostgreSQL have them.
set -eu
here=$(cd "$(dirname "$0")/.." && pwd)
. "$here/bench/cluster.sh"

case ${1-} in
  '') exec python3 "$here/tools/levels.py" "$here/isolationtester" ;;
  --real) ;;
  *)
    echo "bench/levels.sh [--real]" >&2
    exit 2
    ;;
esac
has_real || { echo "bench/levels.sh --real needs the server and the isolationtester of PostgreSQL 15" >&2; exit 2; }
room=$(mktemp -d)
finish() {
  stop_cluster
  rm -rf "$room"
}
trap finish EXIT
start_cluster "$room"
python3 "$here/tools/levels.py" "$real" "host=$room/socket user=tester dbname=postgres"
