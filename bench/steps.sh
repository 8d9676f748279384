#!/usr/bin/env bash
# Builds the program and times one step of a SELECT and of an INSERT on a table of 10, 100 and 1,000 rows: the least of five runs.
set -eu
here=$(cd "$(dirname "$0")/.." && pwd)
cd "$here/crates/timings"
rt run > /dev/null
for _ in 1 2 3 4 5; do out/timings steps 2>&1 > /dev/null; done | sort -t: -k1,1 -k2,2n | awk -F: '!seen[$1]++'
