#!/usr/bin/env bash
# Times sorting of 1,000 and of 10,000 rows by one key. Prove and build the program first: rt run in crates/timings
set -eu
here=$(cd "$(dirname "$0")/.." && pwd)
for _ in 1 2 3 4 5; do "$here/crates/timings/out/timings" sorting 2>&1 > /dev/null; done | sort -t: -k1,1 -k2,2n | awk -F: '!seen[$1]++'
