#!/usr/bin/env bash
# Times spec_tokens and parse_spec on files of half a mebibyte and of one, the least of fifty readings in five runs, and says how many times as long the
# second takes. Prove and build the program first: rt run in crates/timings
# The C library is told to keep freed memory, so that the times are those of reading and not of pages that are new to the process.
set -eu
here=$(cd "$(dirname "$0")/.." && pwd)
export MALLOC_MMAP_THRESHOLD_=1073741824 MALLOC_TRIM_THRESHOLD_=4294967296
program="$here/crates/timings/out/timings"
for _ in $(seq 5); do "$program" reading 2>&1 > /dev/null; done | awk -F';' '
  { key = $1 ";" $2 }
  !(key in lexer) { order[++n] = key; lexer[key] = $3; parser[key] = $4 }
  $3 < lexer[key] { lexer[key] = $3 }
  $4 < parser[key] { parser[key] = $4 }
  END {
    for (i = 1; i <= n; i += 2) {
      a = order[i]; b = order[i + 1]; split(a, half, ";"); split(b, whole, ";")
      printf "%s: spec_tokens %d µs for %d bytes, %d µs for %d: %.2f times as long\n", half[1], lexer[a], half[2], lexer[b], whole[2], lexer[b] / lexer[a]
      printf "%s: parse_spec %d µs for %d bytes, %d µs for %d: %.2f times as long\n", half[1], parser[a], half[2], parser[b], whole[2], parser[b] / parser[a]
    }
  }'
