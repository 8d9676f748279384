#!/usr/bin/env bash
# Times the built program on the longest file, on 1,000 steps and on a mebibyte of permutation lines and its half.
# Prints milliseconds, the best of five runs. Build the program first: ./build
set -eu
here=$(cd "$(dirname "$0")/.." && pwd)
program="$here/crates/isolationtester/out/isolationtester"
room=$(mktemp -d)
trap 'rm -rf "$room"' EXIT

best() {
  local best=
  for _ in 1 2 3 4 5; do
    local from to us
    # the shell's own clock: it needs no process that would be timed too
    from=${EPOCHREALTIME/[.,]/}
    "$program" < "$1" > "$room/out" || true
    to=${EPOCHREALTIME/[.,]/}
    us=$((to - from))
    if [ -z "$best" ] || [ "$us" -lt "$best" ]; then best=$us; fi
  done
  printf '%-44s %6d.%02d ms, %9d bytes out\n' "$2" $((best / 1000)) $((best % 1000 / 10)) "$(wc -c < "$room/out")"
}

python3 - "$room" <<'PY'
import sys
room = sys.argv[1]
literals = "session s step a { SELECT 1; } step b { SELECT 22, 2147483647 }\n"
open(f"{room}/newlines", "w").write(literals + "\n" * (1048576 - len(literals)))
block = "session s step a { SELECT 1" 
body = block + ", 1" * ((1048576 - len(block) - 2) // 3)
open(f"{room}/numbers", "w").write(body + " }")
open(f"{room}/steps", "w").write("session s " + " ".join(f"step a{k} {{ SELECT {k}; }}" for k in range(1000)))
def lines(size):
    head = "session s step a { } step b { }\n"
    line = "permutation a b b a\n"
    return head + line * ((size - len(head)) // len(line))
open(f"{room}/half", "w").write(lines(524288))
open(f"{room}/whole", "w").write(lines(1048576))
PY
best "$room/newlines" "two steps and newlines, 1,048,576 bytes"
best "$room/numbers" "a SELECT of 349,512 numbers, 1,048,576 bytes"
best "$room/steps" "1,000 steps of one literal"
best "$room/half" "permutation lines, 524,288 bytes"
best "$room/whole" "permutation lines, 1,048,576 bytes"
