#!/usr/bin/env bash
# Damages texts of the examples, draws each as a picture, and has xmllint read it: bench/pictures.sh [COUNT [SEED]], 1000 and 1 without them.
# It needs ./build timeline and xmllint (Debian: libxml2-utils). A damaged text is drawn as well-formed XML, or refused with a line and status 1; the
# status is 0 where that holds of all.
set -eu
here=$(cd "$(dirname "$0")/.." && pwd)
. "$here/tools/built.sh"
program=${TIMELINE-$here/crates/timeline/out/timeline}
[ -n "${TIMELINE-}" ] || is_built timeline || { echo "bench/pictures.sh needs ./build timeline first" >&2; exit 2; }
exec python3 - "$program" "$here/examples" "${1-1000}" "${2-1}" << 'EOF'
import os
import random
import subprocess
import sys

program, examples, count, seed = sys.argv[1], sys.argv[2], int(sys.argv[3]), int(sys.argv[4])
chance = random.Random(seed)
names = sorted(it[:-5] for it in os.listdir(f"{examples}/specs") if it.endswith(".spec") and not it.startswith("most_"))
PIECES = (b"]]>", b"<![CDATA[", b"&", b"<", b">", b'"', b"'", b"\0", b"\x1b[31m", b"\x7f", b"\r", b"\t", b"\xc2\x85", b"\xef\xbf\xbf", b"\xff",
          b"\nstarting permutation: x\n", b"\nstarting free run\n", b"\nstep ", b" <waiting ...>\n", b"x" * 5000)


def damaged(text):
    text = bytearray(text)
    for _ in range(chance.randint(1, 8)):
        at = chance.randrange(len(text) + 1)
        way = chance.randrange(3)
        if way == 0:
            text[at:at] = chance.choice(PIECES)
        elif way == 1:
            del text[at:at + chance.randint(1, 40)]
        elif at < len(text):
            text[at] = chance.randrange(128)
    return bytes(text)


drawn, refused, wrong = 0, 0, 0
for number in range(count):
    name = chance.choice(names)
    with open(f"{examples}/expected/{name}.out", "rb") as it:
        text = damaged(it.read())
    ran = subprocess.run([program, "--svg", f"{examples}/specs/{name}.spec"], input=text, capture_output=True)
    if ran.returncode == 1 and not ran.stdout and ran.stderr:
        refused += 1
    elif ran.returncode == 0 and subprocess.run(["xmllint", "--noout", "-"], input=ran.stdout, capture_output=True).returncode == 0:
        drawn += 1
    else:
        wrong += 1
        print(f"number {number}, {name}: status {ran.returncode}: {ran.stderr[:200]!r}")
print(f"{drawn} drawn as well-formed XML, {refused} refused, {wrong} wrong")
sys.exit(1 if wrong or not drawn else 0)
EOF
