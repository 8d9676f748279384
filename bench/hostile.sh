#!/usr/bin/env bash
# Feeds the isolation tester files that mean it ill: bench/hostile.sh [FILES [SEED]]. It needs ./build first, and Python.
#
# First come a file that is cut at each of its bytes, the files that are as deep and as wide as they may be, on a small stack and in little memory, and in less and less
# of it, a reader that gives a byte a time, an output whose reader is gone, at once or behind one line, one that is full, errors that are full, and an input that can't be
# read. Then FILES files, 100,000 if not said: random bytes, random tokens, damaged examples, and specs of random statements, a quarter of each. Each has to end within a
# second, by itself, with a status and texts that go together: 0 and no fault, or 1 and a fault line, the last of the errors; where the file is refused nothing is put out.
# One in fifty runs twice, and both put the same. Each case has a line; the status is 0 where all are well.
set -eu
here=$(cd "$(dirname "$0")/.." && pwd)
. "$here/tools/built.sh"
is_built isolationtester || { echo "bench/hostile.sh needs ./build first" >&2; exit 2; }
exec python3 - "$here" "${1:-100000}" "${2:-1}" << 'EOF'
import glob
import os
import random
import re
import resource
import subprocess
import sys
import tempfile
import threading
import time
from concurrent.futures import ThreadPoolExecutor

here, files, seed = sys.argv[1], int(sys.argv[2]), int(sys.argv[3])
program = f"{here}/crates/isolationtester/out/isolationtester"
room = tempfile.mkdtemp()
wrong = 0

# Files are told to stop early, since the interleavings of a damaged one may be many.
LIMIT = ["--limit", "20"]
# The longest that a file may take, in seconds, and the longest that is waited for it.
LONGEST, PATIENCE = 1.0, 60.0

FAULT = re.compile(rb"isolationtester: ([A-Z]\d+) [^\n]+\n\Z")
# The faults that come behind the first line of the output.
LATER = {b"R6", b"R7", b"R9"}
HEAD = b"Parsed test spec with "

TOKENS = (
    "session s1 s2 step a b c setup teardown permutation notices { } ( ) * , \" ' ; -- # /* */ \n SELECT INSERT INTO UPDATE DELETE FROM WHERE SET VALUES CREATE TABLE "
    "DROP PRIMARY KEY UNIQUE NOT NULL int bigint text boolean BEGIN COMMIT ROLLBACK ABORT ISOLATION LEVEL READ COMMITTED REPEATABLE SERIALIZABLE FOR SHARE NO NOWAIT "
    "SKIP LOCKED ON CONFLICT DO NOTHING RETURNING ORDER BY DESC ASC LIMIT AND OR IN IS BETWEEN TRUE FALSE count sum min max t k v 0 1 7 2147483648 9223372036854775808 "
    "+ - / % = < > <= >= <> != || . AS IF EXISTS"
).split(" ")
OPENERS = ("", "session s step a { ", "setup { CREATE TABLE t (k int PRIMARY KEY, v int); } session s step a { ", "session s1 step a { SELECT 1; } session s2 step b { ")
EXAMPLES = [open(it, "rb").read() for it in sorted(glob.glob(f"{here}/examples/*/*.spec"))]
EXAMPLES = [it for it in EXAMPLES if len(it) < 20000]


def random_bytes(rng):
    length = int(2 ** rng.uniform(0, 11))
    if rng.random() < 0.5:
        return rng.randbytes(length)
    return bytes(rng.choice(b" \n\t{}()'\";,*-#/abcstepsession019\xc3\xa9\x00\xff") for _ in range(length))


def random_tokens(rng):
    words = [rng.choice(TOKENS) for _ in range(int(2 ** rng.uniform(0, 9)))]
    closed = " }" if rng.random() < 0.5 else ""
    return (rng.choice(OPENERS) + " ".join(words) + closed).encode()


def damaged_once(text, rng):
    at = rng.randrange(len(text) + 1)
    to = min(len(text), at + int(2 ** rng.uniform(0, 8)))
    kind = rng.randrange(6)
    if kind == 0:
        return text[:at] + text[to:]
    if kind == 1:
        return text[:to] + text[at:]
    if kind == 2:
        return text[:at] + rng.choice(TOKENS).encode() + text[at:]
    if kind == 3:
        return text[:at] + bytes([rng.randrange(256)]) + text[at + 1 :]
    if kind == 4:
        return text[:at]
    other = rng.choice(EXAMPLES)
    from_there = rng.randrange(len(other) + 1)
    return text[:at] + other[from_there : from_there + (to - at)] + text[to:]


def damaged(rng):
    text = rng.choice(EXAMPLES)
    for _ in range(rng.randint(1, 4)):
        text = damaged_once(text, rng)
    return text


STATEMENTS = (
    "SELECT {e} FROM t WHERE {c}", "SELECT k, v FROM t WHERE {c} ORDER BY {e} DESC", "SELECT * FROM t ORDER BY k {f}", "SELECT count(*), sum({e}) FROM t WHERE {c}",
    "UPDATE t SET v = {e} WHERE {c}", "UPDATE t SET k = {e} WHERE {c} RETURNING k, v", "DELETE FROM t WHERE {c}", "DELETE FROM t RETURNING v", "INSERT INTO t VALUES ({n}, {e})",
    "INSERT INTO t VALUES ({n}, {n}), ({n}, {n}) ON CONFLICT DO NOTHING RETURNING *", "BEGIN", "BEGIN ISOLATION LEVEL REPEATABLE READ", "COMMIT", "ROLLBACK", "SELECT {n} / {n}",
)
LOCKING = ("", "", "FOR UPDATE", "FOR NO KEY UPDATE", "FOR SHARE", "FOR KEY SHARE NOWAIT", "FOR UPDATE SKIP LOCKED", "FOR UPDATE NOWAIT")


def statement(rng):
    number = lambda: str(rng.choice((0, 1, 2, 3, 7, 2147483647, "NULL")))
    operand = lambda: rng.choice(("k", "v", number()))
    expression = f"{operand()} {rng.choice('+-*/')} {operand()}" if rng.random() < 0.5 else operand()
    condition = rng.choice((f"k = {number()}", f"v < {number()}", f"k IN ({number()}, {number()})", "v IS NOT NULL", f"{expression} <> {number()}", "TRUE"))
    text = rng.choice(STATEMENTS)
    while "{n}" in text:
        text = text.replace("{n}", number(), 1)
    return text.replace("{e}", expression).replace("{c}", condition).replace("{f}", rng.choice(LOCKING))


def spec_of_random_statements(rng):
    rows = ", ".join(f"({k}, {rng.randrange(9)})" for k in range(rng.randrange(1, 5)))
    text = f"setup {{ CREATE TABLE t (k int PRIMARY KEY, v int); INSERT INTO t VALUES {rows}; }}\nteardown {{ DROP TABLE t; }}\n"
    names = []
    for session in range(rng.randint(1, 4)):
        text += f"session s{session}\n"
        for step in range(rng.randint(1, 3)):
            names.append(f"s{session}_{step}")
            text += f"step {names[-1]} {{ {'; '.join(statement(rng) for _ in range(rng.randint(1, 3)))}; }}\n"
    for _ in range(rng.randint(0, 2)):
        entries = rng.sample(names, len(names))
        text += "permutation " + " ".join(it + rng.choice(("", "", "", "(*)", f"({rng.choice(names)})")) for it in entries) + "\n"
    text = text.encode()
    return damaged_once(text, rng) if rng.random() < 0.2 else text


KINDS = (("random bytes", random_bytes), ("random tokens", random_tokens), ("damaged examples", damaged), ("specs of random statements", spec_of_random_statements))


def ran(text, words=LIMIT):
    """Runs the program on this text. Returns its status, output and errors, and how many seconds it took."""
    began = time.monotonic()
    try:
        it = subprocess.run([program, *words], input=text, capture_output=True, timeout=PATIENCE)
    except subprocess.TimeoutExpired:
        return None, b"", b"", PATIENCE
    return it.returncode, it.stdout, it.stderr, time.monotonic() - began


def misfit(status, out, err):
    """Returns what doesn't go together in what a run gave, or nothing."""
    told = FAULT.search(err)
    if status is None:
        return "it didn't end"
    if status == 0:
        return "a fault at status 0" if told else None if out.startswith(HEAD) else "no first line"
    if status != 1:
        return f"status {status}"
    if not told:
        return "no fault line at status 1"
    if told[1] in LATER:
        return None if out.startswith(HEAD) else "no first line"
    return "an output of a file that is refused" if out else None


def tried(number):
    """Makes and runs the file of this number. Returns its kind, its status, and what is wrong with it, if something is."""
    rng = random.Random(f"{seed} {number}")
    name, make = KINDS[number % len(KINDS)]
    text = make(rng)
    status, out, err, took = ran(text)
    if took > LONGEST:
        took = ran(text)[3]
    why = misfit(status, out, err) or (f"it took {took:.1f} s" if took > LONGEST else None)
    if not why and number % 50 == 0 and ran(text)[:3] != (status, out, err):
        why = "it put something else the second time"
    if why:
        with open(f"{room}/{number}.spec", "wb") as it:
            it.write(text)
    return name, status, why


def says(what, is_well, more=""):
    global wrong
    wrong += not is_well
    print(f"{what}: {'well' if is_well else 'WRONG'}{more}", flush=True)


def random_files():
    counts, bad = {}, []
    with ThreadPoolExecutor(os.cpu_count()) as pool:
        for number, (name, status, why) in enumerate(pool.map(tried, range(files), chunksize=64)):
            counts[name, status] = counts.get((name, status), 0) + 1
            if why:
                bad.append(f"  file {number}, {name}: {why}, kept as {room}/{number}.spec")
    for name, _ in KINDS:
        ran_all = sum(count for (kind, _), count in counts.items() if kind == name)
        says(f"{ran_all} files of {name}", not any(name in it for it in bad), f", {counts.get((name, 0), 0)} ran to their end")
    for line in bad[:20]:
        print(line)


# Expressions of the most levels that there may be.
DEEPEST = ("(" * 63 + "1" + ")" * 63, "1" + "+1" * 64, "NOT " * 64 + "TRUE")
# A block of the most statements that there may be.
FULLEST = "; ".join(["SELECT 1"] * 256)


def widest():
    """Returns a file of 64 sessions and 1,000 steps, all of which stand in its permutation. Every fourth step is a block of 256 statements, the others a deepest expression."""
    names = [f"a{number}" for number in range(1000)]
    text = ""
    for session in range(64):
        text += f"session s{session} "
        for number in range(session, 1000, 64):
            text += f"step {names[number]} {{ {FULLEST if number % 4 == 3 else f'SELECT {DEEPEST[number % 4]}'} }} "
    return text + "permutation " + " ".join(names)


def deepest_and_widest():
    yield "64 sessions, 1,000 steps, deepest expressions and 256 statements in a block", widest()
    yield "1,000 steps of one session", "session s " + " ".join(f"step a{k} {{ SELECT {k}; }}" for k in range(1000))
    yield "a mebibyte of one INSERT's rows", "setup { CREATE TABLE t (v int); INSERT INTO t VALUES " + ",".join(["(1)"] * 250000) + "; } session s step a { SELECT count(*) FROM t; }"


def in_room(text, mebibytes):
    """Runs the program on this text, on a stack of a mebibyte, where no more may be mapped than so many."""

    def small():
        resource.setrlimit(resource.RLIMIT_STACK, (1 << 20, 1 << 20))
        resource.setrlimit(resource.RLIMIT_AS, (mebibytes << 20, mebibytes << 20))

    return subprocess.run([program], input=text.encode(), capture_output=True, preexec_fn=small, timeout=PATIENCE)


# Each of 64 threads has a stack of a mebibyte, and the C library keeps more of the address space than it uses.
ENOUGH = 6 << 10
# Where less than this may be mapped the program may not even be loaded.
LEAST = 16


def in_small_room():
    for what, text in deepest_and_widest():
        it = in_room(text, ENOUGH)
        says(f"{what}, on a stack of a mebibyte", it.returncode == 0 and it.stdout.startswith(HEAD), "" if it.returncode == 0 else f" (status {it.returncode}: {it.stderr[-100:]!r})")


def in_less_and_less_room():
    text = widest()
    whole = in_room(text, ENOUGH).stdout
    wants = (b"isolationtester: Memory\n", b"isolationtester: R10 Threads\n")
    bad, told, room = [], 0, ENOUGH
    while room >= LEAST:
        it = in_room(text, room)
        is_told = it.returncode == 3 and it.stderr in wants and whole.startswith(it.stdout)
        is_whole = (it.returncode, it.stdout, it.stderr) == (0, whole, b"")
        told += is_told
        bad += [] if is_told or is_whole else [f" ({room} MiB: status {it.returncode}, {it.stderr[-100:]!r})"]
        room = room * 7 // 8
    says("that file in less and less room", not bad and told, "".join(bad[:3]) or f", {told} times told as a want")


def byte_by_byte():
    text = open(f"{here}/examples/specs/delete_waits_and_does_not_rescan.spec", "rb").read()
    reader, writer = os.pipe()

    def write():
        for byte in text:
            os.write(writer, bytes([byte]))
        os.close(writer)

    threading.Thread(target=write).start()
    it = subprocess.run([program], stdin=reader, capture_output=True, timeout=PATIENCE)
    os.close(reader)
    says("a reader that gives a byte a time", (it.returncode, it.stdout, it.stderr) == ran(text, [])[:3])


READ, WRITE = b"isolationtester: R1 Read\n", b"isolationtester: R2 Write\n"


def bad_outputs(text):
    reader, writer = os.pipe()
    os.close(reader)
    it = subprocess.run([program], input=text, stdout=writer, stderr=subprocess.PIPE, timeout=PATIENCE)
    os.close(writer)
    says("an output whose reader is gone", (it.returncode, it.stderr) == (3, WRITE), f" (status {it.returncode}, {it.stderr!r})")
    with open("/dev/full", "wb") as full:
        it = subprocess.run([program], input=text, stdout=full, stderr=subprocess.PIPE, timeout=PATIENCE)
        says("a disk that is full", (it.returncode, it.stderr) == (3, WRITE), f" (status {it.returncode}, {it.stderr!r})")
        noted = open(f"{here}/examples/faults/teardown_would_wait.spec", "rb").read()
        it = subprocess.run([program], input=noted, stdout=subprocess.PIPE, stderr=full, timeout=PATIENCE)
        says("errors that are full", (it.returncode, it.stdout) == (3, ran(noted, [])[1]), f" (status {it.returncode}, {it.stdout!r})")


def only_one_line_is_read():
    # (its 3,432 permutations print more than a pipe holds)
    text = "".join(f"session {name} " + "".join(f"step {name}{k} {{ SELECT {k}; }} " for k in range(7)) for name in "st")
    with open(f"{room}/many.spec", "w", encoding="utf-8") as it:
        it.write(text)
    line = 'set +e; "$0" < "$1" 2> "$1.err" | head -1 > "$1.out"; echo ${PIPESTATUS[0]}'
    it = subprocess.run(["bash", "-c", line, program, f"{room}/many.spec"], capture_output=True, timeout=PATIENCE)
    came = it.stdout, open(f"{room}/many.spec.out", "rb").read(), open(f"{room}/many.spec.err", "rb").read()
    says("a reader that goes behind one line", came == (b"3\n", HEAD + b"2 sessions\n", WRITE), f" ({came!r})")


def bad_devices():
    bad_outputs(open(f"{here}/examples/specs/delete_waits_and_does_not_rescan.spec", "rb").read())
    only_one_line_is_read()
    folder = os.open(room, os.O_RDONLY)
    it = subprocess.run([program], stdin=folder, capture_output=True, timeout=PATIENCE)
    says("an input that can't be read", (it.returncode, it.stdout, it.stderr) == (3, b"", READ), f" (status {it.returncode}, {it.stderr!r})")


def cut_files():
    text = open(f"{here}/examples/specs/delete_waits_and_does_not_rescan.spec", "rb").read()
    came = [ran(text[:length], []) for length in range(len(text) + 1)]
    bad = [length for length, it in enumerate(came) if misfit(*it[:3])]
    says(f"one file cut at each of its {len(text)} bytes", not bad, f" (at {bad[:5]})" if bad else f", {sum(it[0] == 0 for it in came)} cuts ran")


cut_files()
in_small_room()
in_less_and_less_room()
byte_by_byte()
bad_devices()
random_files()
print(f"seed {seed}: {wrong} cases went wrong")
sys.exit(1 if wrong else 0)
EOF
