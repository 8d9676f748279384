#!/usr/bin/env bash
# Looks that the programs and scripts around the isolation tester do what their pages say: timeline, outcomes, regress, install, and calls through a symbolic
# link; and that `outcomes` prints each text of crates/outcomes/data, byte for byte. It needs ./build all and Python, and takes some seconds. Each case has a line;
# the status is 0 where all are well.
set -eu
here=$(cd "$(dirname "$0")/.." && pwd)
. "$here/tools/built.sh"
for name in isolationtester timeline outcomes; do
  is_built "$name" || { echo "bench/scripts.sh needs ./build all first" >&2; exit 2; }
done
exec python3 - "$here" << 'EOF'
import os
import pty
import re
import shutil
import subprocess
import sys
import tempfile
import time
import xml.etree.ElementTree as tree

here, room = sys.argv[1], tempfile.mkdtemp()
wrong = 0

FREE_SPEC = """setup { CREATE TABLE t (k int PRIMARY KEY, v int); INSERT INTO t VALUES (1, 0); }
teardown { DROP TABLE t; }
session s1 step a { BEGIN; UPDATE t SET v = v + 1 WHERE k = 1; } step ac { COMMIT; }
session s2 step b { UPDATE t SET v = v + 1 WHERE k = 1; SELECT v FROM t; }
"""
FREE_TEXT = """Parsed test spec with 2 sessions

starting free run
step a: BEGIN; UPDATE t SET v = v + 1 WHERE k = 1;
step a: statement 1
step a: statement 2
step b: UPDATE t SET v = v + 1 WHERE k = 1; SELECT v FROM t;
step b: statement 1 <waiting ...>
step ac: COMMIT;
step ac: statement 1
step b: statement 1
step b: statement 2
v
-
2
(1 row)

"""
ONE_SPEC = "session s setup { BEGIN ISOLATION LEVEL REPEATABLE READ; } step a { SELECT 1; }\n"


def text_of(steps):
    return f"Parsed test spec with 1 sessions\n\nstarting permutation: a\n{steps}".encode()


def put(name, text):
    path = f"{room}/{name}"
    os.makedirs(os.path.dirname(path), exist_ok=True)
    with open(path, "wb") as it:
        it.write(text.encode() if isinstance(text, str) else text)
    return path


def run(words, text=b"", at=None):
    return subprocess.run(words, input=text, capture_output=True, cwd=at or room)


def told_on_a_terminal(words, text):
    """Returns what a program writes to its errors where they are a terminal."""
    there, its = pty.openpty()
    with subprocess.Popen(words, stdin=subprocess.PIPE, stdout=subprocess.DEVNULL, stderr=its) as ran:
        os.close(its)
        ran.communicate(text)
    told = b""
    try:
        while more := os.read(there, 4096):
            told += more
    except OSError:
        # (of a terminal that nobody has open any more)
        pass
    os.close(there)
    return told


def case(claim, well):
    global wrong
    wrong += not well
    print(f"{'ok' if well else 'NOT OK'}: {claim}", flush=True)


def is_xml(text):
    try:
        return tree.fromstring(text.decode()).tag.endswith("svg")
    except (tree.ParseError, UnicodeDecodeError):
        return False


def drawn(spec, text, *words):
    return run([f"{here}/timeline", *words, put("a.spec", spec)], text)


def is_refused(ran):
    return ran.returncode == 1 and not ran.stdout and ran.stderr.startswith(b"Error: ")


def timeline():
    for claim, bytes_given in (("]]> and >", b"a ]]> b > c"), ("& and <", b"<a> & </svg>"), ("NUL", b"a\0b"), ("control bytes", b"\x01\x1b[31m\x7f"), ("U+FFFF", b"\xef\xbf\xbf")):
        ran = drawn(ONE_SPEC, text_of("step a: SELECT 1;\n").replace(b"SELECT 1", bytes_given), "--svg")
        case(f"timeline --svg: a text with {claim} gives well-formed XML", ran.returncode == 0 and is_xml(ran.stdout))
    ran = drawn(FREE_SPEC, FREE_TEXT.encode())
    lines = [line for line in ran.stdout.decode().split("\n") if "statement" in line]
    case("timeline: a free run is drawn in the order of its lines", ran.returncode == 0 and len(lines) == 6 and "waiting" in lines[2] and lines[2].index("statement") > lines[0].index("statement"))
    case("timeline --svg: a free run is a picture", is_xml(drawn(FREE_SPEC, FREE_TEXT.encode(), "--svg").stdout))
    for claim, text in (("an empty text", b""), ("a spec file in place of a text", FREE_SPEC.encode()), ("a text of one line", b"Parsed test spec with 2 sessions\n\n"), ("a text that is no UTF-8", b"\xff\xfe")):
        case(f"timeline: {claim} is refused with its reason and status 1", is_refused(drawn(FREE_SPEC, text)))
    began = time.monotonic()
    name = "n" * 100000
    ran = drawn(f"session s step {name} {{ SELECT 1; }}\n", f"Parsed test spec with 1 sessions\n\nstarting permutation: {name}\nstep {name}: SELECT 1;\n".encode())
    case("timeline: a name of 100,000 letters is drawn in less than ten seconds", ran.returncode == 0 and time.monotonic() - began < 10)
    case("timeline: the level of a BEGIN in a setup stands behind the session's name", b"s (Repeatable Read)" in drawn(ONE_SPEC, text_of("step a: SELECT 1;\n")).stdout)
    case("timeline --svg: so it does in a picture", b"Repeatable Read" in drawn(ONE_SPEC, text_of("step a: SELECT 1;\n"), "--svg").stdout)
    for words, status in ((["--help"], 0), ([], 2), (["--png", "a.spec"], 2), (["--split"], 2)):
        ran = run([f"{here}/timeline", *words])
        said = ran.stdout if status == 0 else ran.stderr
        case(f"{' '.join(['timeline', *words])}: how to call it, with status {status}", ran.returncode == status and said.startswith(b"timeline [--svg]"))
    spec = f"{here}/examples/specs/serialization_failure.spec"
    with open(f"{here}/examples/expected/serialization_failure.out", "rb") as it:
        text = it.read()
    whole = run([f"{here}/timeline", "--svg", spec], text).stdout
    ran = run([f"{here}/timeline", "--svg", "--split", "p", spec], text)
    parts = sorted(it for it in os.listdir(room) if re.fullmatch(r"p\d+\.svg", it))
    height = lambda picture: float(tree.fromstring(picture.decode()).get("height"))
    pictures = [open(f"{room}/{it}", "rb").read() for it in parts]
    case("timeline --split: a picture for each permutation, none as high as all", ran.returncode == 0 and len(parts) == text.count(b"starting permutation") > 1 and all(is_xml(it) and height(it) < height(whole) for it in pictures))


def outcomes():
    folder = f"{here}/crates/outcomes/data"
    names = sorted(it[: -len(".spec")] for it in os.listdir(f"{folder}/specs"))
    for name in names:
        with open(f"{folder}/specs/{name}.spec", "rb") as spec, open(f"{folder}/expected/{name}.out", "rb") as text:
            ran = run([f"{here}/outcomes"], spec.read())
            case(f"outcomes: the example {name} prints its text, with status 0", ran.returncode == 0 and ran.stdout == text.read())
    with open(f"{folder}/specs/write_skew_at_repeatable_read.spec", "rb") as it:
        spec = it.read()
    with open("/dev/full", "w") as full:
        ran = subprocess.run([f"{here}/outcomes"], input=spec, stdout=full, stderr=subprocess.PIPE)
    case("outcomes: a full device ends it with the line of a fault, with status 3", ran.returncode == 3 and ran.stderr == b"outcomes: R2 Write\n")
    case("outcomes --serial: an outcome that no serial order has gives status 4", run([f"{here}/outcomes", "--serial"], spec).returncode == 4)
    case("outcomes --limit: one permutation more ends the run, with status 1", b"R9 TooManyPermutations" in run([f"{here}/outcomes", "--limit", "69"], spec).stderr)
    a, b = (" ".join(f"step {name}{number} {{ SELECT {number}; }}" for number in range(9)) for name in "ab")
    told = told_on_a_terminal([f"{here}/outcomes"], f"session a {a} session b {b}\n".encode())
    case("outcomes: on a terminal it tells each second how many permutations have run, and takes that away", re.fullmatch(rb"(\r\d+ permutations)+\r\x1b\[K", told))
    for words, status in ((["--help"], 0), (["--nothing"], 2), (["--limit"], 2)):
        ran = run([f"{here}/outcomes", *words], b"")
        said = ran.stderr if status else ran.stdout
        case(f"{' '.join(['outcomes', *words])}: how to call it, with status {status}", ran.returncode == status and said.startswith(b"outcomes [--html]"))


def links():
    os.makedirs(f"{room}/bin")
    for name in ("isolationtester", "timeline", "regress"):
        os.symlink(f"{here}/{name}", f"{room}/bin/{name}")
    spec, text = f"{here}/examples/specs/phantom.spec", open(f"{here}/examples/expected/phantom.out", "rb").read()
    case("isolationtester works through a symbolic link", run([f"{room}/bin/isolationtester"], open(spec, "rb").read()).stdout == text)
    case("timeline works through a symbolic link", run([f"{room}/bin/timeline", spec], text).returncode == 0)


def suites():
    shutil.copytree(f"{here}/examples/specs", f"{room}/suite/specs")
    shutil.copytree(f"{here}/examples/expected", f"{room}/suite/expected")
    of = len(os.listdir(f"{room}/suite/specs"))
    regress = lambda *words: run([f"{here}/regress", "suite", *words])
    ran = regress()
    lines = ran.stdout.decode().split("\n")
    case("regress: all of examples/ pass, as TAP", ran.returncode == 0 and f"1..{of}" in lines and sum(it.startswith("ok ") for it in lines) == of)
    expected = f"{room}/suite/expected/phantom.out"
    right = open(expected, "rb").read()
    put("suite/expected/phantom.out", right.replace(b"\nCid", b"\nDan", 1))
    ran = regress()
    said, told = ran.stdout.decode(), open(f"{room}/suite/regression.diffs").read()
    case("regress: a damaged text fails alone, with status 1 and its difference", ran.returncode == 1 and said.count("not ok") == 1 and f"# 1 of {of} tests failed." in said and "-Dan" in told and "+Cid" in told)
    put("suite/expected/phantom_1.out", right)
    case("regress: a second text, NAME_1.out, is enough", regress("phantom").returncode == 0)
    os.remove(f"{room}/suite/expected/phantom_1.out")
    regress("--update", "phantom")
    case("regress --update writes the text that was printed", open(expected, "rb").read() == right and regress("phantom").returncode == 0)
    put("suite/specs/refused.spec", "session s step a { SELEC; }\n")
    case("regress: a file that is refused fails, whatever its text", regress("refused").returncode == 1)
    case("regress: a name, a folder or a program that isn't there is refused", regress("nothing").returncode == 2 and run([f"{here}/regress", "nowhere"]).returncode == 2 and regress("--program", "nowhere").returncode == 2)


def installed():
    ran = run([f"{here}/install", f"{room}/prefix"])
    files = ("bin/isolationtester", "bin/timeline", "bin/outcomes", "share/man/man1/isolationtester.1", "share/man/man1/timeline.1", "share/man/man1/outcomes.1", "share/bash-completion/completions/isolationtester")
    case("install: programs, manual pages and completions are under the prefix", ran.returncode == 0 and all(os.path.isfile(f"{room}/prefix/{it}") for it in files))
    spec, text = (open(f"{here}/examples/{it}", "rb").read() for it in ("specs/phantom.spec", "expected/phantom.out"))
    case("install: the installed program prints what is expected", run([f"{room}/prefix/bin/isolationtester"], spec).stdout == text)
    case("install: regress runs it by --program", run([f"{here}/regress", "--program", f"{room}/prefix/bin/isolationtester", "suite", "phantom"]).returncode == 0)


try:
    timeline()
    outcomes()
    links()
    suites()
    installed()
finally:
    shutil.rmtree(room)
print(f"{wrong} not well" if wrong else "all well")
sys.exit(1 if wrong else 0)
EOF
