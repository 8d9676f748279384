"""What the scripts of this repository share: the crates, by the kit's command rt; what is looked at before any proof; what each wrong body was tried on."""
import copy
import hashlib
import importlib.machinery
import importlib.util
import os
import re
import shutil
import subprocess
import sys
import tempfile
import threading

TOP = os.path.dirname(os.path.dirname(os.path.realpath(__file__)))
TRIED = f"{TOP}/wrong_bodies.txt"
# Wrong bodies that the gate tries each time, those that ./wrong-bodies tries, and those that are proved as well as the right one, so that only tests tell
# them; of both the latter those that are due to be tried on the text as it stands.
DUE = ("wrong_bodies/due", "wrong_bodies/by_tests/due")
ROOMS = ("must-fail", "wrong_bodies", "wrong_bodies/by_tests", *DUE)
# The crate whose tests tell them, and how many seconds its tests may take on a wrong body.
TELLS, PATIENCE = "thread_tests", 600


def load():
    """Returns rt as a module, so that crates are proved and edits are judged here just as the gate does it."""
    found = shutil.which("rt")
    if not found:
        sys.exit("rt, the command of the Rattle kit, is not on the path")
    sys.dont_write_bytecode = True
    loader = importlib.machinery.SourceFileLoader("rt", os.path.realpath(found))
    made = importlib.util.module_from_spec(importlib.util.spec_from_loader("rt", loader))
    loader.exec_module(made)
    # (its first call sets a signal's handler, which only the main thread may)
    made.rtlib.guarded()
    return made


rt = load()
rtlib = rt.rtlib


SUMS = threading.local()


def sum_once(stamp):
    """Returns the sum of what a crate is made from, as stamp does, where each crate below is summed once in a call, and not once for each way down to it."""

    def summed(crate):
        outer = getattr(SUMS, "known", None)
        known = SUMS.known = {} if outer is None else outer
        try:
            if crate.name not in known:
                known[crate.name] = stamp(crate)
            return known[crate.name]
        finally:
            SUMS.known = outer

    return summed


rt.Crate.stamp = sum_once(rt.Crate.stamp)


class Kept(rt.Crate):
    """A crate that is proved by the gate's rules, but over what earlier checks of it kept in out/."""

    def words(self, flags, tests=False, keeps=True, as_source=False):
        return [*super().words(flags, tests, keeps, as_source), *rtlib.KEPT]

    def make(self, jobs):
        """Proves the crate and builds its library or program. Returns a status, 0 where all went well."""
        flags, to = ["--jobs", str(jobs)], f"out/{self.name}"
        os.makedirs(f"{self.folder}/out", exist_ok=True)
        if not self.is_program:
            return self.build_rlib(flags, anew=True)
        built = ["--toolchain", f"{rt.KIT}/toolchain", "--backend", "llvm", "-o", f"{to}.o"]
        return self.prove(["build", *self.words(flags), *built]) or self.link(f"{to}.o", to)

    def make_tests(self, jobs):
        """Proves and builds the crate's tests. Returns a status."""
        return self.ci(["--jobs", str(jobs)], tests=True)


class Stated(rt.Crate):
    """A crate whose library holds what others may cite of it, and not how that is proved, so that what stands on it loads less; what its check worked out isn't kept for
    the next one. By more jobs than two a check is sooner that keeps its work, and the library then holds all."""

    def words(self, flags, tests=False, keeps=True, as_source=False):
        several = "--jobs" in flags and int(flags[flags.index("--jobs") + 1]) > 2
        more = [] if self.is_program else rtlib.KEPT if several else ["--statements"]
        return [*super().words(flags, tests, keeps, as_source), *more]


def crates(kind=rt.Crate):
    """Returns all crates, lowest first."""
    if kind is Stated:
        rtlib.libraries_keep = lambda: False
    if kind is Kept:
        # (the gate refuses the word that a check over kept work ends its last line with)
        rtlib.VERDICT = re.compile(rtlib.VERDICT.pattern.replace("statements=trusted", "statements=trusted( incremental=trusted)?"), re.M)
    kind.allowed = rt.handles_of(TOP)
    rtlib.Crate = kind
    return sorted(rtlib.crates_below(f"{TOP}/crates"), key=lambda it: len(it.below()))


def quietly(crate, call):
    """Calls with a copy of the crate whose output is shown only where it fails. Returns whether all went well."""
    crate = copy.copy(crate)
    with tempfile.TemporaryFile("a+", errors="replace") as crate.out:
        try:
            status = call(crate)
        except SystemExit:
            status = 1
        if status:
            crate.out.seek(0)
            print(f"== {crate.name}\n{crate.out.read()}", end="", flush=True)
    return not status


def named(words, among):
    """Returns the crates with these names, all where none is given."""
    unknown = sorted({*words} - {it.name for it in among})
    if unknown:
        sys.exit(f"crates.txt names no crate {', '.join(unknown)}")
    return [it for it in among if not words or it.name in words]


def edits_in(crate, room):
    """Returns the edits that lie in one of the rooms of the crate."""
    folder = f"{crate.folder}/{room}"
    names = sorted(os.listdir(folder)) if os.path.isdir(folder) else []
    return [f"{folder}/{it}" for it in names if it.endswith(".edit")]


def refusals(crate, among):
    """Looks at what the gate looks at before any proof. Returns how many things are wrong; each is printed."""
    wrong = 0
    looks = [
        lambda: rtlib.stop_on_links(crate.folder),
        lambda: rtlib.stop_on_unread(crate.folder, among),
        lambda: rtlib.stop_on_text(crate, "verdict"),
        lambda: rt.stop_on_words(crate),
    ]
    for look in looks:
        try:
            look()
        except SystemExit:
            wrong += 1
    if rtlib.fmt(crate.folder, "--check", sys.stdout):
        print(f"{crate.name}: run rt fmt in its folder")
        wrong += 1
    for edit in [it for room in ROOMS for it in edits_in(crate, room)]:
        why = rt.read_edit(edit, crate.folder)[1]
        if why:
            print(f"{os.path.relpath(edit, TOP)}: {why}")
            wrong += 1
    return wrong


def pairs_of(edit):
    """Returns the changes of an edit, each as a file, what stands there, and what takes its place."""
    path, old, pairs = "", None, []
    for line in (rtlib.text_of(edit) or "").split("\n"):
        if line.startswith("file: "):
            path = line[len("file: ") :].strip()
        elif line.startswith("old: "):
            old = line[len("old: ") :]
        elif line.startswith("new:") and path and old:
            pairs.append((path, old, line[len("new:") :].removeprefix(" ")))
            old = None
    return pairs


def opener_of(line):
    """Returns what a line opens that stands in the paths of functions: of an impl the type and the trait, as the prover joins them, of a trait or module its name."""
    found = re.match(r"(?:pub(?:\([^)]*\))? )?(?:unsafe )?(trait|mod|impl)\b(.*)", line)
    if not found:
        return None
    rest = found[2].strip()
    while rest.startswith("<"):
        depth = 0
        for at, it in enumerate(rest):
            depth += (it == "<") - (it == ">" and rest[at - 1] != "-")
            if not depth:
                break
        rest = rest[at + 1 :].strip()
    names = [re.match(r"&?(?:\w+::)*(\w*)", it.strip())[1] for it in rest.partition("{")[0].partition(" where ")[0].split(" for ")]
    return names[1] + names[0] if found[1] == "impl" and len(names) == 2 else names[0]


def function_at(text, at):
    """Returns the function that stands at this place, with the impl, trait or module that it stands in, or nothing where none does."""
    before = [it for it in re.finditer(r"^( *)(?:pub(?:\([^)]*\))? )?(?:const )?(?:unsafe )?fn (\w+)", text[:at], re.M)]
    if not before or re.search(rf"^{before[-1][1]}}}$", text[before[-1].end() : at], re.M):
        return None
    path, indent = [before[-1][2]], len(before[-1][1])
    for line in reversed(text[: before[-1].start()].split("\n")):
        depth = len(line) - len(line.lstrip())
        if line.strip() and depth < indent and (name := opener_of(line.strip())):
            path, indent = [name, *path], depth
    return "::".join(path)


def name_of(crate, file, function):
    """Returns the name by which the prover knows a function of a file of the crate, as far as the file tells it: a method is named after its type's module, which is left out."""
    if "::" in function:
        return f"{crate.name}::..::{function}"
    parts = [it for it in file.removeprefix("src/").removesuffix(".rt").split("/") if it not in ("lib", "main", "mod")]
    return "::".join([crate.name, *parts, function])


def is_of(path, name):
    """Returns whether what the prover names by this path is the function of this name, or a closure in it."""
    plain = path.partition("+")[0].replace("::fn::", "::")
    first, is_method, rest = name.partition("::..::")
    if is_method:
        return plain.startswith(f"{first}::") and f"::{rest}::" in f"{plain}::"
    return f"{plain}::".startswith(f"{name}::")


# A declaration of a proof file that fails, and a function that isn't proved for a reason of its own (one that only calls another such says so).
STALE = re.compile(r"^(?:note: )?(?:\./)?(proofs/\S+?\.antt):\d+:\d+: error: (?:`([^`]+)`)?", re.M)
UNPROVED = re.compile(r"^fn (\S+): (?:not proved|no proof: (?!it calls))(.*)", re.M)
# How often declarations that fail are taken out, and the check made again.
ROUNDS = 4


def without(text, name):
    """Returns the text of a proof file without the declaration of this name."""
    left, within = [], False
    for line in text.split("\n"):
        if re.match(rf"(?:abbrev |opaque )*(?:pub )?{re.escape(name)} :", line):
            within = True
        elif within and line.strip() and line[0] not in " \t}" and not line.startswith(f"{name} "):
            within = False
        if not within:
            left.append(line)
    return "\n".join(left)


def with_what_fails_taken_out(crate, texts, said):
    """Returns the texts with the declarations taken out of proof files that the check failed at: they fit the right body and say nothing of this one. Nothing where there is none."""
    texts, taken = dict(texts), False
    for path, name in {(it[1], it[2]) for it in STALE.finditer(said)}:
        text = texts.get(path) or rtlib.text_of(f"{crate.folder}/{path}") or ""
        less = without(text, name) if name else text
        taken = taken or less != text
        texts[path] = less
    return texts if taken else None


def checked(crate, texts, kept):
    """Checks the crate with these texts, and again without the declarations of proof files that fail at them, until none does: a body counts as refused where the
    check fails still. Returns the last run, its texts, and whether declarations were taken out."""
    ran, taken = rt.checked(crate, texts, ["--jobs", "1"], kept), False
    for _ in range(ROUNDS):
        less = with_what_fails_taken_out(crate, texts, ran.stdout) if ran.returncode == 1 else None
        if less is None:
            break
        texts, taken = less, True
        ran = rt.checked(crate, texts, ["--jobs", "1"], kept)
    return ran, texts, taken


def is_refusal(ran, texts):
    """Returns whether the prover read these texts and doesn't prove them."""
    lines = ran.stdout.rstrip("\n").split("\n")
    return ran.returncode == 1 and lines[-1].startswith("logic=not-proved") and not any(rt.unread(it, texts) for it in lines) and not rtlib.STALE.search(ran.stdout)


class Batch:
    """Edits of different functions, to be tried in one check: a function is proved from the contracts of others, whatever their bodies are."""

    def __init__(self):
        self.texts, self.names, self.edits = {}, {}, []

    def takes(self, crate, edit):
        """Adds the edit, and returns whether that was possible."""
        texts, names = dict(self.texts), set()
        for path, old, new in pairs_of(edit):
            text = texts.get(path) or rtlib.text_of(f"{crate.folder}/{path}") or ""
            name = function_at(text, text.find(old))
            if text.count(old) != 1 or not name or name_of(crate, path, name) in self.names:
                return False
            texts[path] = text.replace(old, new)
            names.add(name_of(crate, path, name))
        self.texts = texts
        self.names.update({it: edit for it in names})
        self.edits.append(edit)
        return True

    def refused(self, crate, kept):
        """Returns the edits of which a function isn't proved, none where the check doesn't come that far. Functions that are proved as one say nothing of each."""
        ran, texts, _ = checked(crate, self.texts, kept)
        if not is_refusal(ran, texts):
            return set()
        failed = [(it[1], it[2]) for it in UNPROVED.finditer(ran.stdout) if "/+" not in it[2]]
        return {edit for name, edit in self.names.items() if any(is_of(path, name) for path, _ in failed)}


def tried_alone(crate, edit, kept):
    """Tries one edit. Returns whether it is refused, and what to say."""
    texts, why = rt.read_edit(edit, crate.folder)
    if not why:
        ran, texts, taken = checked(crate, texts, kept)
        if ran.returncode == 0 and taken:
            return False, f"{os.path.basename(edit)[:-5]}: NOT REFUSED: only declarations of proof files that fit the right body fail at it"
        if is_refusal(ran, texts) and UNPROVED.search(ran.stdout):
            return True, "refused"
    return judged(rt.must_fail(crate, edit, ["--jobs", "1"], kept))


def tried(crate, edits):
    """Tries edits of a proved crate over a copy of what its check kept. Returns for each whether it is refused, and what to say."""
    batches = []
    for edit in edits:
        if not any(len(it.edits) < 8 and it.takes(crate, edit) for it in batches):
            batches.append(Batch())
            batches[-1].takes(crate, edit)
    with tempfile.TemporaryDirectory(prefix="rt-edits-") as room:
        kept = shutil.copytree(f"{crate.folder}/{rtlib.KEPT[1]}", f"{room}/kept")
        refused = {edit for it in batches if len(it.edits) > 1 for edit in it.refused(crate, kept)}
        return [(True, "refused") if it in refused else tried_alone(crate, it, kept) for it in edits]


def judged(came_to):
    """Returns whether what a try came to is a refusal, and what the gate says of it."""
    kind, text = came_to
    # (a kit says whether the edit was refused, or in which way)
    return kind in (getattr(rt, "REFUSED", True), getattr(rt, "AT_LIMIT", True)), text


def teller_of(edit):
    """Returns the crate whose tests tell the edit: the one that its line 'by:' names, else that of threads."""
    found = re.search(r"^by: (\w+)$", rtlib.text_of(edit) or "", re.M)
    return found[1] if found else TELLS


def tested(teller, crate=None, edit=None):
    """Runs a crate's tests unproved, with an edit of another crate where one is given. Returns which of them fail, or nothing where they come to no end, and what they printed."""
    with tempfile.TemporaryDirectory(prefix="rt-edits-") as room:
        shutil.copytree(f"{TOP}/crates", f"{room}/crates", ignore=shutil.ignore_patterns("out", "data", "wrong_bodies", "must-fail"))
        shutil.copy(f"{TOP}/crates.txt", room)
        shutil.copy(f"{TOP}/HANDLES", room)
        for path, old, new in pairs_of(edit) if edit else []:
            at = f"{room}/crates/{crate.name}/{path}"
            text = rtlib.text_of(at) or ""
            with open(at, "w", encoding="utf-8") as it:
                it.write(text.replace(old, new))
        try:
            ran = subprocess.run(["rt", "try", "--test"], cwd=f"{room}/crates/{teller}", capture_output=True, text=True, timeout=PATIENCE)
        except subprocess.TimeoutExpired:
            return None, "no end"
        return re.findall(r"^test (\S+) \.\.\. (?!ok)", ran.stdout, re.M), ran.stdout + ran.stderr


def told_by_tests(crate, edit, right):
    """Tries an edit of a crate by the unproved tests that tell such ones. Returns whether a test fails, or comes to no end, that passes on the right body, and what was printed:
    right is what the tests come to there."""
    failed, said = tested(teller_of(edit), crate, edit)
    if failed is None or right is None:
        return failed != right, said
    told = [it for it in failed if it not in right]
    return bool(told), ", ".join(told) or said


def is_sound(crate):
    """Returns whether the crate without any edit is proved over a copy of what its check kept, as edits were tried: else their refusals say nothing."""
    with tempfile.TemporaryDirectory(prefix="rt-edits-") as room:
        kept = shutil.copytree(f"{crate.folder}/{rtlib.KEPT[1]}", f"{room}/kept")
        return not rt.checked(crate, {}, ["--jobs", "1"], kept).returncode


def rows_lacking(among):
    """Looks whether each wrong body has its row in docs/WRONG_BODIES.md, and each row its wrong body. Returns how many don't; each is printed."""
    rows, crate = set(), ""
    for line in (rtlib.text_of(f"{TOP}/docs/WRONG_BODIES.md") or "").splitlines():
        crate = line[4:-1] if line.startswith("## `") else crate
        if line.startswith(("| `", "| **`")):
            rows |= {(crate, name) for name in re.findall(r"`(\w+)`", line.split("|")[1])}
    edits = {(it.name, os.path.basename(edit)[:-5]) for it in among for room in ROOMS for edit in edits_in(it, room)}
    for crate, name in sorted(edits - rows):
        print(f"crates/{crate}: {name}.edit has no row in docs/WRONG_BODIES.md")
    for crate, name in sorted(rows - edits):
        print(f"docs/WRONG_BODIES.md: the crate {crate} has no edit {name}")
    return len(edits ^ rows)


def files_below(folder):
    return sorted(f"{at}/{it}" for at, _, names in os.walk(folder) for it in names)


def said_in(file):
    """Returns the lines of a file but for blank ones and those of comments alone, on which no refusal rests."""
    comment = {".antt": b"--", ".rt": b"//"}.get(os.path.splitext(file)[1])
    with open(file, "rb") as it:
        lines = it.read().split(b"\n")
    return [it for it in lines if it.strip() and not (comment and it.strip().startswith(comment))]


def definitions_below(crate, own):
    """Returns the files of the definitions of the crates below, where own are the crate's files: of those that only inner clauses use, what the crate itself names."""
    named = set(re.findall(rb"Rattle\.(\w+)\.specs\.Inner", b"\n".join(line for file in own for line in said_in(file))))
    found = [(low, file) for low in sorted(crate.below(), key=lambda it: it.name) for file in files_below(f"{low.folder}/specs")]
    return [file for low, file in found if low.name.encode() in named or not file.startswith(f"{low.folder}/specs/Inner")]


def state_of(crate):
    """Returns a sum of all that a wrong body's refusal rests on: the crate's text, its wrong bodies but for those that only tests tell, and the definitions of the crates below it."""
    own = [it for room in ("src", "specs", "proofs", "wrong_bodies") for it in files_below(f"{crate.folder}/{room}") if "/by_tests/" not in it]
    state = hashlib.sha256()
    for file in [*own, *definitions_below(crate, own)]:
        state.update(repr((os.path.relpath(file, TOP), said_in(file))).encode())
    return state.hexdigest()[:16]


def line_of(crate):
    """Returns the line that says that all wrong bodies of the crate, as it stands, are refused."""
    return f"{crate.name}: {len(edits_in(crate, 'wrong_bodies'))} refused, state {state_of(crate)}"


def line_of_told(crate):
    """Returns the line that says that all wrong bodies of the crate which only tests tell are told: a sum of them, of the crate's code, and of the tests that tell them."""
    edits = edits_in(crate, "wrong_bodies/by_tests")
    tellers = sorted({teller_of(it) for it in edits})
    state = hashlib.sha256()
    for file in [*edits, *files_below(f"{crate.folder}/src"), *(it for name in tellers for it in files_below(f"{TOP}/crates/{name}/src"))]:
        state.update(repr((os.path.relpath(file, TOP), said_in(file))).encode())
    return f"{crate.name} by tests: {len(edits)} told, state {state.hexdigest()[:16]}"


def lines_tried():
    """Returns the lines of wrong_bodies.txt, by what stands before the colon: of crates that have such wrong bodies."""
    lines = {it.partition(":")[0]: it for it in (rtlib.text_of(TRIED) or "").splitlines() if not it.startswith("#")}
    rooms = {name: f"{TOP}/crates/{name.removesuffix(' by tests')}/wrong_bodies" + "/by_tests" * name.endswith(" by tests") for name in lines}
    return {name: it for name, it in lines.items() if os.path.isdir(rooms[name])}


def line_of_due(crate, room="wrong_bodies"):
    """Returns the line that says that the wrong bodies of a crate in this room are due to be tried on the text as it stands, with the state on which they were tried last."""
    name = crate.name + " by tests" * room.endswith("by_tests")
    last = re.search(r"state (\w+)$", lines_tried().get(name, ""))
    return f"{name}: {len(edits_in(crate, room))} due, tried last on state {last[1] if last else 'none'}"


def untried(among):
    """Returns the crates whose wrong bodies were not all tried and refused on the text as it stands, and aren't said to be due."""
    tried = lines_tried()
    return [it for it in among if edits_in(it, "wrong_bodies") and tried.get(it.name) not in (line_of(it), line_of_due(it))]


def waiting(among, room="wrong_bodies"):
    """Returns the crates whose wrong bodies in this room are said to be due."""
    tried = lines_tried()
    return [it for it in among if edits_in(it, room) and line_of_due(it, room) in tried.values()]


def untold(among):
    """Returns the crates of whose wrong bodies those that only tests tell were not all tried and told on the text as it stands."""
    tried = lines_tried()
    return [it for it in among if edits_in(it, "wrong_bodies/by_tests") and tried.get(f"{it.name} by tests") not in (line_of_told(it), line_of_due(it, "wrong_bodies/by_tests"))]
