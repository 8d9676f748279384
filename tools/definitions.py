#!/usr/bin/env python3
"""Writes docs/DEFINITIONS.md: the definitions that a reader has to believe, which the statement about the program names, and what they name in turn.

    tools/definitions.py                    writes docs/DEFINITIONS.md, from the comments in specs/ and above the laws
    tools/definitions.py --count [NAME..]   counts the lines from FileSays, or from these definitions: each file's, and their sum
    tools/definitions.py --mark             has each file of specs/ say in its first line whether it is to be believed

Imports, comments and blank lines aren't counted, nor are the types that the code declares.
"""
import os
import re
import sys

TOP = os.path.dirname(os.path.dirname(os.path.realpath(__file__)))
PAGE = "docs/DEFINITIONS.md"
# What a file is read as: who believes the grammars, and the laws of the first fault, needn't read what these name.
READING = ("SpecReads", "BlocksRead")
KINDS = "pub|abbrev|unfoldable|opaque|data|record"
STARTS = re.compile(rf"^(?:(?:{KINDS})\s+)*([^\s:(){{}},]+)")
WITHIN = re.compile(rf"^  (?:(?:{KINDS})\s+)+([^\s:(){{}},]+)")

# A public function that answers nothing, and at most calls others of this kind: the comment above it, and its name.
LAW = re.compile(r"((?:^///.*\n)*)(?:^(?:#\[|//[^/]).*\n)*^pub fn (\w+)\((?:(?!&mut)[^)])*\)\n(?:^    .*\n)*^\{(?:\n(?:^    [\w:]+\(.*\);\n)*)?\}", re.M)

MARK = "-- To be believed. "

# From the bytes of a file to the rows of a view: what is quoted whole, each under a title.
SITTING = (
    ("spec_files", "FileSays", "What a file prints"),
    ("spec_files", "FileIs", "What a file is"),
    ("spec_files", "Prints", "What its permutations print"),
    ("permutation_plans", "IsRegular", "A regular history"),
    ("permutation_plans", "LaunchesFit", "What it launches"),
    ("session_machine", "Run", "A run of the session machine"),
    ("session_machine", "next", "What an event does"),
    ("session_machine", "run_stmt", "A statement"),
    ("session_machine", "view_of", "What a query sees"),
    ("row_versions", "is_shown", "A row of a view"),
    ("update_recheck", "outcome", "A row that others changed or hold"),
    ("report_text", "permutation_says", "The report"),
)

HEAD = """# The definitions

<!-- Written by tools/definitions.py: change the comments that it reads, and run it. -->

What a reader has to believe stands in the `specs/` folders: definitions on plain data (lists of bytes, trees, numbers), which no code runs. The code is proved against them.

The program's `serve` reads the input and calls `run_spec` on those bytes, whose contract is `SpecIsRun`. Its field `told` says: what was put out is what `FileSays` gives for the bytes that were read. `FileSays`, with all that it
names in turn, comes to {lines:,} lines of {count} definitions, without imports, comments and blank lines. Of these, {reading} lines read a file; the other {other} go from its spec and statements
to the text. (All `specs/` have {there:,} lines. What follows the code stands in a folder `Code`; {inner:,} lines in a folder `Inner`, which only private functions and proofs use.)

How to read the files: `a ∷ as` is a list with its first element, `++` joins lists, `×` is "and" with a value for each side, `≡` is equality, `x ↦ y` is a case. A **view** (`spec_view`) is the
plain data behind a value of the code. A **reading function** (`expr_at`) goes through tokens from the left and says what comes first, a value or a fault; the **grammar** beside it (`Spells`) is a
relation with a case for each production, and a law ties the two. Numbers such as 13.2.1 are sections of PostgreSQL's manual.

## One sitting

These twelve carry the guarantee, from the bytes of a file to the rows of a view.
"""

REST = """
## File by file, in reading order

Each file of `specs/` with the number of its lines that `FileSays` needs, and what it says of the definitions that other files use; their parts stand beside them there.
"""

OTHERS = """
## What else contracts name

Definitions of clauses that the statement about the program doesn't need: what callers of the libraries rely on, and what the laws say.
"""

LAWS = """
## Laws

A law is a public function that does nothing and whose contract is the law: it is proved, and says in the subject's words what the definitions come to.
"""


def text_of(path):
    with open(f"{TOP}/{path}", encoding="utf-8") as it:
        return it.read()


def modules():
    """Yields each file of specs/ as (module, lines)."""
    for crate in sorted(os.listdir(f"{TOP}/crates")):
        folder = f"{TOP}/crates/{crate}/specs"
        for at, _, names in os.walk(folder):
            for name in sorted(it for it in names if it.endswith(".antt") and it not in ("Lib.antt", "Code.antt", "Inner.antt")):
                path = os.path.join(at, name)
                inner = os.path.relpath(path, folder)[:-5].replace("/", ".")
                with open(path, encoding="utf-8") as it:
                    yield f"{crate}.specs.{inner}", it.read().split("\n")


def read(lines):
    """Returns the names that a file imports, each with where it stands, its definitions, each with its lines, and each definition's name and comment."""
    imported, whole, found, told, name, depth, above = {}, {}, {}, [], None, 0, []
    for line in lines:
        if line.strip().startswith("--"):
            above.append(line.strip()[2:].strip())
            continue
        if not line.strip():
            above = []
            continue
        # (what stands in a module with parameters stands two columns further in)
        depth = min(depth, (len(line) - len(line.lstrip())) // 2)
        line = line[2 * depth :]
        if re.match(r"module _ .* where$", line):
            depth, name = depth + 1, None
            continue
        given = re.match(r"(?:pub )?use Rattle\.([\w.]+?)(?:\.\{(.*)\})?(?: as (\S+))?$", line)
        if given:
            module, names, alias = given.groups()
            for it in (names or "").split(", "):
                old, _, new = it.partition(" as ")
                if old:
                    imported[new or old] = module, old
            if not names:
                whole[alias or module.rpartition(".")[2]] = module
        else:
            # (what closes the cases of a definition begins none)
            start = STARTS.match(line) if line[0] != "]" else None
            # (a row of an operator begins with what stands at its left)
            is_row = name and name.startswith("◌") and f" {name.strip('◌')} " in line.partition(" = ")[0]
            name = start[1] if start and not is_row else name
            # (definitions that name each other stand under one name, each block of them under its own)
            if start and name == "mutual":
                name = f"mutual {len(found)}"
            within = WITHIN.match(line) if name and name.startswith("mutual ") else None
            if within:
                told.append((name, within[1], " ".join(above)))
            elif name and name not in found and not name.startswith("mutual "):
                told.append((name, name, " ".join(above)))
            if name:
                found.setdefault(name, []).append(line)
        above = []
    return imported, whole, found, told


def words(text):
    return set(re.findall(r"[^\s(){}\[\],;]+", text)) | set(re.findall(r"[^\s(){}\[\],;.]+", text))


def home(at, files, holders):
    """Returns the definition that this name of a module means, or None."""
    nothing = ({}, {}, {}, [])
    # (a file may hand on what it imports)
    while at[1] not in files.get(at[0], nothing)[2] and at[1] in files.get(at[0], nothing)[0]:
        at = files[at[0]][0][at[1]]
    return at if at[1] in files.get(at[0], nothing)[2] else holders.get(at)


def named_in(at, files, holders):
    """Returns the definitions that a definition names."""
    imported, whole, found, _ = files[at[0]]
    written = words("\n".join(found[at[1]]))
    named = set()
    # (an operator is defined with a mark for each side, and a do block by what stands between its lines)
    for word in [*written, *(f"◌{it}◌" for it in written), *(["◌>>=◌"] if "do" in written else [])]:
        front, _, back = word.rpartition(".")
        if word in found or (at[0], word) in holders and word not in imported and front not in whole:
            named.add(home((at[0], word), files, holders))
        elif word in imported:
            named.add(home(imported[word], files, holders))
        elif front in whole:
            named.add(home((whole[front], back), files, holders))
    return named - {None}


def named_from(wanted, files, holders, without=()):
    """Returns what these definitions name, and what that names in turn, but for what is named through the ones without."""
    left = [(module, name) for module, (_, _, found, _) in files.items() for name in found if name in wanted]
    named = set()
    while left:
        at = left.pop()
        if at in named or at[1] in without:
            continue
        named.add(at)
        left += named_in(at, files, holders)
    return named


def holders_in(files):
    """Returns with which definition stands what a record or a relation names within it."""
    holders = {}
    for module, (_, _, found, _) in files.items():
        for name, lines in found.items():
            for line in lines[1:]:
                inner = re.match(r"\s+(?:pub )?(?:data )?([^\s:(){},]+) :", line)
                if inner:
                    holders.setdefault((module, inner[1]), (module, name))
    return holders


class Believed:
    """The definitions that these names need, and how many lines they have."""

    def __init__(self, wanted=("FileSays",)):
        self.texts = dict(modules())
        self.files = {module: read(lines) for module, lines in self.texts.items()}
        holders = holders_in(self.files)
        sizes = {(module, name): len(lines) for module, (_, _, found, _) in self.files.items() for name, lines in found.items()}
        self.all = named_from(wanted, self.files, holders)
        reading = self.all - named_from(wanted, self.files, holders, READING)
        self.shared = {to for at in self.all for to in named_in(at, self.files, holders) if to[0] != at[0]}
        self.by_file = {}
        for module, name in self.all:
            self.by_file[module] = self.by_file.get(module, 0) + sizes[module, name]
        self.lines = sum(self.by_file.values())
        self.reading = sum(sizes[it] for it in reading)
        self.there = sum(sizes.values())
        self.inner = sum(size for (module, _), size in sizes.items() if ".specs.Inner." in module)


def families():
    """Returns the families of crates.txt, each with its crates, in their order."""
    found = []
    for line in text_of("crates.txt").splitlines():
        if line.startswith("## "):
            found.append((line[3:], []))
        elif line and not line.startswith("#"):
            found[-1][1].append(re.split(r"[:\s]", line)[0])
    return found


def files_of(crate):
    """Returns the files of the crate's specs/, in the order in which Lib.antt names them."""
    path = f"crates/{crate}/specs/Lib.antt"
    names_in = lambda file: re.findall(r"^(?:pub )?mod (\w+)", text_of(file), re.M) if os.path.isfile(f"{TOP}/{file}") else []
    parts = {"Code": [f"Code.{it}" for it in names_in(f"crates/{crate}/specs/Code.antt")], "Inner": []}
    return [f"{crate}.specs.{it}" for name in names_in(path) for it in parts.get(name, [name])]


def head_of(lines):
    """Returns what the first lines of a file say of all of it."""
    said = []
    for line in lines:
        if not line.startswith("--"):
            break
        said.append(line.removeprefix(MARK).removeprefix("--").strip())
    return sentence(" ".join(said))


def sentence(text):
    """Returns the text with a capital and a full stop."""
    return text[:1].upper() + text[1:] + ("" if text[-1:] in ".:" else ".")


def definition(crate, name):
    """Returns the file and the text of a definition, with its comment."""
    for module in files_of(crate):
        with_text = text_of(f"crates/{crate}/specs/{module.rpartition('.')[2]}.antt")
        for block in re.split(r"\n\s*\n", with_text):
            starts = [STARTS.match(line) for line in block.split("\n") if not line.startswith("--")]
            if starts and starts[0] and starts[0][1] == name:
                return module.rpartition(".")[2], block.strip("\n")
    sys.exit(f"tools/definitions.py: {crate} has no definition {name}")


def laws_of(crate):
    """Yields the public functions of a crate that do nothing, each with its comment."""
    for path in sources_of([crate]):
        for said, law in LAW.findall(text_of(path)):
            yield law, " ".join(it[3:].strip() for it in said.splitlines())


def told_of(of, module):
    """Yields a line for each definition of a file that others need: those with a comment, and at last the names of the others."""
    bare = []
    for key, name, comment in of.files[module][3]:
        if (module, key) not in of.shared:
            continue
        if comment:
            yield f"  - `{name.strip('◌')}`: {comment}"
        else:
            bare.append(f"`{name.strip('◌')}`")
    if bare:
        yield f"  - {', '.join(bare)}"


def page():
    """Returns the text of docs/DEFINITIONS.md."""
    of = Believed()
    lines = HEAD.format(lines=of.lines, count=len(of.all), reading=of.reading, other=of.lines - of.reading, there=of.there, inner=of.inner).split("\n")
    for number, (crate, name, title) in enumerate(SITTING, 1):
        file, text = definition(crate, name)
        lines += [f"{number}. **{title}**: `{name}` of `{crate}/{file}`", "", "```antt", *text.split("\n"), "```", ""]
    lines += REST.strip("\n").split("\n")
    others, laws = [], []
    for family, crates in families():
        told = []
        for crate in crates:
            for module in files_of(crate):
                said = head_of(of.texts[module])
                name = module.rpartition(".")[2]
                if module in of.by_file:
                    told += [f"- **`{crate}/{name}`** ({of.by_file[module]}): {said}", *told_of(of, module)]
            unneeded = [it for it in files_of(crate) if it not in of.by_file]
            if unneeded:
                others.append(f"- `{crate}`: " + " ".join(f"`{it.rpartition('.')[2]}`: {head_of(of.texts[it])}" for it in unneeded))
            laws += [f"- `{crate}`, `{law}`: {said}" for law, said in laws_of(crate)]
        if told:
            lines += ["", f"### {family}", "", *told]
    return "\n".join([*lines, *OTHERS.rstrip("\n").split("\n"), "", *others, *LAWS.rstrip("\n").split("\n"), "", *laws]) + "\n"


def sources_of(crates):
    """Yields the path of each file of code of these crates."""
    for crate in crates:
        for at, _, names in sorted(os.walk(f"{TOP}/crates/{crate}/src")):
            for name in sorted(names):
                yield os.path.relpath(f"{at}/{name}", TOP)


def examples():
    """Yields the examples in the crates' comments, each with where it stands."""
    for _, crates in families():
        for path in sources_of(crates):
            for shown in re.findall(r"^ *//[/!] ```\n(.*?)^ *//[/!] ```$", text_of(path), re.M | re.S):
                yield path, re.sub(r"^ *//[/!] ?", "", shown, flags=re.M)


def bare(text):
    """Returns the text without what its lines begin and end with."""
    return "\n".join(line.strip() for line in text.split("\n"))


def places(line, crates, crate=None):
    """Yields the files of crates that a line of docs/ARCHITECTURE.md, or of this crate's README, names, and what is to stand in them."""
    step = re.match(r"\d+\. `(\w+)/(\w+\.rt)` `(\w+)`", line)
    if step:
        yield f"crates/{step[1]}/src/{step[2]}", f"fn {step[3]}"
        return
    for cell in line.split("|"):
        room = None
        for word in re.findall(r"`([\w/.]+)`", cell):
            head, _, rest = word.partition("/")
            if head in crates:
                crate, word = head, rest
            part, _, name = word.partition("/")
            if not crate or not word:
                continue
            # (`proofs/`: `A`, `B` and so on are files of that folder)
            if part in ("src", "specs", "proofs"):
                room = None if name else part
                word = name
            elif part in ("Code", "Inner") and name:
                part = "specs"
            else:
                part = room
            if word.endswith(".rt"):
                yield f"crates/{crate}/src/{word}", ""
            elif part in ("specs", "proofs") and re.fullmatch(r"([A-Z]\w*/)*[A-Z]\w*", word):
                yield f"crates/{crate}/{part}/{word}.antt", ""


def paths_lacking():
    """Yields what docs/ARCHITECTURE.md and the crates' READMEs name and isn't there, and the crates that have no row or no README."""
    crates = {crate for _, found in families() for crate in found}
    readmes = {f"crates/{it}/README.md": it for it in sorted(crates)}
    for page_at, crate in {"docs/ARCHITECTURE.md": None, **readmes}.items():
        if not os.path.isfile(f"{TOP}/{page_at}"):
            yield f"{page_at} isn't there: five lines on what the crate owns, what it never knows, and where to start reading"
            continue
        for line in text_of(page_at).split("\n"):
            for path, said in places(line, crates, crate):
                if not os.path.isfile(f"{TOP}/{path}"):
                    yield f"{page_at} names {path}, which isn't there: {line[:60]}"
                elif said and not re.search(rf"\b{said}\b", text_of(path)):
                    yield f"{page_at}: {path} has no {said}"
    table = text_of("docs/ARCHITECTURE.md").partition("## Crates")[2].partition("##")[0]
    named = set(re.findall(r"`(\w+)`", "".join(re.findall(r"^\| `.*", table, re.M))))
    yield from (f"docs/ARCHITECTURE.md has no row of the crate {it}" for it in sorted(crates - named))


def lacking():
    """Looks whether docs/DEFINITIONS.md is what this script writes, whether what docs/ARCHITECTURE.md names is there, and whether a test has each example of a comment.

    Returns how much isn't so; each is printed."""
    wrong = [*paths_lacking()]
    there, due = text_of(PAGE).split("\n"), page().split("\n")
    lost = sorted(set(there) - set(due)) + sorted(set(due) - set(there))
    wrong += [f"{PAGE}: run tools/definitions.py, which writes it: {line[:100]}" for line in lost[:10]]
    if not lost and there != due:
        wrong.append(f"{PAGE}: run tools/definitions.py, which writes it: its lines stand in another order")
    tests = "\n".join(bare(text_of(path)) for path in sources_of(dict(families())["Tests"]))
    wrong += [f"{path}: no test runs its example: {shown.split(chr(10))[0]}" for path, shown in examples() if bare(shown) not in tests]
    for it in wrong:
        print(it)
    return len(wrong)


def marks():
    """Yields the path of each file of specs/ with its text as it stands, and with the first line that it is to have."""
    of = Believed()
    for module, lines in of.texts.items():
        crate, _, name = module.split(".", 2)
        plain = [lines[0].replace(MARK, "-- "), *lines[1:]]
        due = [plain[0].replace("-- ", MARK, 1), *plain[1:]] if module in of.by_file else plain
        yield f"crates/{crate}/specs/{name.replace('.', '/')}.antt", "\n".join(lines), "\n".join(due)


def marks_lacking():
    """Looks whether each file of specs/ says in its first line whether it is to be believed. Returns how many don't; each is printed."""
    wrong = [path for path, text, due in marks() if text != due]
    for path in wrong:
        print(f"{path}: its first line is to say whether the file is to be believed: run tools/definitions.py --mark")
    return len(wrong)


def names_twice(apart=("Inner", "Code")):
    """Looks whether a public name is defined in two files of one crate's specs/, outside these folders. Returns how many are; each is printed."""
    found = {}
    for module, lines in modules():
        crate, _, name = module.split(".", 2)
        if name.split(".")[0] in apart:
            continue
        public = {it[1] for line in lines for it in [re.match(rf"\s*(?:(?:{KINDS})\s+)*pub (?:(?:data|record)\s+)?([^\s:(){{}},]+)", line)] if it and not line.startswith("    ")}
        for key, shown, _ in read(lines)[3]:
            if shown in public and not shown.startswith("◌"):
                found.setdefault((crate, shown), set()).add(name)
    wrong = {it: files for it, files in found.items() if len(files) > 1}
    for (crate, shown), files in sorted(wrong.items()):
        print(f"crates/{crate}/specs: {shown} is defined in {' and '.join(sorted(files))}")
    return len(wrong)


def count(wanted):
    """Prints how many lines of each file are to be believed, and of all."""
    of = Believed(wanted) if wanted else Believed()
    for module in sorted(of.by_file):
        print(f"{of.by_file[module]:5} {module.replace('.specs.', '/')}")
    print(f"{of.lines} lines of {len(of.all)} definitions in {len(of.by_file)} files, {of.reading} of them to read a file; {of.there} stand in specs/, {of.inner} of them in Inner")


def main(given):
    if given[:1] == ["--count"]:
        count(given[1:])
    elif given == ["--mark"]:
        for path, text, due in marks():
            if text != due:
                with open(f"{TOP}/{path}", "w", encoding="utf-8") as it:
                    it.write(due)
    elif given:
        sys.exit(__doc__)
    else:
        with open(f"{TOP}/{PAGE}", "w", encoding="utf-8") as it:
            it.write(page())


if __name__ == "__main__":
    main(sys.argv[1:])
