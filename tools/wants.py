#!/usr/bin/env python3
"""Where a crate's code tells want of memory, or of a thread, by itself, or asks for room by a number: no clause tells a want that is made up from one that an allocator or the start of a thread told, so each such line stands in
tools/wants.txt.

    tools/wants.py           says where the text differs from the list; the status is 1 where it does
    tools/wants.py --write   writes the list
"""
import os
import re
import sys

TOP = os.path.dirname(os.path.dirname(os.path.realpath(__file__)))
LIST = f"{TOP}/tools/wants.txt"
HEAD = """# Lines of code that tell want of memory or of a thread by themselves, or hand another call's want on: what an allocator refused is handed on by `?`. Those that name the greatest number of a
# type, for which no allocator has room; and those that ask for room by a number, which may be more than is needed. Written by tools/wants.py --write; ./check compares it with the text.
"""
# Crates of tests, and programs around the library, tell what they like.
LEFT_OUT = re.compile(r"_tests$|^(test_devices|examples|timings|timeline|isolationtester)$")
# A value, and no type: behind one of these, and not in front of a pattern's arrow.
MADE = re.compile(r"(?:^|[(|=>{;,&]\s*|\breturn )(?:\w+::)*(?:AllocError|(?<=::)(?:Memory|ThreadRefused))\b(?!>|\)*\s*(?:=>|\||if ))")
# So much room no allocator has: who asks for it makes a want up.
TOO_MUCH = re.compile(r"\b(?:usize|isize|u64|i64)::MAX\b")
# So much room is asked for as a number says, needed or not.
ROOM = re.compile(r"\b(?:with_capacity|try_reserve|reserve|try_reserve_exact|reserve_exact|resize)\(|\bvec!\[in ")
SKIPPED = re.compile(r"^(use |pub use |ghost |ensures |requires |//|#|impl |where )")
# What the allocator refused is told as it was.
FROM = re.compile(r"fn from\(_\w*: Alloc")


def made_in(text):
    """Returns the lines of a file's text that tell want of memory or of a thread by themselves, or ask for room by a number."""
    lines, behind = [], 0
    for line in (it.strip() for it in text.split("\n")):
        behind = 3 if FROM.search(line) else behind - 1
        if behind <= 0 and not SKIPPED.match(line) and ("->" not in line.split("=>")[0] and MADE.search(line) or TOO_MUCH.search(line) or ROOM.search(line)):
            lines.append(line)
    return lines


def made_by(folder):
    """Returns these lines of a crate, each behind its file."""
    found = []
    for at, _, names in sorted(os.walk(f"{folder}/src")):
        for name in sorted(names):
            if name.endswith(".rt"):
                with open(f"{at}/{name}", encoding="utf-8") as it:
                    found += [f"{os.path.relpath(f'{at}/{name}', TOP)}: {line}" for line in made_in(it.read())]
    return found


def made():
    """Returns these lines of all crates."""
    names = sorted(it for it in os.listdir(f"{TOP}/crates") if os.path.isdir(f"{TOP}/crates/{it}/src") and not LEFT_OUT.search(it))
    return [line for name in names for line in made_by(f"{TOP}/crates/{name}")]


def listed():
    """Returns the lines of the list."""
    with open(LIST, encoding="utf-8") as it:
        return [line for line in it.read().splitlines() if not line.startswith("#")]


def differing():
    """Returns how many such lines aren't listed, or are listed and not there; each is printed."""
    found, known = made(), listed()
    new, gone = found.copy(), known.copy()
    for line in known:
        if line in new:
            new.remove(line)
    for line in found:
        if line in gone:
            gone.remove(line)
    for line in new:
        print(f"a want may be made up here, and tools/wants.txt lacks the line: {line}")
    for line in gone:
        print(f"tools/wants.txt has a line that isn't there: {line}")
    return len(new) + len(gone)


if __name__ == "__main__":
    if sys.argv[1:] == ["--write"]:
        with open(LIST, "w", encoding="utf-8") as it:
            it.write(HEAD + "".join(f"{line}\n" for line in made()))
    else:
        sys.exit(1 if differing() else 0)
