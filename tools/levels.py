#!/usr/bin/env python3
"""Says what happens at each level: runs the gallery's anomalies at Read Committed and at Repeatable Read, and prints a table: tools/levels.py PROGRAM [WORD..]

Of each file the first permutation is run, with each BEGIN at the level in question. An anomaly shows where its sign stands in the text. The last column
names the files that show what to do about it. The status is 0 where all are as the manual's Table 13.1 and Hermitage's rows for PostgreSQL have them,
and 1 where one isn't. bench/levels.sh calls this.
"""
import os
import re
import subprocess
import sys

SPECS = f"{os.path.dirname(os.path.realpath(__file__))}/../examples/specs"
LEVELS = ("READ COMMITTED", "REPEATABLE READ")

# What each level lets through: Hermitage's rows for PostgreSQL, and the manual's Table 13.1 as PostgreSQL does it.
HERMITAGE = {"G0": "", "G1a": "", "G1b": "", "G1c": "", "OTV": "", "PMP": "1", "P4": "1", "G-single": "1", "G2-item": "12", "G2": "12"}
MANUAL = {"Dirty read": "", "Nonrepeatable read": "1", "Phantom read": "1", "Serialization anomaly": "12"}

# Which files show the way out of an anomaly at both levels, or at one.
CURES = {
    "non_repeatable_read": "non_repeatable_read_and_for_share",
    "phantom": "phantom_and_a_row_to_lock",
    "delete_misses_moved_row": "delete_misses_moved_row_and_retry",
    "delete_by_a_changed_condition": "delete_by_a_changed_condition_and_row_locks",
    "lost_update": "lost_update_and_one_statement lost_update_and_for_update lost_update_and_retry",
    "read_skew": "read_skew_and_one_statement",
    "read_skew_of_changed_rows": "read_skew_of_changed_rows_and_for_share",
    "read_skew_by_condition": "read_skew_by_condition_and_one_statement",
    "read_skew_and_delete": "read_skew_and_delete_and_for_update",
    "write_skew": "write_skew_and_row_locks",
    "double_booking": "double_booking_refused",
    "sums_of_classes": "sums_of_classes_and_a_row_to_change",
    "read_only_anomaly": "read_only_anomaly_and_row_locks",
}

# Code in Hermitage, row of Table 13.1, file, and what stands in the text where the anomaly shows.
ROWS = (
    ("G0", "", "dirty_write", r"car +\|(\w+) *\ninvoice\|(?!\1)"),
    ("G1a", "Dirty read", "dirty_read", r"step count: [^\n]*\nsum\n---\n150\n"),
    ("G1b", "Dirty read", "intermediate_read", r"\n +101\n"),
    ("G1c", "Dirty read", "circular_information_flow", r"step read_2: [^\n]*\nvalue\n-----\n +22\n|step read_1: [^\n]*\nvalue\n-----\n +11\n"),
    ("OTV", "", "observed_transaction_vanishes", r"step row2: [^\n]*\nvalue\n-----\n +(?!21\n)\d+\n.*step commit_2"),
    ("", "Nonrepeatable read", "non_repeatable_read", r"step change: .*step read: [^\n]*\nprice\n-----\n +4\n"),
    ("PMP", "Phantom read", "phantom", r"step second: [^\n]*\nguest\n-----\nAnn *\nCid"),
    ("PMP", "", "delete_misses_moved_row", r"step clean: <\.\.\. completed>\nstep .*\na +\|  10\n"),
    ("PMP", "", "delete_by_a_changed_condition", r"step clean: <\.\.\. completed>\nstep look: [^\n]*\nid\|value\n--\+-----\n 1\|   20\n"),
    ("P4", "", "lost_update", r"step write_b: <\.\.\. completed>\nstep .*\n +120\n"),
    ("G-single", "Nonrepeatable read", "read_skew", r"giro\n----\n +80\n"),
    ("G-single", "Nonrepeatable read", "read_skew_of_changed_rows", r"step row2: [^\n]*\nvalue\n-----\n +18\n"),
    ("G-single", "Phantom read", "read_skew_by_condition", r"step threes: [^\n]*\nid\|value\n--\+-----\n 1\|   12\n"),
    ("G-single", "", "read_skew_and_delete", r"step clean: [^\n]*\nstep "),
    ("G2-item", "Serialization anomaly", "write_skew", r"Ann +\|f *\nBob +\|f"),
    ("G2", "Serialization anomaly", "double_booking", r" 7\|Ann *\n +7\|Bob"),
    ("G2", "Serialization anomaly", "sums_of_classes", r" 2\|   30\n +1\|  300\n"),
    ("G2", "Serialization anomaly", "read_only_anomaly", r"saving\| +20\n.*step take_w: [^\n]*\nstep commit_w: COMMIT;\n"),
)
REFUSED = "ERROR:  could not serialize access"


def at_level(spec, level):
    """Returns the file with each transaction at the level, and with its first permutation alone."""
    lines = [it for it in spec.splitlines() if not it.startswith("#")]
    first = next(it for it in lines if it.startswith("permutation"))
    kept = "\n".join(it for it in lines if not it.startswith("permutation"))
    levelled = re.sub(r"BEGIN( ISOLATION LEVEL [A-Z ]+)?;", f"BEGIN ISOLATION LEVEL {level};", kept)
    return f"{levelled}\n{first}\n"


def printed(program, spec):
    return subprocess.run(program, input=spec, capture_output=True, text=True, check=True).stdout


def said(text, sign):
    if not text.startswith("Parsed test spec"):
        sys.exit(f"levels: the program printed no text: {text!r}")
    if re.search(sign, text, re.DOTALL):
        return "shows"
    return "no, an error" if REFUSED in text else "no"


def lets_through(given, level):
    return str(LEVELS.index(level) + 1) in given


def main():
    program = sys.argv[1:]
    if not program:
        sys.exit(__doc__)
    other = []
    print("| File | Hermitage | Table 13.1 | Read Committed | Repeatable Read | Cure |\n|---|---|---|---|---|---|")
    for code, row, name, sign in ROWS:
        with open(f"{SPECS}/{name}.spec", encoding="utf-8") as it:
            spec = it.read()
        cells = {level: said(printed(program, at_level(spec, level)), sign) for level in LEVELS}
        cures = ", ".join(f"`{it}`" for it in CURES.get(name, "").split())
        print(f"| `{name}` | {code} | {row} | {' | '.join(cells.values())} | {cures} |", flush=True)
        for table, key in ((HERMITAGE, code), (MANUAL, row)):
            if key and any((cell == "shows") != lets_through(table[key], level) for level, cell in cells.items()):
                other.append(f"{name}: {key} is otherwise")
    print("\n".join(other) or "All are as Hermitage and Table 13.1 have them.", file=sys.stderr)
    return 1 if other else 0


if __name__ == "__main__":
    sys.exit(main())
