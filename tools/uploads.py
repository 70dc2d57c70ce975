#!/usr/bin/env python3
"""Runs the command over samples/uploads, and holds it to samples/uploads/expected.tsv.

There are sixty bad and forty good uploads. A bad one that passes and a good one that is
refused is expected only with a reason. Beside the command run xmllint (Debian:
libxml2-utils) and xmlwf (Debian: expat), where they are installed: each upload on which
verdict, line or column is another is a line of a table. The last line is `N passed, M
failed`, of what is expected: of each upload what the command says, and of each of the two
programs that its verdict is another on exactly those uploads that have a reason.

    tools/uploads.py [COMMAND]      the command is rust/target/release/upload, unless named
"""

import json
import re
import shutil
import subprocess
import sys
from pathlib import Path

ROOT = Path(__file__).resolve().parent.parent
FOLDER = ROOT / "samples" / "uploads"
COMMAND = ROOT / "rust" / "target" / "release" / "upload"

# How many uploads there are, by the front of their names.
COUNTS = {"bad-": 60, "good-": 40}

# Where the fault is told here, by its cause; and there, where that is behind it or before it.
HERE = {
    "mismatched": "the front of the end tag",
    "reference": "its `&`",
    "repeated": "the name of the second",
    "token": "where the tokenizer cannot go on",
    "unclosed": "the end of the body",
}
BEHIND = {
    "mismatched": {"xmllint": "behind the end tag", "xmlwf": "the name in the end tag"},
    "reference": {"xmllint": "where reading it fails", "xmlwf": "where reading it fails"},
    "repeated": {"xmllint": "behind its value", "xmlwf": "behind its value"},
    "token": {"xmllint": "some characters on", "xmlwf": "some characters on"},
}
BEFORE = {"xmllint": "the character before", "xmlwf": "the front of the tag or token around it"}


def field(value):
    """A field of the expectations: `-` where there is none."""
    return "-" if value is None else str(value)


def expected():
    """File to (verdict, number, cause, line, column), all as they are written."""
    lines = (FOLDER / "expected.tsv").read_text().splitlines()
    fields = [line.split("\t") for line in lines if not line.startswith("#")]
    return {file: (said, why) for file, *said, why in fields}


def is_explained(file, expectation):
    """What is good passes and what is bad is refused, or it is said why not."""
    said, reason = expectation
    return file.startswith("good-") == (said[0] == "passes") or reason != "-"


def is_expected(file, said, expectations):
    if file not in said or file not in expectations:
        return False
    return said[file] == expectations[file][0] and is_explained(file, expectations[file])


def answers(command, files):
    """What the command says, in the form of the expectations."""
    paths = [FOLDER / file for file in files]
    ran = subprocess.run([command, "--format", "json", *paths], capture_output=True, check=False)
    if ran.stderr or ran.returncode != 1:
        sys.exit(f"uploads: status {ran.returncode} {ran.stderr.decode()}")
    said = {}
    for line in ran.stdout.decode().splitlines():
        told = json.loads(line)
        verdict = "passes" if told["passes"] else "refused"
        rest = [field(told[key]) for key in ("number", "cause", "line", "column")]
        said[Path(told["file"]).name] = [verdict, *rest]
    return said


def xmllint(path):
    """Verdict, line and column of its first error; the column is that of its caret."""
    ran = subprocess.run(["xmllint", "--noout", "--nonet", path], capture_output=True, check=False)
    if ran.returncode == 0:
        return ("passes", None, None)
    lines = ran.stderr.decode(errors="replace").split("\n")
    for at, line in enumerate(lines):
        found = re.search(r":(\d+): (?!namespace)\w+ error", line)
        if found:
            below = lines[at + 1 : at + 3]
            column = below[1].find("^") + 1 if len(below) == 2 else 0
            return ("refused", int(found[1]), column or None)
    return ("refused", None, None)


def xmlwf(path):
    """Verdict, line and column of what it writes; its columns count from 0."""
    ran = subprocess.run(["xmlwf", path], capture_output=True, check=False)
    said = ran.stdout.decode(errors="replace")
    found = re.search(r":(\d+):(\d+): ", said)
    if found:
        return ("refused", int(found[1]), int(found[2]) + 1)
    return ("refused" if said or ran.returncode else "passes", None, None)


def differs(ours, theirs):
    """What is another: the verdict, else the line, else the column."""
    verdict, _, _, line, column = ours
    if verdict != theirs[0]:
        return "verdict"
    if line != field(theirs[1]):
        return "line"
    return "column" if column != field(theirs[2]) else None


def why(what, name, ours, theirs, expectation):
    """The reason: of a verdict as it is expected, of a place by the cause."""
    if what == "verdict":
        return expectation
    cause, line, column = ours[2:]
    if line == "-":
        return "no place is told of an empty body"
    if theirs[2] is None:
        return "no caret is shown there"
    is_before = (theirs[1], theirs[2]) < (int(line), int(column))
    there = BEFORE[name] if is_before else BEHIND.get(cause, {}).get(name, "behind it")
    return f"here {HERE.get(cause, 'the first byte that is wrong')}, there {there}"


def place(line, column):
    return f"{field(line)}:{field(column)}"


def disagreements(name, program, said, expectations):
    """Prints the table of what another program says otherwise: is each verdict explained?"""
    rows = []
    for file, ours in said.items():
        theirs = program(FOLDER / file)
        what = differs(ours, theirs)
        if what:
            reason = why(what, name, ours, theirs, expectations[file][1])
            here = f"{ours[0]} {place(*ours[3:])}"
            rows.append((what, file, here, f"{theirs[0]} {place(*theirs[1:])}", reason))
    print(f"\n{name}: {len(said) - len(rows)} of {len(said)} alike in verdict, line and column")
    order = ["verdict", "line", "column"]
    rows.sort(key=lambda row: (order.index(row[0]), row[1]))
    table([("differs", "file", "upload", name, "why"), *rows])
    explained = {file for file in said if expectations[file][1] != "-"}
    return {row[1] for row in rows if row[0] == "verdict"} == explained


def beside(name, program, said, expectations):
    """How many passed and failed beside another program, where it is installed."""
    if shutil.which(name) is None:
        print(f"skipped: {name} is not installed")
        return 0, 0
    is_explained = disagreements(name, program, said, expectations)
    if not is_explained:
        print(f"{name}: its verdict is another on other uploads than those that have a reason")
    return int(is_explained), int(not is_explained)


def table(rows):
    widths = [max(len(row[at]) for row in rows) for at in range(len(rows[0]))]
    for row in rows:
        cells = (cell.ljust(width) for cell, width in zip(row, widths))
        print("  " + "  ".join(cells).rstrip())


def main():
    if len(sys.argv) > 2 or sys.argv[1:] in (["-h"], ["--help"]):
        sys.exit(__doc__)
    command = sys.argv[1] if len(sys.argv) == 2 else COMMAND
    expectations = expected()
    files = sorted(path.name for path in FOLDER.glob("*.xml"))
    said = answers(command, files)
    wrong = [file for file in sorted({*files, *expectations})
             if not is_expected(file, said, expectations)]
    for front, count in COUNTS.items():
        if sum(file.startswith(front) for file in files) != count:
            sys.exit(f"uploads: there are not {count} uploads {front}")
    for file in wrong:
        print(f"{file}: {said.get(file)}, expected {expectations.get(file)}")
    counts = [(len(files) - len(wrong), len(wrong))]
    if not wrong:
        counts.append(beside("xmllint", xmllint, said, expectations))
        counts.append(beside("xmlwf", xmlwf, said, expectations))
    passed, failed = (sum(part) for part in zip(*counts))
    print(f"\n{passed} passed, {failed} failed")
    sys.exit(1 if failed else 0)


if __name__ == "__main__":
    main()
