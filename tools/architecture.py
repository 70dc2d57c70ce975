#!/usr/bin/env python3
"""What docs/ARCHITECTURE.md says of files is so: in each table whose last column is `file`, every name that the column before
it gives in backticks is declared in a file that the row links to.
A name is declared where a line begins with it, after `pub`, `data` and the like, and gives its type; of `A.b` so is b after A.
Each row counts once; the last line is `N passed, M failed`."""

import os
import re
import sys

ROOT = os.path.dirname(os.path.dirname(os.path.abspath(__file__)))
DOCS = os.path.join(ROOT, "docs")
LINK = re.compile(r"\]\(([^)]+)\)")
NAME = re.compile(r"`([A-Za-z][\w.′·-]*)`")
MARKS = r"^\s*(?:abbrev |unfoldable |pub |data |record )*"
CODE = r"^\s*(?:pub )?(?:extern \"C\" )?(?:fn|struct|enum|const) "


def texts(target):
    """the files of a link, which may be a folder"""
    path = os.path.normpath(os.path.join(DOCS, target))
    paths = [path]
    if os.path.isdir(path):
        paths = [os.path.join(folder, name) for folder, _, names in os.walk(path) for name in names]
    for path in paths:
        with open(path, encoding="utf-8") as file:
            yield file.read()


def declares(text, name):
    """of `A.b` the second part is declared after the first"""
    at = 0
    for part in map(re.escape, name.split(".")):
        found = re.compile(MARKS + part + r"(?: [^=\n]*)? :|" + CODE + part + r"\b", re.M).search(text, at)
        if not found:
            return False
        at = found.end()
    return True


def rows():
    """(line number, names, links) of the rows of tables whose last column is `file`"""
    with open(os.path.join(DOCS, "ARCHITECTURE.md"), encoding="utf-8") as file:
        lines = file.read().split("\n")
    held = False
    for number, line in enumerate(lines, 1):
        cells = [cell.strip() for cell in line.split("|")[1:-1]]
        if not cells:
            held = False
        elif cells[-1] == "file":
            held = True
        elif held and not set("".join(cells)) <= set("-"):
            yield number, NAME.findall(cells[-2]), LINK.findall(cells[-1])


def wrong(names, links):
    if not links:
        return "links to no file"
    missing = [link for link in links if not os.path.exists(os.path.join(DOCS, link))]
    if missing:
        return "no such file: " + ", ".join(missing)
    files = [text for link in links for text in texts(link)]
    lost = [name for name in names if not any(declares(text, name) for text in files)]
    return "not declared there: " + ", ".join(lost) if lost else None


def main():
    passed = failed = 0
    for number, names, links in rows():
        why = wrong(names, links)
        if why:
            print(f"docs/ARCHITECTURE.md:{number}: {why}")
            failed += 1
        else:
            passed += 1
    if not passed:
        failed += 1
        print("docs/ARCHITECTURE.md: no row that holds")
    print(f"{passed} passed, {failed} failed")
    return 1 if failed else 0


if __name__ == "__main__":
    sys.exit(main())
