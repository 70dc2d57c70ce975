#!/usr/bin/env python3
"""What falzheod_c exports is what falzheod promises. A crate is a library or a static library, so each open operation stands in both:
here each public `falzheod_..` of one is held to that of the other, in the file of the same name. An export fails where its parameters,
its result or a clause differs by a word, where it does anything but call the operation of its name with its parameters in order, or
where include/falzheod.h does not declare it; an operation fails where it is not exported.
Each operation counts once; the last line is `N passed, M failed`."""

import os
import re

ROOT = os.path.dirname(os.path.dirname(os.path.abspath(__file__)))
FUNCTION = re.compile(
    r"^((?:#\[[^\n]*\]\n)*)pub (extern \"C\" )?fn (falzheod_\w+)\((.*?)\) -> (\w+)\n(.*?)^\{\n(.*?)^\}$", re.M | re.S)


def read(*path):
    with open(os.path.join(ROOT, *path), encoding="utf-8") as file:
        return file.read()


def words(text):
    """what is said, however it is broken into lines"""
    return re.sub(r",(?=\))", "", " ".join(text.split()).replace("( ", "(").replace(" )", ")")).rstrip(", ")


def functions(crate):
    """(file, name) to (marks, parameters and result, clauses, body) of the public operations of a crate"""
    found = {}
    folder = os.path.join("crates", crate, "src")
    for name in sorted(os.listdir(os.path.join(ROOT, folder))):
        for marks, extern, function, parameters, result, clauses, body in FUNCTION.findall(read(folder, name)):
            signature = words(parameters) + " -> " + result
            found[name, function] = marks + extern, signature, words(clauses), words(body)
    return found


def call(file, name, signature):
    """the one line that an export has"""
    module = "" if file == "lib.rt" else file[:-len(".rt")] + "::"
    return "falzheod::%s%s(%s)" % (module, name, ", ".join(re.findall(r"(\w+): ", signature)))


def wrong(key, operation, export, header):
    if export is None:
        return "falzheod_c does not export it"
    if operation is None:
        return "falzheod has no such operation"
    if export[0] != '#[unsafe(no_mangle)]\nextern "C" ':
        return "falzheod_c does not export it to C"
    for what, ours, theirs in zip(("parameters or result", "clauses"), operation[1:], export[1:]):
        if ours != theirs:
            return "its %s differ: %s | %s" % (what, ours, theirs)
    if not operation[2]:
        return "it promises nothing"
    if export[3] != call(*key, operation[1]):
        return "the export does something else: " + export[3]
    if not re.search(r"\b%s\(" % key[1], header):
        return "include/falzheod.h does not declare it"
    return None


def main():
    operations, exports = functions("falzheod"), functions("falzheod_c")
    header = read("include", "falzheod.h")
    passed = failed = 0
    for key in sorted(set(operations) | set(exports)):
        why = wrong(key, operations.get(key), exports.get(key), header)
        if why:
            print("%s, %s: %s" % (key[1], key[0], why))
            failed += 1
        else:
            passed += 1
    if passed + failed == 0:
        print("no operation was found")
        failed = 1
    print("%d passed, %d failed" % (passed, failed))
    return failed != 0


if __name__ == "__main__":
    raise SystemExit(main())
