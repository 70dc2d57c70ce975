#!/usr/bin/env python3
"""Spells the names that this repository's specs/ and proofs/ declare as Rattle's guide has them: words in snake case, joined by `_`.

Used once, after the toolchain's own port.py, when the repository was brought to a later Rattle (docs/PORT.md). Functions of src/, types, modules,
variants of enums and what a library declares keep their names. Where two names would fall together, the lemma, which was written with dashes, gets
`_lem`; a definition that a parameter would hide gets `_of`.

    python3 tools/respell.py [--check]      writes the files; --check says only what it would do"""

import collections
import os
import re
import sys

WORD = r'[^\s(){}.;,@"«»\x60]+'
TOKEN = re.compile(WORD)
COMMENT = re.compile(r"(?m)(?:(?<=\s)|^)(?:--|//).*$")
USE = re.compile(r"\buse ([^\s;{]+)\.\{([^}]*)\}")
DECLARED = (
    re.compile(r"(?m)^ *(?:(?:pub|abbrev|unfoldable|ruleset|record|data|deriving) +)*(" + WORD + r")(?: (?:\{[^{}\n]*\}|\([^()\n]*\)))* :(?:\s|$)"),
    re.compile(r"(?m)^ *(?:pub +)?ruleset +(" + WORD + r")"),
)
# a parameter hides a definition of its name in the clauses of its function
PARAMETER = re.compile(r"\b(\w+): ?(?!:)")
FILES = {".antt", ".rt", ".md", ".in"}
SKIP = {".git", "out", "target"}


def files():
    for folder, below, names in os.walk("."):
        below[:] = sorted(name for name in below if name not in SKIP)
        for name in sorted(names):
            path = os.path.join(folder, name)[2:]
            if os.path.splitext(name)[1] in FILES and path not in ("tools/respell.py", "crates.txt"):
                yield path


def read(path):
    with open(path, encoding="utf-8", newline="") as file:
        return file.read()


def is_proof(path):
    """the proof of one function: its own names are Rattle's, but for those of the laws that it uses"""
    return os.path.basename(path) == "Proof.antt"


def snake(name):
    return re.sub(r"(?<=[a-z0-9])[A-Z]", lambda m: "_" + m[0].lower(), name).replace("-", "_")


def is_yours(path):
    return path.startswith("Rattle.") and path.split(".")[1] in CRATES


def foreign(text):
    """the names that a file takes from a library"""
    for path, names in USE.findall(text):
        if not is_yours(path):
            for name in names.replace("«", "").replace("»", "").split(","):
                yield name.strip().split(" as ")[-1].strip()


def table(texts):
    declared, hides = set(), collections.defaultdict(set)
    for path, text in texts.items():
        code = COMMENT.sub("", text)
        if path.endswith(".antt") and not is_proof(path):
            for pattern in DECLARED:
                declared.update(pattern.findall(code))
        if path.endswith(".rt"):
            for name in TOKEN.findall(" ".join(names for place, names in USE.findall(code) if is_yours(place))):
                hides[name].update(PARAMETER.findall(code))
        if path.endswith(".antt"):
            taken = set(foreign(code))
            for name in set(TOKEN.findall(code)):
                hides[name].update(taken - {name})
    turned = {name for name in declared if name[0].islower() and snake(name) != name}
    sides = collections.defaultdict(set)
    for name in declared:
        sides[snake(name)].add(name)
    new = {}
    for name in sorted(turned):
        plain = snake(name)
        if "-" in name and (sides[plain] - {name} or plain in hides[name]):
            plain += "_lem"
        elif "-" not in name and plain in hides[name]:
            plain += "_of"
        new[name] = plain
    # a lemma that was spelled with `_` already and meets a definition
    for names in sides.values():
        for name in names - turned:
            if any(new[other] == name for other in names & turned):
                new[name] = name + "_lem"
    met = collections.Counter(list(new.values()) + [name for name in declared if name not in new])
    together = sorted(name for name, count in met.items() if count > 1)
    assert not together, "names that fall together: " + ", ".join(together)
    return new


def turned(path, text, new):
    kind = os.path.splitext(path)[1]
    keep = set(foreign(COMMENT.sub("", text))) if kind in (".antt", ".rt") else set()
    own = set()
    if is_proof(path):
        for pattern in DECLARED:
            own.update(pattern.findall(COMMENT.sub("", text)))

    def word(match):
        name = match[0]
        return name if name in keep or name in own else new.get(name, name)

    def camel(match):
        return word(match) if "-" not in match[0] and re.search("[a-z0-9][A-Z]", match[0]) else match[0]

    def prose(piece):
        """spans of code in full; beside them only what no prose has"""
        parts = re.split(r"(\x60[^\x60\n]*\x60)", piece)
        return "".join(TOKEN.sub(word, part) if k % 2 else TOKEN.sub(camel, part) for k, part in enumerate(parts))

    if kind in (".antt", ".rt", ".in"):
        out, at = [], 0
        for match in COMMENT.finditer(text):
            out += [TOKEN.sub(word, text[at:match.start()]), prose(match[0])]
            at = match.end()
        return "".join(out) + TOKEN.sub(word, text[at:])
    if kind == ".md":
        return prose(text)
    return text


def main():
    texts = {path: read(path) for path in files()}
    new = table(texts)
    changed = 0
    for path, text in texts.items():
        after = turned(path, text, new)
        if after != text:
            changed += 1
            if "--check" not in sys.argv:
                with open(path, "w", encoding="utf-8", newline="") as file:
                    file.write(after)
    if "--check" in sys.argv:
        for name, plain in sorted(new.items()):
            print(name, plain)
    print("%d names, %d files" % (len(new), changed))


CRATES = {line.split(":")[0].split()[0] for line in read("crates.txt").splitlines() if line.strip() and not line.startswith("#")}
main()
