#!/usr/bin/env python3
"""specs/ holds what a reader must believe, and nothing else: data types, records, and definitions that unfold.

A file of crates/*/specs fails where it has a `ruleset`, an axiom or a law. A law is a declaration with a body that is neither
`abbrev` nor `unfoldable`, so that only its type says anything; or one that is, and whose type ends in an equation, an order, `⊥`, or
a type of specs/ that speaks of values, as `Passed body table final` does. A file of specs/ or src/ fails where it takes a name from
a proofs/ of ours, so that all that a contract says is said in specs/ (the library has options and the like in modules `proofs`). In src/
an `impl` may: where it proves a law of its trait, below its last function, what no clause can cite.
A file of the three fails where a line is longer than 140 characters.
Files are read as `rt fmt` writes them: a declaration begins at column 0, and its continuation does not.
Each file counts once; the last line is `N passed, M failed`. Before it: how many lines each crate asks a reader to believe."""

import os
import re
import sys

ROOT = os.path.dirname(os.path.dirname(os.path.abspath(__file__)))
WIDE = 140

SECTION = re.compile(r"(unfoldable |abbrev )*(module|mutual)\b")
PLAIN = re.compile(r"((pub )?(record|data|use|mod) |infix[lr]? |unfolding )")
SIGNATURE = re.compile(r"((?:unfoldable |abbrev |pub )*)([^\s(){};,@\".]+)(?: \{[^}]*\})? :(?:\s|$)(.*)", re.S)
PROOFS = re.compile(r"^(?!\s*(?:--|//)).*Rattle\.(?!std\.)\w+\.proofs\b")
LAW = re.compile(r"^    ghost \w+ = \{")
PROPOSITION = re.compile(r"(^| )(≡|≢|≤|<|≥|>|↔|⊥)( |$)")
TYPE = re.compile(r"^ *(?:pub )?(?:record|data) (\S+)([^\n]*(?:\n {4,}[^\n]*)*?) where$", re.M)
NAMED = re.compile(r"^ *(?:unfoldable |abbrev |pub )+(\S+)( : [^\n]*(?:\n {4,}→[^\n]*)*) → Type \d+$", re.M)


def result(kind):
    """what a type ends in: after its last arrow, without what stands in parentheses"""
    flat = kind
    while re.search(r"[({][^(){}]*[)}]", flat):
        flat = re.sub(r"[({][^(){}]*[)}]", "_", flat)
    return flat.split("→")[-1].strip()


def speaking(text):
    """the names of types with a parameter or an index that is no type itself"""
    for name, head in TYPE.findall(text) + NAMED.findall(text):
        if re.search(r": (?!Type\b)", head):
            yield name


def laws(lines, first, about, marks=""):
    """(line number, what is wrong) of declarations at column 0; those of a section are read without its indentation"""
    at = [k for k, line in enumerate(lines) if line and not line.startswith((" ", "--", "}"))]
    for k, end in zip(at, at[1:] + [len(lines)]):
        line = lines[k]
        section, signature = SECTION.match(line), SIGNATURE.match("\n".join(lines[k:end]))
        if section:
            yield from laws([inner[2:] for inner in lines[k + 1:end]], first + k + 1, about, line[:section.start(2)])
        elif PLAIN.match(line):
            pass  # no law
        elif re.match(r"(pub )?(ruleset|axiom)\b|axiom ", line):
            yield first + k, "no definition: " + line
        elif signature and not re.search("unfoldable|abbrev", signature.group(1) + marks):
            yield first + k, "a law: " + signature.group(2)
        elif signature:
            ends = [part.strip() for part in result(signature.group(3)).split("×")]
            if any(PROPOSITION.search(part) or " " in part and part.split()[0] in about for part in ends):
                yield first + k, "a law, though it unfolds: " + signature.group(2)


def of_laws(lines, k):
    """whether line k takes names from proofs/ that stand in the proofs of laws alone"""
    names = re.search(r"\{(.*)\}", lines[k])
    uses = [i for name in names.group(1).split(", ") for i, line in enumerate(lines)
            if i != k and re.search(r"(?<![\w-])%s(?![\w-])" % re.escape(name), line)] if names else []
    for i in uses:
        end = next((j for j in range(i, len(lines)) if lines[j] == "}"), len(lines))
        if not LAW.match(lines[i]) or any(re.search(r"\bfn ", line) for line in lines[i:end]):
            return False
    return bool(uses)


def main():
    files, about = {}, set()
    for folder, _, names in sorted(os.walk(os.path.join(ROOT, "crates"))):
        for name in sorted(names):
            path = os.path.relpath(os.path.join(folder, name), ROOT)
            place = re.match(r"crates/([^/]+)/(specs|src|proofs)/.*\.(antt|rt)$", path)
            if place:
                with open(os.path.join(ROOT, path), encoding="utf-8") as text:
                    files[path] = place.group(2), place.group(1), text.read()
                if place.group(2) != "proofs":
                    about |= set(speaking(files[path][2]))
    passed, believe = 0, {}
    for path, (kind, crate, text) in files.items():
        lines = text.split("\n")
        found = [(k, "%d characters" % len(line)) for k, line in enumerate(lines, 1) if len(line) > WIDE]
        if kind != "proofs":
            found += [(k, "it rests on proofs/: " + line) for k, line in enumerate(lines, 1)
                      if PROOFS.search(line) and not (kind == "src" and of_laws(lines, k - 1))]
        if kind == "specs":
            found += laws(lines, 1, about)
            believe[crate] = believe.get(crate, 0) + len(lines) - 1
        for line, what in sorted(found):
            print("%s:%d: %s" % (path, line, what))
        passed += not found
    print("lines in specs/: " + ", ".join("%s %d" % crate for crate in believe.items()) + "; in all %d" % sum(believe.values()))
    print("%d passed, %d failed" % (passed, len(files) - passed))
    return passed < len(files)


if __name__ == "__main__":
    sys.exit(main())
