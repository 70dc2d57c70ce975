#!/usr/bin/env python3
"""The definitions of the readings, computed, beside the answers of the Rust.

Makes cases (definitions/cases.py), asks the oracle, and writes a crate `faith` beside copies of ours, in a
folder of its own; its specs say by `refl` that the definitions compute the answers of the Rust, and the places of
bad references, which the Rust does not tell, as definitions/model.py has them. `rt` checks them. Of a file that
does not pass, each case is stated alone, and what the definitions compute is printed. The last line is `N passed, M failed`."""

import argparse
import collections
import os
import random
import re
import shutil
import subprocess
import sys
import time

HERE = os.path.dirname(os.path.abspath(__file__))
ROOT = os.path.dirname(HERE)
sys.dont_write_bytecode = True
sys.path[:0] = [os.path.join(ROOT, "oracle", "py"), os.path.join(HERE, "definitions")]

import cases as made  # noqa: E402
import model  # noqa: E402
import oracle  # noqa: E402

ENOUGH = (100000, 100000)
CAUSES = {"token": 1, "mismatched": 2, "unclosed": 3, "repeated": 4, "reference": 5}
SHEETED = ("struct", "list", "map", "strings")


# ------------------------------------------------------------ what the Rust says


class Answers:
    """The oracle's tables and answers, each asked once."""

    def __init__(self):
        self.known = {}

    def ask(self, questions):
        new = [question for question in dict.fromkeys(questions) if question not in self.known]
        for at in range(0, len(new), 5000):
            part = new[at:at + 5000]
            self.known.update(zip(part, oracle.ask(part)))

    def __getitem__(self, question):
        if question not in self.known:
            self.ask([question])
        return self.known[question]

    def table(self, body):
        return oracle.table_of(self["table " + oracle.hexed(body)])

    def tables(self, bodies):
        self.ask(["table " + oracle.hexed(body) for body in bodies])
        return [self.table(body) for body in bodies]


def question(case):
    body = oracle.hexed(case.body)
    if case.kind in SHEETED:
        return "%s %s %s %d %d %d" % (case.kind, body, oracle.hexed(case.sheet), case.flags, case.depth, case.maximum)
    if case.kind in ("bool", "int", "string"):
        return "%s %s %d %d %d" % (case.kind, body, case.flags, case.depth, case.maximum)
    if case.kind == "find":
        return "find %s %s" % (body, oracle.hexed(case.sheet))
    return "%s %s" % (case.kind, body)


# An entry is (kind, member, key, text, start, length).
def entries_of(words):
    out = []
    for word in words:
        kind, index, key, *rest = word.split(",")
        kind, index, key = int(kind), int(index), oracle.unhexed(key)
        if kind in (1, 3):
            out.append((kind, index, key, oracle.unhexed(rest[0]), None, None))
        elif kind == 2:
            out.append((kind, index, key, b"", int(rest[0]), int(rest[1])))
        else:
            out.append((kind, index, key, b"", int(rest[0]), 0))
    return out


def within(number, entries, room):
    """01: an entry and its text only if both fit, else 10; change request 2: of groups too, one after another."""
    written, used = [], 0
    for entry in entries:
        need = len(entry[2]) + len(entry[3])
        if len(written) >= room[0] or used + need > room[1]:
            return 10, written
        written.append(entry)
        used += need
    return number, written


def placeless(entries):
    """Change request 1, "Runs against the Rust leave the place out": that in an entry of kind 4 whose number is 7."""
    return [entry[:5] + (0,) if entry[0] == 4 and entry[4] == 7 else entry for entry in entries]


def numbers_of(number, place, entries, in_map):
    """As definitions/Ask.antt writes a reading: texts follow one another from 0."""
    out, texts = [], b""
    for kind, index, key, text, start, length in entries:
        row = [kind, index, len(texts) if in_map else 0, len(key)]
        texts += key
        row += [len(texts), len(text)] if kind in (1, 3) else [start, length]
        texts += text
        out += row
    return [number, place, len(entries)] + out + list(texts)


class Expected:
    """What the definitions have to compute for each case; `None` where the Rust has no answer."""

    def __init__(self, answers):
        self.answers = answers
        self.by_design = []  # unwrapped pieces where 01 and the Rust differ

    def of(self, case):
        """(the word of Ask.antt, the numbers)"""
        word = "ask_" + case.kind
        if case.kind.startswith("text"):
            number, given = self.rust(case)
            return word, self.plain(case, number, 0, given)
        rows, final = self.answers.table(case.body)
        numbers = [number for row in rows for number in row]
        if case.table is not None:
            numbers, final = case.table
            rows = [numbers[at:at + 8] for at in range(0, len(numbers), 8)]
        if not model.obeys(case.body, numbers, final):
            return word, [1, 0, 0] if case.kind in SHEETED else [1, 0]
        number, place, given = self.modelled(case, rows, final)
        if case.table is None and case.kind != "whole":
            rust = self.rust(case)
            if rust is None:
                return None
            self.hold(case, rust, (number, placeless(given) if case.kind in SHEETED else given))
        if case.kind in SHEETED:
            number, given = within(number, given, case.room or ENOUGH)
            return word, numbers_of(number, place if number == 7 else 0, given, case.kind == "map")
        return word, self.plain(case, number, place, given)

    def rust(self, case):
        """(number, what was given), or None."""
        answer = self.answers[question(case)]
        if answer.startswith("bad"):
            return None
        fields = answer.split()
        number = 0 if fields[0] == "ok" else int(fields[1])
        if case.kind in SHEETED:
            return number, entries_of(fields[1:] if number == 0 else fields[2:])
        if case.kind == "drain":
            return number, number and (int(fields[2]), fields[3])
        if number != 0:
            return number, None
        if case.kind == "find":
            return 0, (int(fields[1]), int(fields[2]))
        if case.kind.endswith("bool"):
            return 0, {"true": 1, "false": 0}[fields[1]]
        if case.kind.endswith("int"):
            return 0, int(fields[1])
        return 0, oracle.unhexed(fields[1])

    def modelled(self, case, rows, final):
        """The same by definitions/model.py, with the place beside the number, which the Rust has not."""
        if case.kind in SHEETED:
            return model.reading(case, rows, final)
        if case.kind == "drain":
            failed = model.drain(case, rows, final)
            return (9, failed[2], failed[:2]) if failed else (0, 0, 0)
        if case.kind in ("find", "whole"):
            number, given = (model.find if case.kind == "find" else model.whole)(case, rows, final)
            return number, 0, given
        number, place, text = model.scalar(case, rows, final)
        if number != 0:
            return number, place, None
        if case.kind == "string":
            return 0, 0, text
        # a text is read by the Rust, in both
        number, given = self.rust(made.Case("", "", "text" + case.kind, text))
        return number, 0, given

    def hold(self, case, rust, ours):
        """The model's answer is the Rust's, but for what 01 has otherwise and for what the Rust drops."""
        if case.kind == "strings" and rust[0] >= 6:
            entries = self.refused_strings(case, rust[0])
            rust = rust[0], ours[1] if entries is None else entries
        if rust != ours and case.kind == "struct" and case.sheet[0] & 8 and rust[0] == ours[0] == 0:
            self.by_design.append((case, rust[1][0][4:], ours[1][0][4:]))
        elif rust != ours:
            raise SystemExit("the model differs from the Rust: %s\n%s\n%s" % (shown(case), rust, ours))

    def refused_strings(self, case, number):
        """The Rust drops what a refused string list had; a structure of all those names has the same texts."""
        rows, _ = self.answers.table(case.body)
        locals_ = sorted({case.body[row[3]:row[3] + row[4]] for row in rows if row[0] == 1})
        if case.flags & 4 and case.sheet[0] & 3 == 1 or len(locals_) > 64 or not all(0 < len(local) < 256 for local in locals_):
            return None
        sheet = made.structure([made.member(local) for local in locals_])
        _, entries = self.rust(made.Case("", "", "struct", case.body, sheet, case.flags & 5, case.depth, case.maximum))
        out = []
        for kind, _, key, text, start, _ in entries:
            if kind == 4:
                return out if start == number else "another number"
            out.append((kind, 0, key, text, None, None))
        return out

    def plain(self, case, number, place, given):
        if case.kind == "drain":
            return [9, given[0], CAUSES[given[1]], place] if number else [0, 0]
        if number != 0:
            return [number, place]
        if case.kind == "find":
            return [0, given[0], given[1]]
        if case.kind.endswith("bool"):
            return [0, given]
        if case.kind.endswith("int"):
            return [0, 0, given] if given >= 0 else [0, 1, -given - 1]
        return [0] + list(given) if len(given) <= (case.room or ENOUGH)[1] else [10, 0]


# ------------------------------------------------------------ what the definitions compute


def written(numbers):
    return " ∷ ".join([str(number) for number in numbers] + ["[]"])


HEAD = """use Prim.Native.Nat.{ℕ}
use mathlib.Core.Path.{◌≡◌, refl}
use mathlib.Core.List.{List, [], ◌∷◌, map}
use Rattle.readings.specs.Call.{Upload}
use Rattle.readings.proofs.All.{computed}
use Rattle.faith.specs.Ask.{
  Case, at, answer, ask_struct, ask_list, ask_map, ask_strings, ask_bool, ask_int, ask_string, ask_find, ask_whole, ask_drain,
  ask_textbool, ask_textint, ask_textstring,
}
"""


UNFOLDING = "unfolding computed"


class Module:
    """One spec file: bodies and sheets named once, and the cases."""

    def __init__(self, answers):
        self.answers = answers
        self.lines = []
        self.names = {}
        self.terms = []

    def named(self, kind, value, text):
        key = (kind, value)
        if key not in self.names:
            self.names[key] = "%s%d" % (kind[0].lower(), len(self.names))
            self.lines.append("abbrev %s : %s\n%s = %s\n" % (self.names[key], kind, self.names[key], text))
        return self.names[key]

    def bytes(self, data):
        return self.named("List ℕ", bytes(data), written(data))

    def body(self, case):
        if case.table is not None:
            numbers, final = case.table
        else:
            rows, final = self.answers.table(case.body)
            numbers = [number for row in rows for number in row]
        return self.named("Upload", (case.body, tuple(numbers), final),
                          "record { body = %s; rows = %s; end = %d }" % (self.bytes(case.body), written(numbers), final))

    def add(self, case, word):
        room = case.room or ENOUGH
        setting = "(at %d %d %d %d %d)" % (case.flags, case.depth, case.maximum, room[0], room[1])
        if case.kind in SHEETED:
            term = [word, self.body(case), self.bytes(case.sheet), setting]
        elif case.kind in ("bool", "int", "string", "whole"):
            term = [word, self.body(case), setting]
        elif case.kind == "find":
            term = [word, self.body(case), self.bytes(case.sheet)]
        elif case.kind == "drain":
            term = [word, self.body(case)]
        elif case.kind == "textstring":
            term = [word, str(room[1]), self.bytes(case.body)]
        else:
            term = [word, self.bytes(case.body)]
        self.terms.append(" ".join(term))

    def together(self, expected):
        """One statement over one list."""
        out = [HEAD] + self.lines + ["abbrev asked : List Case\nasked ="]
        out += ["    %s ∷" % term for term in self.terms]
        out += ["    []\n", "abbrev expected : List (List ℕ)\nexpected ="]
        out += ["    (%s) ∷" % written(numbers) for numbers in expected]
        out += ["    []\n", "pub cases : map answer asked ≡ expected\n%s\ncases = refl\n" % UNFOLDING]
        return "\n".join(out)

    def alone(self, expected):
        """A statement for each case."""
        out = [HEAD] + self.lines
        for i, (term, numbers) in enumerate(zip(self.terms, expected)):
            out.append("unfoldable pub got%d : List ℕ\n%s\ngot%d = answer (%s)\n" % (i, UNFOLDING, i, term))
            out.append("pub is%d : got%d ≡ %s\nunfolding got%d\nis%d = refl\n" % (i, i, written(numbers), i, i))
        return "\n".join(out)


class World:
    """The scratch folder: our crates that `readings` rests on, and the crate `faith`."""

    def __init__(self, folder):
        self.folder = folder
        self.specs = os.path.join(folder, "crates", "faith", "specs")
        lines = [line for line in open(os.path.join(ROOT, "crates.txt")) if ":" in line and not line.startswith("#")]
        needs = {line.split(":")[0].strip(): line.split(":")[1].split() for line in lines}
        wanted = needs["readings"] + ["readings"]
        os.makedirs(os.path.join(folder, "crates"), exist_ok=True)
        for crate in wanted:
            copy = os.path.join(folder, "crates", crate)
            shutil.rmtree(copy, ignore_errors=True)
            shutil.copytree(os.path.join(ROOT, "crates", crate), copy, ignore=shutil.ignore_patterns("out", "must-fail"))
        shutil.rmtree(os.path.join(folder, "crates", "faith"), ignore_errors=True)
        os.makedirs(self.specs)
        os.makedirs(os.path.join(folder, "crates", "faith", "src"))
        with open(os.path.join(folder, "crates", "faith", "src", "lib.rt"), "w") as out:
            out.write("// The definitions of the readings, computed.\n")
        with open(os.path.join(folder, "crates.txt"), "w") as out:
            out.writelines("%s: %s\n" % (crate, " ".join(needs[crate])) for crate in needs if crate in wanted)
            out.write("faith: %s\n" % " ".join(wanted))

    def check(self, texts):
        """Writes the files and has `rt` check them: the lines that it wrote, and whether all passed."""
        for name in os.listdir(self.specs):
            os.remove(os.path.join(self.specs, name))
        shutil.copy(os.path.join(HERE, "definitions", "Ask.antt.in"), os.path.join(self.specs, "Ask.antt"))
        with open(os.path.join(self.specs, "Lib.antt"), "w") as out:
            out.write("pub mod Ask\n" + "".join("pub mod %s\n" % name for name in texts))
        for name, text in texts.items():
            with open(os.path.join(self.specs, name + ".antt"), "w") as out:
                out.write(text)
        done = subprocess.run(["rt", "check"], cwd=os.path.dirname(self.specs), stdout=subprocess.PIPE, stderr=subprocess.STDOUT,
                              universal_newlines=True, env=dict(os.environ, RT_CUT="0"))
        return done.stdout.split("\n"), done.returncode == 0


ERROR = re.compile(r"/specs/(\w+)\.antt:\d+:\d+: error: (?:`(\w+)`)?")


def failing(lines):
    """(file, statement, what was computed) of each error."""
    out = []
    for at, line in enumerate(lines):
        found = ERROR.search(line)
        if found:
            computed = ""
            for more in lines[at + 1:at + 3]:
                if more.startswith("  computed as far as they go"):
                    computed = more.strip()
            out.append((found.group(1), found.group(2), computed or line))
    return out


def chunked(asked, answers, most):
    """Files of so many cases, and of fewer where tables are long: a proof has a limit of steps."""
    chunks, weight = [], most
    for item in asked:
        case = item[0]
        rows = 0 if case.kind.startswith("text") else len(answers.table(case.body)[0])
        own = 1 + rows * rows // 1000
        if weight + own > most:
            chunks.append([])
            weight = 0
        chunks[-1].append(item)
        weight += own
    return chunks


def shown(case):
    line = question(case)
    extra = ("" if case.room is None else " room %d %d" % case.room) + ("" if case.table is None else " table %s final %d" % case.table)
    return "%s%s\n    body %r sheet %r" % (line, extra, case.body, case.sheet)


def main():
    parser = argparse.ArgumentParser(description=__doc__, formatter_class=argparse.RawDescriptionHelpFormatter)
    parser.add_argument("--seed", type=int, default=1)
    parser.add_argument("--random", type=int, default=6000, help="how many random cases")
    parser.add_argument("--tables", type=int, default=4000, help="how many cases over tables that no tokenizer made")
    parser.add_argument("--no-targeted", action="store_true")
    parser.add_argument("--groups", default="", help="only these groups of targeted cases, by commas")
    parser.add_argument("--every", type=int, default=1, help="only each so many'th case")
    parser.add_argument("--skip", type=int, default=0, help="leave out the first so many cases")
    parser.add_argument("--chunk", type=int, default=400, help="cases in a file")
    parser.add_argument("--files", type=int, default=8, help="files in one run of rt")
    parser.add_argument("--folder", default=os.path.join(ROOT, "target", "definitions"))
    parser.add_argument("--oracle", default=oracle.PROGRAM)
    words = parser.parse_args()
    oracle.PROGRAM = words.oracle

    answers = Answers()
    rng = random.Random(words.seed)
    cases = [] if words.no_targeted else list(made.targeted(rng, answers.tables))
    if words.groups:
        cases = [case for case in cases if case.group in words.groups.split(",")]
    cases += made.random_cases(random.Random(words.seed + 1), words.random, answers.tables)
    cases += made.lent_tables(random.Random(words.seed + 2), words.tables, answers.tables, model.obeys)
    cases = cases[::words.every]
    answers.tables([case.body for case in cases if not case.kind.startswith("text")])
    answers.ask([question(case) for case in cases if case.table is None and case.kind != "whole"])

    expected = Expected(answers)
    asked, skipped, seen = [], 0, set()
    for case in cases:
        key = (case.kind, case.body, case.sheet, case.flags, case.depth, case.maximum, case.room, str(case.table))
        if key in seen:
            continue
        seen.add(key)
        answer = expected.of(case)
        if answer is None:
            skipped += 1
        else:
            asked.append((case,) + answer)
    print("%d cases; skipped %d where the Rust has no answer; 01 and the Rust differ by design in %d"
          % (len(asked), skipped, len(expected.by_design)), flush=True)

    world = World(words.folder)
    passed, differs = collections.Counter(), []
    asked = asked[words.skip:]
    chunks = chunked(asked, answers, words.chunk)
    done, began = 0, time.time()
    for at in range(0, len(chunks), words.files):
        part = {"Cases%d" % i: chunks[i] for i in range(at, min(at + words.files, len(chunks)))}
        modules = {}
        for name, chunk in part.items():
            module = modules[name] = Module(answers)
            for case, word, _ in chunk:
                module.add(case, word)
        lines, fine = world.check({name: module.together([numbers for _, _, numbers in part[name]]) for name, module in modules.items()})
        wrong = {}
        if not fine:
            bad = {name for name, _, _ in failing(lines)}
            if not bad:
                print("\n".join(lines))
                raise SystemExit("rt failed, and names no file")
            lines, fine = world.check({name: modules[name].alone([numbers for _, _, numbers in part[name]]) for name in bad})
            for name, statement, computed in failing(lines):
                if statement is None or not re.match(r"(is|got)\d+$", statement):
                    print("\n".join(lines))
                    raise SystemExit("an error that is no difference")
                wrong[(name, int(re.sub(r"\D", "", statement)))] = computed
            if not wrong:
                raise SystemExit("%s: the statement over the list fails, and each alone passes" % ", ".join(sorted(bad)))
        for name, chunk in part.items():
            for i, (case, word, numbers) in enumerate(chunk):
                if (name, i) in wrong:
                    differs.append((case, numbers))
                    print("differs: %s %s: %s\n    expected %s\n    %s" % (case.origin, case.group, shown(case), numbers, wrong[(name, i)]))
                else:
                    passed[(case.origin, case.group, word)] += 1
        done += sum(map(len, part.values()))
        print("%d of %d, %d differ, %.0f s" % (done, len(asked), len(differs), time.time() - began), flush=True)

    for origin in ("targeted", "random", "tables"):
        for title, place in (("kind", 2), ("group", 1)):
            counted = collections.Counter()
            for key, count in passed.items():
                if key[0] == origin:
                    counted[key[place]] += count
            print("%s by %s: %s" % (origin, title, ", ".join("%s %d" % item for item in sorted(counted.items()))))
    for case, rust, ours in expected.by_design[:3]:
        print("by design: %s\n    the Rust start %d length %d, 01 start %d length %d" % ((shown(case),) + rust + ours))
    print("%d passed, %d failed" % (sum(passed.values()), len(differs)))
    return 1 if differs else 0


if __name__ == "__main__":
    sys.exit(main())
