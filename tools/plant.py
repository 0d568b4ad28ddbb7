#!/usr/bin/env python3
"""Plants small bugs in a crate, one at a time, and asks the prover of each.

    tools/plant.py CRATE.. [--list] [--all]

Works on a copy of the repository under /tmp. Each bug is one change in one line of the crate's src/ that keeps the code's
shape: another comparison, another constant, `and` for `or`, `all` for `any`, two arguments swapped, a write dropped. It is
written as a must-fail edit of the copy, and `rt must-fail` tries them all. tools/bugs.txt has more, made by hand. Printed: how
many the prover refused for a fact that fails, how many only because a proof names what the bug took away, how many do not
compile, and each that it accepted. --all prints every bug with the prover's first words, --list the bugs alone.
"""
import os
import re
import shutil
import subprocess
import sys
import tempfile

SWAPS = [
    ("wider comparison", r" < (?!\()", " <= "),
    ("narrower comparison", r" <= ", " < "),
    ("wider comparison", r" > (?!\{)", " >= "),
    ("narrower comparison", r" >= ", " > "),
    ("unequal for equal", r" == ", " != "),
    ("equal for unequal", r" != ", " == "),
    ("or for and", r" && ", " || "),
    ("and for or", r" \|\| ", " && "),
    ("range without its end", r"\.\.=", ".."),
    ("any for all", r"\.all\(", ".any("),
    ("all for any", r"\.any\(", ".all("),
    ("absent passes", r"\.is_some_and\(", ".is_none_or("),
    ("absent fails", r"\.is_none_or\(", ".is_some_and("),
    ("largest for smallest", r"\.min\(", ".max("),
    ("smallest for largest", r"\.max\(", ".min("),
    ("meet for the first alone", r"\.meet\((\w+)\)", r""),
    ("taken away for added", r"saturating_add\(", "saturating_sub("),
    ("added for taken away", r"saturating_sub\(", "saturating_add("),
    ("sum for product", r" \* (?=\w)", " + "),
    ("yes for no", r"\bfalse\b", "true"),
    ("no for yes", r"\btrue\b", "false"),
    ("void for loose", r"\.void\(\)", ".is_loose()"),
    ("loose for void", r"\.is_loose\(\)", ".void()"),
    ("the other way round", r"\b(\w+)\.within\((\w+)\)", r"\2.within(\1)"),
    ("not negated", r"!(?=\w)(?!\w*!)", ""),
]
NUMBER = re.compile(r"(?<![\w.\"'])(\d[\d_]*)(?![\w.\"'])")
PAIR = re.compile(r"\((\w+), (\w+)\)")
FIRST_TWO = re.compile(r"(?<=\()(\w+), (\w+)(?=, )")
ARM = re.compile(r"^(\s*[^=]+) => ([^{]+),$")
FIELD = re.compile(r"^(\s*\w+): (?![&A-Z]\w*(?:<.*>)?,$)(?!&|[ui](?:8|16|32|64|size)\b)([^{]+),$")
WRITE = re.compile(r"^\s*([\w.\[\]*]+ [-+*]?= .*|\w[\w.]*\(.*\)\??);$")


def code_lines(path):
    """The lines of code: no comment, clause, attribute or use, and nothing of the tests."""
    clause = 0
    for line in open(path):
        line = line.rstrip("\n")
        word = line.strip()
        if word.startswith("#[cfg(test)]"):
            return
        if clause or word.startswith(("ensures", "requires", "ghost")):
            clause += line.count("{") - line.count("}")
            continue
        if word.startswith(("//", "#", "use ", "pub use ", "mod ", "pub mod ", "fn ", "pub fn ", "impl", "pub struct", "pub enum")):
            continue
        yield line


def changed(line):
    """Each small bug that fits a line of code: its name and the new line."""
    for name, old, new in SWAPS:
        for m in re.finditer(old, line):
            yield name, line[: m.start()] + m.expand(new) + line[m.end() :]
    for m in NUMBER.finditer(line):
        n = int(m.group(1).replace("_", ""))
        yield "another constant", line[: m.start()] + str(n + 1) + line[m.end() :]
    for kind in (PAIR, FIRST_TWO):
        for m in kind.finditer(line):
            if m.group(1) != m.group(2):
                both = m.group(0).replace(m.group(1) + ", " + m.group(2), m.group(2) + ", " + m.group(1))
                yield "arguments swapped", line[: m.start()] + both + line[m.end() :]
    if WRITE.match(line) and not line.strip().startswith(("let ", "return", "break")):
        yield "a write dropped", re.match(r"\s*", line).group(0) + "();"


def neighbours(lines):
    """Each arm of a match, and each field of a struct, with the value of the next one."""
    for line, below in zip(lines, lines[1:]):
        for name, shape, mark in (("the next case's answer", ARM, " => "), ("the next field's value", FIELD, ": ")):
            here, there = shape.match(line), shape.match(below)
            if here and there and here.group(2) != there.group(2):
                yield line, name, here.group(1) + mark + there.group(2) + ","


def bugs(crate):
    """(file, name, old line, new line) for each bug whose line stands once in its file."""
    folder = os.path.join("crates", crate, "src")
    for file in sorted(os.listdir(folder)):
        path = os.path.join(folder, file)
        text = open(path).read()
        lines = list(code_lines(path))
        planted = [(line, name, new) for line in lines for name, new in changed(line)]
        for line, name, new in planted + list(neighbours(lines)):
            if text.count(line.strip()) == 1 and new.strip() != line.strip():
                yield "src/" + file, name, line.strip(), new.strip()
    for line in open("tools/bugs.txt"):
        words = line.rstrip("\n").split(" | ")
        if words[0] == crate:
            yield words[1], words[2], words[3], words[4]


def plant(crates):
    """Tries the bugs of these crates on one copy, and gives back the bugs and what `rt must-fail` said."""
    found = {}
    with tempfile.TemporaryDirectory() as top:
        copy = os.path.join(top, "copy")
        shutil.copytree(".", copy, ignore=shutil.ignore_patterns(".git", "target", "must-fail"))
        for crate in crates:
            edits = os.path.join(copy, "crates", crate, "must-fail")
            os.makedirs(edits)
            for i, (file, name, old, new) in enumerate(bugs(crate)):
                label = f"bug_{i:03}"
                found[f"{crate}/{label}"] = (file, name, old, new)
                with open(os.path.join(edits, label + ".edit"), "w") as edit:
                    edit.write(f"file: {file}\nold: {old}\nnew: {new}\n")
        subprocess.run(["git", "init", "-q"], cwd=copy, check=True)
        said = subprocess.run(["rt", "must-fail", *crates], cwd=copy, capture_output=True, text=True)
        return found, said.stdout + said.stderr


SAID = re.compile(r"^rt: must-fail (\w+)/(bug_\d+)\.edit: (.*)$", re.M)


def verdict(words):
    """Refused for a fact, refused for a name alone, no bug that compiles, or accepted."""
    if words.startswith("refused"):
        return "by name" if "only because" in words else "refused"
    return "no code" if "BAD EDIT" in words else "accepted"


def main():
    crates = [w for w in sys.argv[1:] if not w.startswith("--")]
    os.chdir(os.path.join(os.path.dirname(os.path.abspath(__file__)), ".."))
    if "--list" in sys.argv:
        for crate in crates:
            for i, bug in enumerate(bugs(crate)):
                print(f"{crate} {i:03}", *bug, sep=" | ")
        return
    found, said = plant(crates)
    kinds = ("refused", "by name", "accepted", "no code")
    counts = {crate: dict.fromkeys(kinds, 0) for crate in crates}
    for crate, label, words in SAID.findall(said):
        kind = verdict(words)
        counts[crate][kind] += 1
        if kind == "accepted" or "--all" in sys.argv:
            print(kind, crate, label, *found[f"{crate}/{label}"], words, sep=" | ")
    for crate in crates:
        print(crate, *(f"{kind}: {counts[crate][kind]}" for kind in kinds), sep="  ")


main()
