#!/usr/bin/env python3
"""Brings this repository's own definitions, fields and lemmas to today's spelling.

usage: python3 tools/respell.py [--list]      at the top of the repository, once, after the kit's port.py

Terms, fields and lemmas are in snake case, types and modules in camel case: `cellCount` is `cell_count`,
`accepted-laws` is `accepted_laws`, `Loosest-fitting` is `LoosestFitting`. What is renamed is what a file of specs/ or
proofs/ of this repository defines; names that the check makes, names of src/ and names of the library stay. It stops
where two names would fall together. With --list it only prints the table of old and new names.
"""

import pathlib
import re
import sys

ROOT = pathlib.Path(__file__).resolve().parent.parent / "crates"
DEFINES = re.compile(r"^\s*(?:unfoldable |abbrev )?(?:pub )?(?:unfoldable |abbrev )?(?:(?:record|data|ruleset) )?([^\s:(){}.]+(?: [^\s:(){}.]+)*?)\s*(?:[({][^:]*:.*)?:\s(.*)$")
WORD = re.compile(r"[A-Za-z0-9_'\-◌′·₀-₉]+")
# A definition that would have the name of a function of src/ gets `_lem`, and a lemma of a definition's name says what it is of.
LEM = ("bodyEnds bodyMet edgeRecords fixedMet fixedPlaces heldOn isLoose joinsNodes namesCondition namesLabel onDraft "
       "onSettled sizesOf testMet testsFixed testsMoving").split()
BY_HAND = {
    "at-getD": "at-get_or",
    "bit-and": "bit-bit_and",
    "fixed-met": "fixed_met_read",
    "test-met": "test_met_read",
    "on-draft": "on_draft_plays",
    "on-settled": "on_settled_plays",
    "fixedCount": "count_of_fixed",
}
# The second planner and the programs over it name nothing of the first one's definitions.
APART = ("second", "crosscheck")
KEPT = {"use", "pub", "open", "where", "let", "in", "module", "record", "data"}


def snake(name):
    name = re.sub(r"(?<=[a-z0-9])([A-Z])", lambda m: "_" + m.group(1).lower(), name)
    return name.replace("-", "_")


def camel(name):
    parts = name.split("-")
    return parts[0] + "".join(p[:1].upper() + p[1:] for p in parts[1:])


def new_name(name):
    if name in BY_HAND:
        return BY_HAND[name]
    if name in LEM:
        return snake(name) + "_lem"
    return camel(name) if name[:1].isupper() else snake(name)


def files(*endings):
    for path in sorted(ROOT.rglob("*")):
        if path.suffix in endings and "out" not in path.parts:
            yield path


def definitions():
    found = {}
    for path in files(".antt"):
        made = path.name in ("Answers.antt", "Invariants.antt", "Proof.antt")
        for number, line in enumerate(path.read_text().splitlines(), 1):
            if line.lstrip().startswith("--") or line.lstrip().startswith("use "):
                continue
            m = DEFINES.match(line)
            if not m or (made and re.match(r"(goal|given)\.|invariant-", m.group(2))):
                continue
            for name in m.group(1).split():
                if name in KEPT or not re.search(r"[A-Za-z]", name) or not re.fullmatch(WORD, name):
                    continue
                if new_name(name) != name and not name.startswith("invariant-"):
                    found.setdefault(name, []).append(f"{path.relative_to(ROOT)}:{number}")
    return found


def main():
    found = definitions()
    table = {name: new_name(name) for name in found}
    if "--list" in sys.argv:
        for name, places in sorted(found.items()):
            print(name, table[name], places[0])
        return
    seen = set()
    for path in files(".antt", ".rt"):
        if path.relative_to(ROOT).parts[0] not in APART:
            seen.update(WORD.findall(path.read_text()))
    clashes = [f"{a} -> {b}" for a, b in sorted(table.items()) if b in seen]
    twice = [b for b in set(table.values()) if sum(1 for v in table.values() if v == b) > 1]
    if clashes or twice:
        sys.exit("names that fall together: " + ", ".join(clashes + twice))
    for path in files(".antt", ".rt", ".edit"):
        text = path.read_text()
        new = WORD.sub(lambda m: table.get(m.group(0), m.group(0)), text)
        if new != text:
            path.write_text(new)


main()
