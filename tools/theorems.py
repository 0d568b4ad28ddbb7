"""Lists the declarations of proofs/ whose statement differs between two checkouts: usage: theorems.py OLD NEW [--json]
OLD and NEW are folders with crates/. A statement is the type between `NAME :` and the definition, with the telescopes of the
modules around it; of a definition it is the body too, of a record or data its fields or cases. Names of a `where` are listed as
OUTER/NAME. Answers, Invariants and Lib are passed over. By text alone: whether a text says less, a reader judges."""

import collections
import json
import os
import re
import sys

SKIP = ("Answers.antt", "Invariants.antt", "Lib.antt")
OTHERS = re.compile(r"(?:pub\s+)?(?:use|mod|open|infix[lr]?|prefix|unfolding)\b")
MODIFIERS = ("pub", "abbrev", "opaque", "unfoldable", "instance")


def squeeze(s):
    """Whitespace and what stands at the ends of brackets, made alike."""
    s = re.sub(r"\s+", " ", s).strip()
    return re.sub(r"[,;]?\s*([)\]}])", r"\1", re.sub(r"([(\[{]) ", r"\1", s))


def bare(line):
    """A line without its comment."""
    m = re.search(r"(?:^|\s)--(?:\s|$)", line)
    return (line[: m.start()] if m else line).rstrip()


def indent(line):
    return len(line) - len(line.lstrip(" "))


def items(lines):
    """The items of a block: each starts at the block's own depth and takes the deeper lines behind it."""
    out, depth = [], None
    for l in lines:
        if not l.strip():
            continue
        if depth is None:
            depth = indent(l)
        # a closing bracket at the block's own depth belongs to what it closes
        if indent(l) <= depth and not re.match(r"\s*[)\]}]", l):
            out.append([l])
        else:
            out[-1].append(l)
    return out


def split_at_where(item):
    """An item up to a `where` that ends a line, and the lines behind it."""
    for i, l in enumerate(item):
        if re.search(r"(?:^|\s)where$", l):
            return item[:i] + [re.sub(r"\s*where$", "", l)], item[i + 1 :]
    return item, []


def top(text, word):
    """Where `word` stands outside all brackets."""
    deep = 0
    for i, c in enumerate(text):
        if c in "([{":
            deep += 1
        elif c in ")]}":
            deep -= 1
        elif not deep and text.startswith(word, i):
            return i
    return -1


def result_of(kind):
    """What a type gives back: what stands behind its last arrow outside brackets."""
    while (i := top(kind, "→")) >= 0:
        kind = kind[i + 1 :]
    return kind.strip()


def block(lines, file, outer, around, out):
    current = None
    for item in items(lines):
        text = squeeze(" ".join(item))
        words = text.split(" ")
        if OTHERS.match(text):
            continue
        if words[0] == "module":
            head, rest = split_at_where(item)
            tele = squeeze(re.sub(r"^module\s+\S+", "", squeeze(" ".join(head))))
            block(rest, file, outer, around + ([tele] if tele else []), out)
            current = None
            continue
        mods = []
        while words and words[0] in MODIFIERS:
            mods.append(words.pop(0))
        if words and words[0] in ("record", "data"):
            current = {"name": outer + words[1], "file": file, "tele": around, "mods": mods, "type": " ".join(words), "body": "", "whole": True}
            out.append(current)
            current = None
            continue
        if len(words) > 1 and words[1] == ":":
            current = {"name": outer + words[0], "file": file, "tele": around, "mods": mods, "type": squeeze(" ".join(words[2:])), "body": "", "whole": False}
            out.append(current)
            continue
        if current is None:
            raise SystemExit(f"{file}: an item without a declaration: {text[:80]}")
        head, rest = split_at_where(item)
        current["body"] = (current["body"] + " " + squeeze(" ".join(head))).strip()
        if rest:
            current["body"] += " where .."
            block(rest, file, current["name"] + "/", around, out)


def read(root):
    out = collections.defaultdict(list)
    crates = os.path.join(root, "crates")
    for crate in sorted(os.listdir(crates)):
        base = os.path.join(crates, crate, "proofs")
        for folder, dirs, names in os.walk(base):
            dirs[:] = sorted(d for d in dirs if d not in ("out", "target"))
            for f in sorted(names):
                if f.endswith(".antt") and f not in SKIP:
                    p = os.path.join(folder, f)
                    found = []
                    block([bare(l) for l in open(p, encoding="utf-8").read().split("\n")], os.path.relpath(p, os.path.join(crates, crate)), "", [], found)
                    for d in found:
                        out[crate, d["name"]].append(d)
    return out


def defines(d):
    """Whether a declaration is a definition, whose body counts, and no theorem: an abbrev, a type, or what gives a value of plain data."""
    end = result_of(d["type"])
    return not d["whole"] and ("abbrev" in d["mods"] or bool(re.match(r"(Type|ℕ|Bool|Points|Course|List|Option|Count|Verdicts)\b[^≡<≤×⊎]*$", end)))


def own(d):
    """The statement without the modules around it."""
    return d["type"] + (" ; " + d["body"] if defines(d) else "")


def said(d):
    return (" ".join(d["tele"]) + " ⊢ " if d["tele"] and "/" not in d["name"] else "") + own(d)


def compare(old, new):
    pairs, gone, fresh, moved = [], [], [], []
    for k in sorted(set(old) | set(new)):
        a, b = list(old.get(k, [])), list(new.get(k, []))
        # the same statement first, then the same file, then what is left in order
        for test in (lambda x, y: said(x) == said(y) and x["file"] == y["file"], lambda x, y: said(x) == said(y), lambda x, y: x["file"] == y["file"], lambda x, y: True):
            for x in list(a):
                y = next((y for y in b if test(x, y)), None)
                if y:
                    a.remove(x)
                    b.remove(y)
                    pairs.append((k, x, y))
        gone += [(k, x) for x in a]
        fresh += [(k, y) for y in b]
    # to another crate, or out of one declaration's `where` or into another's, with the same statement
    for k, x in list(gone):
        last = k[1].split("/")[-1]
        q = next((q for q in fresh if q[0][1].split("/")[-1] == last and said(q[1]) == said(x)), None)
        if q:
            gone.remove((k, x))
            fresh.remove(q)
            moved.append((k, x, q[0], q[1]))
    for k, x, y in pairs:
        if x["file"] != y["file"] and said(x) == said(y):
            moved.append((k, x, k, y))
    changed = [(k, x, y) for k, x, y in pairs if said(x) != said(y)]
    return pairs, changed, gone, fresh, moved


def wrapped(words, first, rest, width=130):
    out, line = [], first
    for w in words:
        if len(line) + len(w) + 1 > width and line.strip():
            out.append(line.rstrip())
            line = rest
        line += ("" if line in (first, rest) else " ") + w
    return out + [line.rstrip()]


def names(title, rows, show):
    by = collections.OrderedDict()
    for k, x in rows:
        by.setdefault(k[0], []).append(show(k, x))
    print(f"{title}\n")
    for crate, ns in by.items():
        for l in wrapped([f"`{n}`," for n in ns[:-1]] + [f"`{ns[-1]}`."], f"- {crate}: ", "  "):
            print(l)
    print()


def main(argv):
    if len(argv) < 2:
        print(__doc__, file=sys.stderr)
        return 2
    pairs, changed, gone, fresh, moved = compare(read(argv[0]), read(argv[1]))
    if "--json" in argv:
        full = lambda d: {**d, "said": said(d)}  # noqa: E731
        print(json.dumps({"changed": [[*k, full(x), full(y)] for k, x, y in changed], "gone": [[*k, full(x)] for k, x in gone], "new": [[*k, full(y)] for k, y in fresh], "moved": [[*k, x["file"], *q, y["file"]] for k, x, q, y in moved], "same": [[*k, full(x), full(y)] for k, x, y in pairs if said(x) == said(y)]}, ensure_ascii=False))
        return 0
    print("### Theorems in proofs/\n")
    n = len(pairs) + sum(1 for m in moved if m[0] != m[2])
    for l in wrapped(f"`tools/theorems.py OLD NEW` compares the statements of `proofs/` by text: {n + len(gone)} declarations stood at the commit above, names of a `where` counted, {n + len(fresh)} stand today. Of {n} that stand in both {n - len(changed)} are the same word for word ({len(moved)} of them moved), {len(changed)} are below; {len(gone)} are gone (see \"Lemmas gone\"), {len(fresh)} are new. Before ⊢ stand the parameters of the modules around a declaration. A name of a `where` stands as OUTER/NAME. Statements with the same words can name a definition that changed: those of `specs/` are under \"Definitions and theorems in specs/\".".split(" "), "", ""):
        print(l)
    print("\n```text")
    for k, x, y in changed:
        print(f"{k[0]} {y['file']} {k[1]}" + (f" (was in {x['file']})" if x["file"] != y["file"] else ""))
        print(f"  - {said(x)}\n  + {said(y)}")
    print("```\n")
    print("**Moved**, with the same statement:\n")
    print("```text")
    for k, x, q, y in moved:
        print(f"{k[0]} {x['file']} {k[1]} -> {q[0] + ' ' if q[0] != k[0] else ''}{y['file']}{' ' + q[1] if q[1] != k[1] else ''}")
    print("```\n")
    names("**Gone**, by name:", gone, lambda k, x: k[1])
    names("**New**, by name:", fresh, lambda k, x: k[1])
    return 0


if __name__ == "__main__":
    sys.exit(main(sys.argv[1:]))
