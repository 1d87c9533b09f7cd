#!/usr/bin/env python3
"""Brings the repository's own names to today's spelling: snake case for what is no type, module or fact, and a dash only between two names.

usage: respell.py table ROOT > names.tsv   the table: old spelling, a tab, new spelling
       respell.py turn ROOT                turns the names of names.tsv (beside this script) in the crates and pages below ROOT

Functions of src/, strings, inputs and outputs keep their names. A lemma that would have its function's name gets `_lem`.
"""
import collections
import os
import re
import sys

HERE = os.path.dirname(os.path.realpath(__file__))
WORD = re.compile(r'[^\s(){}.;,@"«»\[\]|`]+')
CAMEL = re.compile(r"^[a-z][a-z0-9]*[A-Z][A-Za-z0-9]*'*$")
DECLARED = re.compile(
    r"^(\s*)((?:(?:unfoldable|abbrev|pub|elim|private|instance)\s+)*)(record |data |module )?([^\s:(){},;]+)((?: [^:=]*)?) : (.*)$"
)
BINDER = re.compile(r"[({]([^(){}:]+?) : ")


def files(root, ends=(".antt", ".rt")):
    for folder, dirs, names in os.walk(os.path.join(root, "crates")):
        dirs[:] = sorted(d for d in dirs if d not in ("out", ".git"))
        for f in sorted(names):
            if f.endswith(ends):
                yield os.path.join(folder, f)


def snake(part):
    return re.sub(r"(?<=[a-z0-9])[A-Z]", lambda m: "_" + m[0].lower(), part)


def code(line):
    """The line's code and its comment."""
    m = re.search(r"(?<![^\s(){}.;,])--(?![^\s])", line)
    return (line[: m.start()], line[m.start() :]) if m else (line, "")


def declared(root):
    """What specs/ and the files beside the functions' proofs declare: a name, and whether it is a function of specs/ ('word') or not ('lemma')."""
    found = {}
    for p in files(root, (".antt",)):
        rel = os.path.relpath(p, root).split("/")
        if rel[2] == "proofs" and len(rel) > 4:
            continue
        for line in open(p):
            text, _ = code(line.rstrip("\n"))
            m = DECLARED.match(text)
            if not m or "let " in text[: m.start(6)] or m.group(4) in ("let", "in", "use", "λ"):
                continue
            kind = "word" if "unfoldable" in m.group(2) or "abbrev" in m.group(2) or m.group(3) or m.group(1) else "lemma"
            if found.get(m.group(4)) != "word":
                found[m.group(4)] = kind
    return found


def tokens(root):
    seen = collections.Counter()
    for p in files(root, (".antt",)):
        for line in open(p):
            text, _ = code(line)
            for m in WORD.finditer(text):
                seen[m[0]] += 1
    for p in files(root, (".rt",)):
        for m in re.finditer(r"[\w'-]+", open(p).read()):
            seen[m[0]] += 1
    return seen


# words of std that stand first in a lemma's name, as in `length-append`
HEADS = {"length", "get_or", "set", "take", "drop"}


def table(root):
    names = declared(root)
    seen = tokens(root)
    words = {n for n, k in names.items() if k == "word" and "-" not in n}
    rows = {}
    for t in seen:
        if CAMEL.match(t):
            rows[t] = snake(t)
    for n in names:
        if n == "eq-eqb" or "-" not in n or "◌" in n or n.startswith("-") or n.endswith("-"):
            continue
        parts = ["get_or" if p == "getD" else snake(p) if CAMEL.match(p) else p for p in n.split("-")]
        # the dash stays behind a word of std, the outer call of the lemma's left side
        out = parts[0] + ("-" if parts[0] in HEADS else "_") + "_".join(parts[1:])
        rows[n] = out
    taken = collections.defaultdict(list)
    for old, new in rows.items():
        taken[new].append(old)
    for new, olds in taken.items():
        rivals = list(olds) + ([new] if new in seen and new not in rows else [])
        if len(rivals) < 2:
            continue
        # a word keeps the name, lemmas get `_lem`
        lemmas = [o for o in olds if "-" in o]
        for o in lemmas:
            if len(olds) == len(lemmas) == 1 and new not in names and new not in words and not any(CAMEL.match(x) for x in olds):
                # the spelling is used by something else: a local name, a function of src/
                sys.stderr.write(f"look: {o} -> {new}, which stands elsewhere {seen[new]} times\n")
            rows[o] = new + "_lem"
        others = [o for o in olds if "-" not in o]
        if len(others) + (1 if new in seen else 0) > 1:
            sys.stderr.write(f"look: {' '.join(others)} -> {new}, which stands {seen[new]} times\n")
    for old in sorted(rows):
        if rows[old] != old:
            print(f"{old}\t{rows[old]}")


# lemmas that the kit's script spelled as a word of the same file is spelled now: the crate's files, the lemma
LEMMAS = {
    "double": ("whole_part", "whole_by", "without_sign"),
    "double_laws": ("whole_part",),
    "machine": ("is_ok",),
    "rules": ("counted_step",),
    "snapshot": ("read_answer",),
}


def turn_lemmas(text, rel):
    """The lemmas of LEMMAS, in the files that cite them bare."""
    if rel[1] != "proofs" or (len(rel) > 3 and rel[2] != "absolute"):
        return text
    for name in LEMMAS.get(rel[0], ()):
        text = re.sub(rf"(?<![\w.'-]){name}(?![\w'-])", name + "_lem", text)
    return text


def read_table():
    rows = {}
    for line in open(os.path.join(HERE, "names.tsv")):
        old, new = line.rstrip("\n").split("\t")
        rows[old] = new
    return rows


def turn_code(text, rows, in_function):
    def one(m):
        t = m[0]
        if t not in rows:
            return t
        before = text[: m.start()]
        if "-" in t and in_function and before.endswith("."):
            # a step or a goal that Rattle names, unless a module of ours stands before the dot
            head = re.search(r"([^\s(){};,]+)\.$", before)
            if head and not head[1].startswith("Rattle."):
                return t
        return rows[t]

    return WORD.sub(one, text)


def turn_spans(text, rows):
    """A comment or a page: what stands in backticks, and camel case words."""
    text = re.sub(r"`[^`\n]+`", lambda m: WORD.sub(lambda w: rows.get(w[0], w[0]), m[0]), text)
    return re.sub(r"(?<![\w/.-])[a-z][a-z0-9]*[A-Z]\w*(?![\w(-])", lambda m: rows.get(m[0], m[0]), text)


def turn_antt(path, rows):
    rel = path.split("/crates/")[1].split("/")
    in_function = rel[1] == "proofs" and len(rel) > 3
    out = []
    for line in open(path):
        text, comment = code(line)
        out.append(turn_code(turn_lemmas(text, rel), rows, in_function) + turn_spans(turn_lemmas(comment, rel), rows))
    return "".join(out)


def turn_rt(path, rows):
    out = []
    for line in open(path):
        m = re.search(r"(?<!:)//.*$", line)
        text, comment = (line[: m.start()], line[m.start() :]) if m else (line, "")
        parts = re.split(r'("(?:[^"\\]|\\.)*")', text)
        for i in range(0, len(parts), 2):
            parts[i] = re.sub(r"(?<![\w'])[a-z][a-z0-9]*[A-Z][A-Za-z0-9]*'*(?![\w])", lambda w: rows.get(w[0], w[0]), parts[i])
            if re.match(r"\s*(ghost use|requires|ensures|ghost)\b", text):
                parts[i] = WORD.sub(lambda w: rows.get(w[0], w[0]), parts[i])
        out.append("".join(parts) + turn_spans(comment, rows))
    return "".join(out)


def turn(root):
    rows = read_table()
    changed = 0

    def write(path, new):
        nonlocal changed
        if open(path).read() != new:
            changed += 1
            with open(path, "w") as f:
                f.write(new)

    for p in files(root, (".antt",)):
        write(p, turn_antt(p, rows))
    for p in files(root, (".rt",)):
        write(p, turn_rt(p, rows))
    for folder in ("", "docs", "reference", "examples"):
        top = os.path.join(root, folder)
        if not os.path.isdir(top):
            continue
        for f in sorted(os.listdir(top)):
            if f.endswith(".md"):
                p = os.path.join(top, f)
                write(p, turn_spans(open(p).read(), rows))
    print(f"{changed} files changed")


if __name__ == "__main__":
    if len(sys.argv) == 3 and sys.argv[1] in ("table", "turn"):
        globals()[sys.argv[1]](sys.argv[2])
    else:
        print(__doc__)
        raise SystemExit(2)
