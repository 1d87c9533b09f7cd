#!/usr/bin/env python3
"""Turns must-fail edits to today's spelling, by the kit's own script.

usage: port_edits.py lay OLD WORK      copies the repository OLD to WORK, and beside each file that an edit changes lays that file with the edit made
       (then, in WORK, committed: python3 /opt/rattle/port/port.py, and tools/port/respell.py WORK)
       port_edits.py take OLD WORK TO  writes the edits anew into the repository TO: what differs between a file of WORK and its edited copy

An edit's head (its comments) stays. A line 'old:' is the whole line of the file, cut short at both ends where that still stands once.
"""
import os
import re
import shutil
import subprocess
import sys

sys.path.insert(0, os.path.dirname(os.path.abspath(__file__)))
sys.dont_write_bytecode = True

import respell


def edits(root):
    for top in ("crates", "must-fail-more"):
        for folder, dirs, files in os.walk(os.path.join(root, top)):
            dirs[:] = sorted(d for d in dirs if d not in ("out", ".git"))
            for f in sorted(files):
                if f.endswith(".edit"):
                    yield os.path.relpath(os.path.join(folder, f), root)


def crate_of(path):
    return path.split("/")[1]


def parse(text):
    """The head's lines, then a list of (file, old, new)."""
    head, pairs, file, old = [], [], None, None
    for line in text.splitlines():
        if line.startswith("file:"):
            file = line[5:].strip()
        elif line.startswith("old:"):
            old = line[5:]
        elif line.startswith("new:"):
            pairs.append((file, old, line[5:]))
        else:
            head.append(line)
    return head, pairs


def copy_name(file, k):
    base, ext = os.path.splitext(file)
    return f"{base}Edit{k}{ext}" if ext == ".antt" else f"{base}_edit{k}{ext}"


def made(root, path):
    """file -> its text with the edit made."""
    _, pairs = parse(open(os.path.join(root, path)).read())
    texts = {}
    for file, old, new in pairs:
        at = os.path.join(root, "crates", crate_of(path), file)
        text = texts.get(file) or open(at).read()
        if text.count(old) != 1:
            print(f"{path}: stands {text.count(old)} times in {file}: {old}")
            continue
        texts[file] = text.replace(old, new)
    return texts


def lay(old, work):
    shutil.copytree(old, work, symlinks=True, ignore=shutil.ignore_patterns("out", "target"))
    for k, path in enumerate(edits(old)):
        for file, text in made(old, path).items():
            to = os.path.join(work, "crates", crate_of(path), copy_name(file, k))
            with open(to, "w") as f:
                f.write(text)
    for c in (["git", "add", "-A"], ["git", "-c", "user.name=x", "-c", "user.email=x@x", "commit", "-q", "-m", "edits laid"]):
        subprocess.run(c, cwd=work, check=True)


def respelled(text, rows, file):
    """The part of a line, by the table of names and by what the kit's script does to a part of a line."""
    if file.endswith(".rt"):
        parts = re.split(r'("(?:[^"\\]|\\.)*")', text)
        for i in range(0, len(parts), 2):
            parts[i] = re.sub(r"(?<![\w'])[a-z][a-z0-9]*[A-Z][A-Za-z0-9]*'*(?![\w])", lambda w: rows.get(w[0], w[0]), parts[i])
        return "".join(parts)
    text = re.sub(r"(?<=[\w)]) \.(?=[a-z0-9])", ".", text.replace("\u2032", "'"))
    text = re.sub(r"\(([^\s()]+\.[\w.-]+)\)", r"\1", text)
    text = respell.turn_code(text, rows, False)
    return re.sub(r"\bgetD\b", "get_or", text)


def lines_of(base, with_edit):
    """The lines that differ, each with what it becomes, or None where lines were added or taken."""
    if len(base) != len(with_edit):
        return None
    return [(x.strip(), y.strip()) for x, y in zip(base, with_edit) if x != y]


def squeezed(text):
    return re.sub(r"\s+|,(?=\s*[)}])", "", text)


def take(old, work, to):
    rows = respell.read_table()
    same = changed = by_line = 0
    for k, path in enumerate(edits(old)):
        head, pairs = parse(open(os.path.join(old, path)).read())
        crate = crate_of(path)
        turned = {}
        for file in dict.fromkeys(p[0] for p in pairs):
            at = os.path.join(work, "crates", crate, copy_name(file, k))
            turned[file] = (open(os.path.join(work, "crates", crate, file)).read(), open(at).read() if os.path.exists(at) else None)
        texts, out, fits, last = {f: t[0] for f, t in turned.items()}, list(head), True, None
        for file, o, n in pairs:
            o2, n2 = respelled(o, rows, file), respelled(n, rows, file)
            fits = fits and texts[file].count(o2) == 1
            texts[file] = texts[file].replace(o2, n2)
            out += ([] if file == last else [f"file: {file}"]) + [f"old: {o2}", f"new: {n2}"]
            last = file
        fits = fits and all(t[1] is None or squeezed(texts[f]) == squeezed(t[1]) for f, t in turned.items())
        if not fits:
            by_line += 1
            out = list(head)
            for file, (base, with_edit) in turned.items():
                rows_of = lines_of(base.splitlines(), (with_edit or "").splitlines())
                if rows_of is None:
                    print(f"by hand: {path}: lines were added or taken in {file}")
                    rows_of = []
                out.append(f"file: {file}")
                for o, n in rows_of:
                    if base.count(o) != 1:
                        print(f"by hand: {path}: stands {base.count(o)} times in {file}: {o}")
                    out += [f"old: {o}", f"new: {n}"]
        new_text = "\n".join(out) + "\n"
        at = os.path.join(to, path)
        if open(at).read() == new_text:
            same += 1
            continue
        changed += 1
        if fits or not any("by hand" in l for l in out):
            with open(at, "w") as f:
                f.write(new_text)
    print(f"edits: {same} as they were, {changed} turned, of these {by_line} by whole lines")


if __name__ == "__main__":
    if len(sys.argv) == 4 and sys.argv[1] == "lay":
        lay(*sys.argv[2:])
    elif len(sys.argv) == 5 and sys.argv[1] == "take":
        take(*sys.argv[2:])
    else:
        print(__doc__)
        raise SystemExit(2)
