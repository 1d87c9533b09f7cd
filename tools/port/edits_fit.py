#!/usr/bin/env python3
"""Says which must-fail edits, in crates/ and in must-fail-more/, no longer fit the text that they change: edits_fit.py [ROOT]"""
import os
import sys

sys.path.insert(0, os.path.dirname(os.path.abspath(__file__)))
sys.dont_write_bytecode = True

import port_edits

root = sys.argv[1] if len(sys.argv) > 1 else "."
n = bad = 0
for path in port_edits.edits(root):
    n += 1
    _, pairs = port_edits.parse(open(os.path.join(root, path)).read())
    texts, why = {}, None if pairs else "no pair"
    for file, old, new in pairs:
        at = os.path.join(root, "crates", port_edits.crate_of(path), file)
        text = texts.get(file) or open(at).read()
        if text.count(old) != 1 or old == new:
            why = f"stands {text.count(old)} times in {file}: {old}"
        texts[file] = text.replace(old, new)
    if why:
        bad += 1
        print(f"{path}: {why}")
print(f"{n} edits, {bad} bad")
raise SystemExit(bad > 0)
