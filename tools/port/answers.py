#!/usr/bin/env python3
"""Turns proofs/F/Proof.antt, written goal by goal over `tie`, to proofs/F/Answers.antt and Invariants.antt, by what rt says of the names.

usage: answers.py CRATE NAMES.JSON [F..]   in the repository; NAMES.JSON is what 'rt check --generated DIR --old-names' wrote for the crate

The old file is moved to proofs/F/Proof.antt.old (never committed). What it cannot turn it says in a line 'left:'.
"""
import json
import os
import re
import sys

TIE = re.compile(r"^use (Rattle\.\S+?\.proofs\.(\S+))\.Tie as tie$", re.M)


def blocks(text):
    """Top-level pieces: each begins at an unindented line that follows a blank line or another piece."""
    out, current = [], []
    for line in text.split("\n"):
        if line and not line[0].isspace() and current and not current[-1].startswith("--") and (current[-1] == "" or line.startswith("use ")):
            out.append("\n".join(current).rstrip("\n"))
            current = []
        current.append(line)
    out.append("\n".join(current).rstrip("\n"))
    return [b for b in out if b.strip()]


def arguments(text):
    """The arguments of an application, split at depth 0."""
    out, depth, cur = [], 0, ""
    for ch in text:
        if depth == 0 and ch.isspace():
            if cur:
                out.append(cur)
            cur = ""
            continue
        if ch in "({":
            depth += 1
        if ch in ")}":
            depth -= 1
        cur += ch
    if cur:
        out.append(cur)
    return out


def norm(name):
    return name.replace("_", "-").lower()


class Names:
    def __init__(self, info):
        self.info = info
        self.needs = info["needs"]
        self.by_old = {norm(o): n for o, n in info["needs"]}
        self.places = {}
        for i, (name, parent, (old, new), fn, more) in enumerate(info["places"]):
            arm = info["arms"][i] if i < len(info["arms"]) else None
            told = info["clauses"][i] if i < len(info["clauses"]) else None
            self.places[name] = (parent, old, new, arm, told, fn)
        self.asked = {}
        for (old, new), (op, np) in zip(info["needs"], info["asked_at"]):
            self.asked[new] = op

    def steps(self, goal):
        """old step -> (new step, arm) on the way to the goal."""
        out, at = {}, self.asked.get(goal)
        while at is not None and at in self.places:
            parent, old, new, arm, told, fn = self.places[at]
            if old:
                out.setdefault(norm(old), (new, arm, told, fn, self.info["params"].get(fn) or []))
            at = parent
        return out


def inline_lets(body):
    """`let x = c.path in` is written out."""
    while True:
        m = re.search(r"let ([^\s:()]+) = (c(?:\.[^\s(){},;.]+)*) in\s*", body)
        if not m:
            return body
        name, path = m[1], m[2]
        rest = body[m.end() :]
        rest = re.sub(rf"(?<![^\s(){{}},;]){re.escape(name)}(?=[\s(){{}},;.]|$)", path.replace("\\", r"\\"), rest)
        body = body[: m.start()] + rest


def turn_path(m, steps, pre):
    parts = m[0].split(".")
    head, parts = parts[0], [p for p in parts[1:] if p != "before"]
    if pre and parts[:1] == ["requires"] and len(parts) > 1 and parts[1].isdigit() and int(parts[1]) < len(pre["fields"]):
        parts[1] = pre["fields"][int(parts[1])]
    if parts and norm(parts[0]) in steps:
        new, arm, told, fn, kept = steps[norm(parts[0])]
        if told and parts[1:2] == ["ensures"] and not arm:
            fields = told["fields"]
            if len(fields) == 1 and parts[2:3] != fields:
                parts[2:2] = fields
            elif len(parts) > 2 and parts[2].isdigit() and int(parts[2]) < len(fields):
                parts[2] = fields[int(parts[2])]
        if arm:
            step, _, fields = arm
            for field, old, path in sorted(fields, key=lambda f: -len(f[2])):
                path = [p for p in path]
                if norm(old) == norm(parts[0]) and [norm(p) for p in parts[1 : 1 + len(path)]] == [norm(p) for p in path]:
                    return ".".join([head, step, field] + parts[1 + len(path) :])
        if parts[1:2] == ["auto"] and len(parts) > 2 and parts[2] in "01" and kept:
            end = 2
            while end < len(parts) and parts[end] == "1":
                end += 1
            index = end - 2
            end += end < len(parts) and parts[end] == "0"
            if index < len(kept):
                parts[2:end] = [kept[index]]
        parts[0] = new
    return ".".join([head] + [p.replace("well-formed", "well_formed") for p in parts])


def turn_body(body, names, goal):
    body = inline_lets(body)
    steps = names.steps(goal)
    body = re.sub(r"(?<![^\s(){},;])c(?:\.[^\s(){},;.]+)+", lambda m: turn_path(m, steps, names.info.get("pre")), body)
    # a test `!x` of a local says by itself that x is false, or true; one of a field says it of `not x`
    body = re.sub(r"\(not-(true|false) _ (c\.if-not-([^\s()]+?)\.\1)\)", lambda m: m[2] + ":" if m[3].split("-")[0] in names.locals else m[0], body)
    body = re.sub(r"not-(true|false) _ (c\.if-not-([^\s(),]+?)\.\1)", lambda m: m[2] + ":" if m[3].split("-")[0] in names.locals else m[0], body)
    body = re.sub(
        r"(?<!not-true _ )(?<!not-false _ )(?<![^\s(){},;])(c\.if-not-([^\s(),:]+?)\.(?:true|false))(?![:\w-])",
        lambda m: f"(ap not {m[1]})" if m[2].split("-")[0] in names.locals else m[0],
        body,
    )
    return re.sub(r"(c\.if-not-[^\s(),:]+\.(?:true|false)):", r"\1", body)


def negated_locals(crate, path):
    """The locals x that the function tests as `!x`."""
    name = path.split("/")[-1]
    for folder, _, files in os.walk(os.path.join("crates", crate, "src")):
        for f in files:
            text = open(os.path.join(folder, f)).read()
            m = re.search(rf"^ *(?:pub )?fn {re.escape(name)}\b.*?^}}", text, re.S | re.M)
            if m:
                    return {x.split("::")[-1] for x in re.findall(r"!\(?((?:[a-z_]\w*::)*[a-z_]\w*)(?![\w.:])", m[0])}
    return set()


def loop_names(info):
    return info.get("loops", [])


def turn(folder, info, crate, path):
    text = open(os.path.join(folder, "Proof.antt")).read()
    tie = TIE.search(text)
    if not tie:
        return "no tie"
    names = Names(info)
    names.locals = negated_locals(crate, path)
    module = tie[1]
    uses, parts, head = [], [], []
    for b in blocks(text):
        lines = b.split("\n")
        while lines and (lines[0].startswith("--") or not lines[0]) and not parts and not uses:
            head.append(lines.pop(0))
        for_use = [l for l in lines if l.startswith("use ")]
        if for_use and len(for_use) == len(lines):
            uses += for_use
        elif lines:
            while lines and lines[0].startswith("use "):
                uses.append(lines.pop(0))
            parts.append("\n".join(lines))
    uses = [u for u in uses if ".Statement.{statement}" not in u and ".Tie as tie" not in u]
    spec = [p for p in parts if "tie.close" in p]
    if len(spec) != 1:
        return f"{len(spec)} pieces with tie.close"
    parts.remove(spec[0])
    m = re.search(r"tie\.close\s*\(\s*tie\.spec(.*)\)\s*$", spec[0], re.S)
    args = arguments(m[1]) if m else []
    loops = info.get("loops") or []
    given = list(args)
    # invariants and measures stand first
    extra = [a for a in given if re.match(r"^(invariant|decreases)", a)]
    rest = [a for a in given if a not in extra]
    answer_of, inline = {}, []
    if len(rest) == len(names.needs):
        for a, (old, new) in zip(rest, names.needs):
            if re.fullmatch(r"\(λ c( κs)?\. search rules\)", a):
                continue
            if a.startswith("("):
                inline.append((new, a))
            else:
                answer_of.setdefault(a, []).append(new)
    elif m:
        print(f"look: {crate}/{path}: {len(rest)} arguments, {len(names.needs)} goals")
    out, left = [], []
    invariants = []
    for p in parts:
        lines = p.split("\n")
        sig = next((i for i, l in enumerate(lines) if re.match(r"^(abbrev )?(pub )?[^\s:]+ : ", l)), None)
        if sig is None:
            out.append(p)
            continue
        name = re.match(r"^(?:abbrev )?(?:pub )?([^\s:]+) : ", lines[sig])[1]
        t = re.match(r"^(abbrev )?(?:pub )?[^\s:]+ : tie\.(\S+)(.*)$", lines[sig])
        if not t:
            out.append(p)
            continue
        if t[2].startswith(("invariant", "decreases")):
            invariants.append(p)
            continue
        old = t[2].removeprefix("Need-")
        goal = (answer_of.get(name) or [None])[0] or names.by_old.get(norm(old))
        if goal is None:
            left.append(f"{name} : {old}")
            out.append(p)
            continue
        rest_lines = lines[sig + 1 :]
        body = "\n".join(rest_lines)
        body = re.sub(rf"(?m)^{re.escape(name)} c( κs)?(?= |$)", lambda _: goal + " c", body, count=1)
        body = turn_body(body, names, goal)
        out.append("\n".join(lines[:sig] + [f"pub {goal} : goal.{goal}", body]))
        if name in answer_of and len(answer_of[name]) > 1:
            for g in answer_of[name][1:]:
                b2 = turn_body(re.sub(rf"(?m)^{re.escape(name)} c( κs)?(?= |$)", lambda _: g + " c", "\n".join(rest_lines), count=1), names, g)
                out.append("\n".join([f"pub {g} : goal.{g}", b2]))
    for goal, a in inline:
        t = re.match(r"^\(λ c(?: κs)?\. (.*)\)$", a, re.S)
        if t:
            opened = "".join(l + "\n" for l in spec[0].split("\n") if l.startswith("unfolding "))
            out.append(f"pub {goal} : goal.{goal}\n{opened}{goal} c = {turn_body(t[1], names, goal)}")
        elif re.match(r"^\(([^\s()]+)(.*)\)$", a):
            left.append(f"{goal} = {a}")
    text2 = "\n".join(head + uses + [f"use {module}.Goals as goal"]) + "\n\n" + "\n\n".join(out) + "\n"
    def trimmed(used):
        kept = []
        for u in uses:
            mm = re.match(r"^use (\S+?)\.\{(.*)\}$", u)
            if not mm:
                kept.append(u)
                continue
            items = [i.strip() for i in mm[2].split(",")]
            kept_items = []
            for i in items:
                bits = [b for b in i.split(" as ")[-1].split("◌") if b]
                if all(re.search(rf"(?<![^\s(){{}},;.@\[\]]){re.escape(b)}(?![^\s(){{}},;.\[\]])", used) for b in bits):
                    kept_items.append(i)
            if kept_items:
                kept.append(f"use {mm[1]}.{{{', '.join(kept_items)}}}")
        return kept

    if any("(ap not c.if-not-" in o for o in out):
        uses.append("use Rattle.std.proofs.Common.{ap, not}")
    text2 = "\n".join(head + trimmed("\n\n".join(out)) + [f"use {module}.Goals as goal"]) + "\n\n" + "\n\n".join(out) + "\n"
    os.rename(os.path.join(folder, "Proof.antt"), os.path.join(folder, "Proof.antt.old"))
    if out:
        with open(os.path.join(folder, "Answers.antt"), "w") as f:
            f.write(text2)
    if invariants:
        with open(os.path.join(folder, "Invariants.antt"), "w") as f:
            turned = turn_invariants(invariants, info)
            f.write("\n".join(trimmed(turned) + [f"use {module}.Given as goal"]) + "\n\n" + turned + "\n")
    for l in left:
        print(f"left: {crate}/{path}: {l}")
    return None


def turn_invariants(invariants, info):
    """An invariant over the loop's variables by position, the first values and then those that change, as one over `l`."""
    out = []
    names = [old for (old, new), _ in info["loops"]]
    for p in invariants:
        lines = p.split("\n")
        sig = next(i for i, l in enumerate(lines) if " : tie." in l)
        kind, loop = re.match(r".* : tie\.(invariant|decreases)-(\S+)", lines[sig]).groups()
        at = next((i for i, old in enumerate(names) if norm(old) == norm(loop)), None)
        if at is None:
            out.append("-- LEFT\n" + p)
            continue
        new, variables, changed = info["loops"][at][0][1], info["loops"][at][1], info["changed"][at]
        body = "\n".join(lines[sig + 1 :])
        opened = "".join(l + "\n" for l in lines[sig + 1 :] if l.startswith("unfolding "))
        m = re.search(r"^\S+((?: [^\s=]+)*) =\s", body, re.M)
        given, text = m[1].split(), body[m.end() :]
        table = {}
        for k, v in enumerate(variables):
            if k < len(given):
                table[given[k]] = f"l.{'initial.' if changed[k] else ''}{v}"
        for k, v in zip(range(len(variables), len(given)), [v for v, c in zip(variables, changed) if c]):
            table[given[k]] = f"l.{v}"
        table.pop("_", None)
        text = re.sub(r"(?<![^\s(){},;@])[^\s(){},;.]+", lambda w: table.get(w[0], w[0]), text)
        out.append("\n".join(lines[:sig] + [f"abbrev pub {kind}-{new} : goal.{kind}-{new}", f"{opened}{kind}-{new} l = {text.strip()}"]))
    return "\n\n".join(out)


def main():
    crate, names_file, only = sys.argv[1], sys.argv[2], sys.argv[3:]
    names = json.load(open(names_file))
    for key, info in names.items():
        m = re.match(r"^Rattle-[^.]+-proofs\.(.*)\.Lts$", key)
        if not m:
            if "Lts" in key:
                print(f"left: {key}")
            continue
        path = m[1].replace(".", "/")
        folder = os.path.join("crates", crate, "proofs", path)
        if not os.path.exists(os.path.join(folder, "Proof.antt")) or (only and path not in only):
            continue
        why = turn(folder, info, crate, path)
        if why:
            print(f"left: {crate}/{path}: {why}")


main()
