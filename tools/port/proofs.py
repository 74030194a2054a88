#!/usr/bin/env python3
"""Turns proofs that walk the code by hand (Proof.antt) into Invariants.antt and Answers.antt.

usage: tools/port/proofs.py NAMES CRATE..      at the top of the repository; NAMES is the folder that `rt names` wrote

Each need of an old proof becomes the answer to the goal that stands for it; one that was only `search rules` goes, since the check tries that itself.
A path such as c.before.before.if1.true becomes c.if-x-lt5.true. What it cannot turn it says; the check decides about the rest.
"""

import json
import os
import re
import sys

MARK = r"(?<![\w.'-])"
END = r"(?![\w'-])"


def read(path):
    with open(path, encoding="utf-8") as f:
        return f.read()


def write(path, text):
    with open(path, "w", encoding="utf-8") as f:
        f.write(text)


def alike(name):
    return name.replace("_", "-").lower()


def items(text):
    """The items of a file that begin at the margin, with the lines that belong to each."""
    out = []
    for line in text.split("\n"):
        if line and not line[0].isspace():
            out.append([line])
        elif out:
            out[-1].append(line)
    return ["\n".join(it).rstrip() for it in out]


def declarations(text):
    """(imports, [(marks, name, type, unfolding, clauses, comments)])"""
    imports, out, comments = [], [], []
    for it in items(text):
        if it.startswith("--"):
            comments.append(it)
            continue
        if re.match(r"(pub )?use ", it):
            imports.append(it)
            comments = []
            continue
        m = re.match(r"((?:(?:pub|abbrev|unfoldable|private) )*)(\S+) :(?=\s)", it)
        if m:
            out.append([m[1], m[2], it[m.end():].strip(), "", [], comments])
            comments = []
        elif it.startswith("unfolding "):
            out[-1][3] = it
        elif out:
            out[-1][4].append(it)
        else:
            raise SystemExit(f"what is this: {it[:80]}")
    return imports, out


def steps_of(row):
    """Old step name to new, by the place table; arms by their own."""
    found = {}
    for place, above, pair, callee, more in row["places"]:
        if pair[0]:
            found.setdefault(alike(pair[0]), pair[1])
    return found


def arms_of(row):
    """(old step, old path) to (new step, new field)."""
    found = {}
    for arm in row["arms"]:
        if arm:
            for field, step, path in arm[2]:
                if path:
                    found[alike(step), tuple(path)] = (arm[0], field)
    return found


def turned(body, row, said):
    roots = {"c"}
    # aliases of c itself
    while True:
        root = "|".join(map(re.escape, sorted(roots)))
        body = re.sub(rf"{MARK}({root})((?:\.before)+){END}", r"\1", body)
        more = set(re.findall(rf"let (\S+) = (?:{root}) in", body)) - roots
        if not more:
            break
        roots |= more
    root = "|".join(map(re.escape, sorted(roots)))
    arms, steps = arms_of(row), steps_of(row)
    # the promise of a call at the value that an arm takes apart
    for (step, path), (new, field) in arms.items():
        if path == ("given", "1"):
            old = "[-_]".join(map(re.escape, step.split("-")))
            body = re.sub(
                rf"{MARK}(?:{root})\.[\w-]+\.ensures(\.[\w-]+)? ∙ ap [\w'-]+ (?:{root})\.{old}\.given\.1{END}",
                lambda m: f"c.{new}.ensures{m[1] or ''}",
                body,
            )
    for (step, path), (new, field) in sorted(arms.items(), key=lambda it: -len(it[0][1])):
        old = "[-_]".join(map(re.escape, step.split("-")))
        tail = "".join(r"\." + re.escape(p) for p in path)
        body = re.sub(rf"{MARK}(?:{root})\.{old}{tail}{END}", f"c.{new}.{field}", body)

    def one(m):
        new = steps.get(alike(m[2]))
        return f"{m[1]}.{new}" if new else m[0]

    body = re.sub(rf"{MARK}({root})\.([\w'-]+)", one, body)
    return body


def invariant(args, body, names, changed):
    old = [(f"l.initial.{n}" if ch else f"l.{n}") for n, ch in zip(names, changed)]
    old += [f"l.{n}" for n, ch in zip(names, changed) if ch]
    if len(old) != len(args):
        return None
    for a, new in zip(args, old):
        if a != "_":
            body = re.sub(rf"{MARK}{re.escape(a)}(?![\w'₀-])", new.replace("\\", r"\\"), body)
    return body


def path_of(module):
    """proofs/F of a module Rattle-CRATE-proofs.F.Lts"""
    return module.split("-proofs.", 1)[1].rsplit(".", 1)[0].replace(".", "/")


def used(imports, body):
    """The imports of which the text has a word."""
    out = []
    words = set(re.findall(r"[^\s(){}.;,@\"«»]+", body))
    for it in imports:
        m = re.match(r"use ([^\s{]+)\.\{(.*)\}$", it, re.S)
        if not m:
            last = it.split(" as ")[-1] if " as " in it else it.split(".")[-1]
            if re.search(rf"{MARK}{re.escape(last.strip())}\.", body):
                out.append(it)
            continue
        keep = []
        for name in (n.strip() for n in m[2].split(",")):
            shown = name.split(" as ")[-1].strip()
            parts = [p for p in shown.split("◌") if p]
            if parts and all(p in words for p in parts) or shown in words:
                keep.append(name)
        if keep:
            out.append(f"use {m[1]}.{{{', '.join(keep)}}}")
    return out


def convert(crate, module, row, said):
    folder = f"crates/{crate}/proofs/{path_of(module)}"
    path = f"{folder}/Proof.antt"
    if not os.path.exists(path):
        return
    text = read(path)
    if "tie.close" not in text and "+" not in folder:
        said.append(f"left: {path}: written otherwise")
        return
    cycle = "+" in folder
    stem = module.rsplit("Lts-", 1)[1] + "-" if cycle else ""
    imports, decls = declarations(text)
    imports = [it for it in imports if not re.search(r"\.(Statement\.\{statement\}|Tie as \S+|Reads as \S+|Lts\S* as \S+|Kinds as \S+)$", it)]
    imports = [it for it in imports if not re.search(r"proofs\.\+\w+\.(\{statement\}|Tie\.)|borrow\.Fn\.", it)]
    goals, helpers, invs = [], [], []
    for d in decls:
        marks, name, typ, unf, clauses, comments = d
        if "statement M" in typ:
            continue
        if re.search(r"(tie|lts)\.(invariant|decreases)-", typ):
            invs.append(d)
        elif re.search(r"(tie|[\w-]*lts)\.Need-", typ):
            goals.append(d)
        elif cycle and (name.startswith("μ-") or name.endswith(("-at", "-below")) or name == "callees"):
            if name.startswith("μ-"):
                said.append(f"look: {path}: the measure: {' '.join(clauses)}")
        else:
            helpers.append(d)
    needs = row["needs"]
    if len(needs) == len(goals):
        pairs = list(zip(goals, (n[1] for n in needs)))
    else:
        by = {alike(a): b for a, b in needs}
        pairs = []
        for g in goals:
            old = re.search(r"Need-([\w'-]+)", g[2])[1]
            new = by.get(alike(old)) or by.get(alike(old.replace("overflow-", "", 1))) or by.get(alike(g[1]))
            if new:
                pairs.append((g, new))
            else:
                said.append(f"left: {path}: no goal for {g[1]}")
        said.append(f"look: {path}: {len(goals)} needs were, {len(needs)} are")
    answers = []
    for (marks, name, typ, unf, clauses, comments), goal in pairs:
        bodies = []
        for cl in clauses:
            m = re.match(r"(\S+)((?: \S+)*?)\s*=\s*", cl)
            args = [a for a in m[2].split() if a != "κs"]
            bodies.append((args, cl[m.end():]))
        if len(bodies) == 1 and re.fullmatch(r"search rules", bodies[0][1].strip()) and not unf:
            continue
        lines = [f"pub {stem}{goal} : goal.{stem}{goal}"] + ([unf] if unf else [])
        for args, body in bodies:
            lines.append(f"{stem}{goal} {' '.join(args)} =\n    {turned(body, row, said)}")
        answers.append("\n".join(lines))
    loops = [it[0] for it in row["loops"]]
    made = []
    for marks, name, typ, unf, clauses, comments in invs:
        kind = "decreases" if "decreases-" in typ else "invariant"
        loop = re.search(r"(?:invariant|decreases)-([\w'-]+)", typ)[1]
        at = [alike(a) for a, b in loops].index(alike(loop)) if alike(loop) in [alike(a) for a, b in loops] else None
        if at is None:
            said.append(f"left: {path}: no loop for {name}")
            continue
        new = f"{kind}-{stem}{loops[at][1]}"
        m = re.match(r"(\S+)((?: \S+)*?)\s*=\s*", clauses[0])
        body = invariant(m[2].split(), clauses[0][m.end():], row["loops"][at][1], row["changed"][at])
        if body is None:
            said.append(f"left: {path}: the arguments of {name}: {m[2]} / {row['loops'][at][1]} {row['changed'][at]}")
            continue
        made.append(f"abbrev pub {new} : goal.{new}" + (f"\n{unf}" if unf else "") + f"\n{new} l =\n    {body}")
    own = f"Rattle.{crate}.proofs.{path_of(module).replace('/', '.')}"
    helper = "\n\n".join("\n".join([*c, f"{m}{n} : {t}", *([u] if u else []), *cl]) for m, n, t, u, cl, c in helpers)
    if helper:
        said.append(f"look: {path}: helpers {' '.join(h[1] for h in helpers)}")
    os.remove(path)
    if made:
        body = "\n\n".join(made)
        if helper and any(re.search(rf"{MARK}{re.escape(h[1])}{END}", body) for h in helpers):
            body = helper + "\n\n" + body
        write(f"{folder}/Invariants.antt", "\n".join([*used(imports, body), f"use {own}.Given as goal", "", body, ""]))
    if answers:
        body = "\n\n".join(([helper] if helper else []) + answers)
        write(f"{folder}/Answers.antt", "\n".join([*used(imports, body), f"use {own}.Goals as goal", "", body, ""]))
    if not os.listdir(folder):
        os.removedirs(folder)


def main():
    names = sys.argv[1]
    for crate in sys.argv[2:]:
        with open(f"{names}/crates/{crate}/names.json", encoding="utf-8") as f:
            table = json.load(f)
        said = []
        for module, row in table.items():
            if module.startswith(f"Rattle-{crate}-proofs."):
                convert(crate, module, row, said)
        print("\n".join(said))


if __name__ == "__main__":
    main()
