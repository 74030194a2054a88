#!/usr/bin/env python3
"""Respells the repository's own definitions and lemmas: words in snake case, a dash only between two names, constants as the code spells them.

usage: tools/port/respell.py [--check]      at the top of the repository, once, after the kit's port.py

The table is made from the names that specs/ and the law files of proofs/ declare:
  aCamelName       a_camel_name
  NO-ROOM          NO_ROOM          the name of a constant of the code, which keeps its spelling
  byte-past        byte_past        a dash between plain words
  success-refused  stays            a lemma's dash between two names that specs/ declares
A name that some file takes from the library is left. Words turn in .antt files, in clauses of .rt files, in must-fail edits and in the code spans of pages;
functions, strings, inputs and outputs keep their names. It stops where two names of one file would fall together.
The turning itself is done by the kit's script for names, found through `rt doc`.
"""

import collections
import os
import re
import subprocess
import sys
import tempfile

MARKS = r"(?:(?:pub|abbrev|unfoldable|private) )*"
SIGNED = re.compile(rf"^ *{MARKS}([^\s:(){{}},;=.]+) :(?= |$)", re.M)
TYPED = re.compile(rf"^ *{MARKS}(?:record|data) ([^\s:(){{}},;=.]+)", re.M)
WORD = re.compile(r"[^\s(){}.;,@\"«»]+")
# a word that no dot stands before: no field and no part of a path
BARE = re.compile(r"(?<![^\s(){},;@\"«»])" + WORD.pattern)
# words of the library by which its own lemmas are named
LIBRARY = "length take drop append map sum reverse set replicate cond zero suc nil cons add sub mul pow mod div min max".split()
# names that would fall together with another, and what they become
APART = {
    "noRoom": "no_room_told",
    "inPlace": "is_in_place",
    "deleted-of": "deleted_of_lem",
    "is-deleted": "is_deleted_lem",
    "number-in": "number_in_lem",
    "of-kind": "of_kind_lem",
    "full-of": "full_of_lem",
}


def kit():
    page = subprocess.run(["rt", "doc"], capture_output=True, text=True).stdout.split()[0]
    return os.path.dirname(page)


def files(top, ending):
    for folder, folders, names in os.walk(top):
        folders[:] = sorted(f for f in folders if f not in ("out", ".git", "target"))
        for name in sorted(names):
            if name.endswith(ending):
                yield os.path.join(folder, name)


def read(path):
    with open(path, encoding="utf-8") as f:
        return f.read()


def is_law(path):
    """A file of specs/, or one of proofs/ that no function owns."""
    part = path.split(os.sep)
    return part[2] == "specs" or part[2] == "proofs" and len(part) == 4


def snake(name):
    return re.sub(r"(?<=[a-z0-9])([A-Z])", lambda m: "_" + m[1].lower(), name)


def table():
    declared, meant, fields = set(), set(LIBRARY), set()
    own = [["Rattle", c] for c in os.listdir("crates")]
    for path in files("crates", ".antt"):
        if not is_law(path):
            continue
        text = read(path)
        types = set(TYPED.findall(text))
        names = set(SIGNED.findall(text)) | types
        declared |= names
        if "/specs/" in path:
            inside = set(re.findall(r"^ +pub (\S+) :", text, re.M))
            meant |= {snake(n) for n in names - inside}
            fields |= names
    kits = set()
    for path in [*files("crates", ".antt"), *files("crates", ".rt")]:
        for module, names in re.findall(r"use ([\w.+-]+)\.\{([^}]*)\}", read(path)):
            if module.split(".")[:2] not in own:
                kits |= {w for item in names.split(",") for w in item.split()}
    rows, left = {}, []
    for name in sorted(declared):
        if name in APART:
            rows[name] = APART[name]
            continue
        if re.fullmatch(r"[A-Z][A-Z0-9]*(-[A-Z0-9]+)+", name):
            new = name.replace("-", "_")
        elif re.fullmatch(r"[a-z][a-zA-Z0-9]*", name):
            new = snake(name)
        elif "-" in name and re.fullmatch(r"[\w'-]+", name):
            parts = [snake(p) for p in name.split("-")]
            new = "-".join(parts) if all(p in meant for p in parts) and name not in fields else "_".join(parts)
        else:
            continue
        if new == name:
            continue
        if name in kits:
            left.append(name)
            continue
        rows[name] = new
    return rows, left


def together(rows):
    """Names of one file that would be spelled alike."""
    found = []
    for path in files("crates", ".antt"):
        words = set(BARE.findall(re.sub(r"--.*", "", read(path))))
        by = collections.defaultdict(set)
        for word in words:
            by[rows.get(word, word)].add(word)
        found += [f"{path}: {' '.join(sorted(v))} -> {k}" for k, v in sorted(by.items()) if len(v) > 1]
    return found


def mend(check):
    """The one file where port.py leaves a name, since a lemma of the file would have had it."""
    path = os.path.join("crates", "sub_key_walk", "proofs", "Walks.antt")
    old = read(path)
    one = {"so-far": "so_far_lem", "soFar": "so_far"}
    new = WORD.sub(lambda m: one.get(m[0], m[0]), old)
    if new != old and not check:
        with open(path, "w", encoding="utf-8") as f:
            f.write(new)


def turn_edits(rows, check):
    n = 0
    for path in files("crates", ".edit"):
        old = read(path)
        law = ".antt" in old.split("file:", 1)[-1].split("\n")[0]
        one = lambda m: rows[m[0]] if m[0] in rows and (law or re.search("[-A-Z]", m[0])) else m[0]
        new = "\n".join(
            WORD.sub(one, line) if line.startswith(("old:", "new:")) else line for line in old.split("\n")
        )
        if new != old:
            n += 1
            if not check:
                with open(path, "w", encoding="utf-8") as f:
                    f.write(new)
    return n


def main():
    check = "--check" in sys.argv[1:]
    mend(check)
    rows, left = table()
    found = together(rows)
    print("\n".join(found))
    print(f"{len(rows)} names; {len(left)} left, since a file takes them from the library {' '.join(left)}")
    if found:
        print(f"{len(found)} places where names fall together: nothing was written")
        return 1
    with tempfile.NamedTemporaryFile("w", suffix=".tsv", encoding="utf-8") as f:
        f.write("".join(f"{a}\t{b}\n" for a, b in sorted(rows.items())))
        f.flush()
        script = os.path.join(kit(), "port", "notes", "2026-11-18-names-are-in-snake-case", "snake.py")
        pages = ["README.md", "docs"]
        for kinds, where in (("antt,rt", ["crates"]), ("md", pages)):
            more = ["--check"] if check else []
            subprocess.run([sys.executable, "-B", script, *more, "--table", f.name, "--only", kinds, *where])
    print(f"edits turned: {turn_edits(rows, check)}")
    return 0


if __name__ == "__main__":
    sys.exit(main())
