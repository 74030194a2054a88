#!/usr/bin/env python3
"""Turns answers that are tuples into records, at goals of calls whose function has several named requires.

usage: tools/port/asks.py CRATE..      at the top of the repository
"""

import glob
import os
import re
import sys


def labels(crate):
    with open(f"crates/{crate}/src/lib.rt", encoding="utf-8") as f:
        text = f.read()
    found, name = {}, None
    for line in text.split("\n"):
        m = re.match(r"\s*(?:pub )?fn (\w+)", line)
        if m:
            name = m[1]
        m = re.match(r"\s*requires (\w+) \{", line)
        if m:
            found.setdefault(name, []).append(m[1])
    return {k: v for k, v in found.items() if len(v) > 1}


def parts(text):
    """The parts of a tuple (a, b, ..), or None."""
    text = text.strip()
    if not text.startswith("("):
        return None
    depth, out, at = 0, [], 1
    for i, ch in enumerate(text):
        depth += (ch in "([{") - (ch in ")]}")
        if depth == 0:
            if i != len(text) - 1:
                return None
            out.append(text[at:i])
        elif depth == 1 and ch == ",":
            out.append(text[at:i])
            at = i + 1
    return [p.strip() for p in out] if len(out) > 1 else None


def flat(text, n):
    out = []
    while len(out) < n - 1:
        two = parts(text)
        if not two:
            return None
        if len(two) == n - len(out):
            return out + two
        if len(two) != 2:
            return None
        out.append(two[0])
        text = two[1]
    return out + [text]


def split(body):
    """Leading lets and the last expression."""
    at, depth = 0, 0
    for m in re.finditer(r"[(\[{]|[)\]}]|\bin\b", body):
        if m[0] in "([{":
            depth += 1
        elif m[0] in ")]}":
            depth -= 1
        elif depth == 0:
            at = m.end()
    return body[:at], body[at:].strip()


def main():
    for crate in sys.argv[1:]:
        named = labels(crate)
        for path in sorted(glob.glob(f"crates/{crate}/proofs/**/Answers.antt", recursive=True)):
            with open(path, encoding="utf-8") as f:
                text = f.read()
            blocks = re.split(r"(?m)^(?=pub )", text)
            for i, block in enumerate(blocks):
                m = re.match(r"pub (\S+) : goal\.\S+\n((?:unfolding .*\n)?)\1 ([^=]*)=\s*", block)
                if not m:
                    continue
                goal = m[1]
                fn = [f for f in named if re.match(rf"{f}(-[\w-]+)?-requires", goal)]
                if not fn or "record {" in block:
                    continue
                ls = named[max(fn, key=len)]
                lets, last = split(block[m.end():].rstrip())
                each = flat(last, len(ls))
                if each:
                    new = "record { " + "; ".join(f"{a} = {b}" for a, b in zip(ls, each)) + " }"
                elif last.startswith("search"):
                    continue
                else:
                    paths = [".1" * k + (".0" if k < len(ls) - 1 else "") for k in range(len(ls))]
                    new = f"let both = {last} in\n    record {{ " + "; ".join(f"{a} = both{p}" for a, p in zip(ls, paths)) + " }"
                body = (lets + "\n    " if lets.strip() else "    ") + new
                blocks[i] = block[: m.end()].rstrip() + "\n    " + body.strip() + "\n\n"
            new = "".join(blocks).rstrip() + "\n"
            if new != text:
                with open(path, "w", encoding="utf-8") as f:
                    f.write(new)
                print(path)


if __name__ == "__main__":
    main()
