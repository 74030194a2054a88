#!/usr/bin/env python3
"""Respells, in the code spans of pages, names that port.py turned in the code: blockOf is now block_of. Run at the top of the repository.

usage: tools/port/pages.py [--check] PAGE..
"""

import re
import sys

sys.dont_write_bytecode = True
sys.path.insert(0, "tools/port")
import respell

SPAN = re.compile(r"`[^`\n]+`")
WORD = re.compile(r"[A-Za-z][\w'′-]*")


def main():
    check = "--check" in sys.argv
    declared = set()
    for path in respell.files("crates", ".antt"):
        if respell.is_law(path):
            text = respell.read(path)
            declared |= set(respell.SIGNED.findall(text)) | set(respell.TYPED.findall(text))
    for path in [a for a in sys.argv[1:] if not a.startswith("--")]:
        old = respell.read(path)
        said = set()

        def one(m):
            word = m[0]
            if word in declared or not re.search(r"[A-Z-]", word[1:]):
                return word
            for new in (word.replace("-", "_"), respell.snake(word).replace("-", "_"), respell.snake(word) + "_lem"):
                if new in declared:
                    said.add(f"{word} -> {new}")
                    return new
            return word

        new = SPAN.sub(lambda m: WORD.sub(one, m[0]), old)
        if said:
            print(path, "; ".join(sorted(said)))
        if new != old and not check:
            with open(path, "w", encoding="utf-8") as f:
                f.write(new)


if __name__ == "__main__":
    main()
