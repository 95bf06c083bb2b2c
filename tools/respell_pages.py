#!/usr/bin/env python3
"""Brings the names of definitions and lemmas in pages and comments to the spelling that tools/respell.py gave them.

usage: respell_pages.py BEFORE [--check]     (BEFORE is a checkout of the commit before the port; run once, at the top, after respell.py)

Words in backticks alone are turned, in README.md, docs/, second/README.md, samples/README.md and tests/: a word that BEFORE defines in
specs/ or proofs/ and no crate has now, whose new spelling a crate has now. KEEP says what is the name of something else there. --check writes
nothing. Each word that is turned is listed.
"""

import collections
import glob
import os
import re
import sys

sys.path.insert(0, os.path.dirname(os.path.realpath(__file__)))
sys.dont_write_bytecode = True
import respell

# Words of the command line, and of what a program writes.
KEEP = set("check-plan".split())
QUOTED = re.compile(r"`[^`\n]+`")
WORD = re.compile(r"[^\s(){}.;,@\"«»\[\]\\`:/]+")


def defined(folder):
    here = os.getcwd()
    os.chdir(folder)
    try:
        return respell.own_names()
    finally:
        os.chdir(here)


def tokens():
    """Each word that stands in a specification, a proof or a clause."""
    found = set()
    for path in glob.glob("crates/**/*.antt", recursive=True) + glob.glob("crates/*/src/**/*.rt", recursive=True):
        text = re.sub(r"(?m)^\s*(--|//).*$", "", respell.read(path))
        found.update(respell.TOKEN.findall(text))
    return found


def main():
    check, before = "--check" in sys.argv[1:], [it for it in sys.argv[1:] if it != "--check"][0]
    now = tokens()
    turn = {n: respell.EXCEPT.get(n, respell.snake(n)) for n in defined(before) if n[0].islower()}
    turn = {n: new for n, new in turn.items() if new != n and n not in KEEP and n not in now and new in now}
    pages = ["README.md", "second/README.md", "samples/README.md", *glob.glob("docs/**/*.md", recursive=True), *filter(os.path.isfile, glob.glob("tests/*"))]
    pages = [path for path in pages if path not in ("docs/PORT.md", "tests/reasons.txt")]
    counts = collections.Counter()

    def word(m):
        new = turn.get(m.group(0))
        counts[m.group(0), new] += bool(new)
        return new or m.group(0)

    def quoted(m):
        return WORD.sub(word, m.group(0))

    for path in pages:
        text = respell.read(path)
        new = QUOTED.sub(quoted, text)
        if new != text and not check:
            with open(path, "w", encoding="utf-8") as f:
                f.write(new)
    for (old, new), n in sorted((k, n) for k, n in counts.items() if k[1]):
        print(f"{n:4} {old} -> {new}")


if __name__ == "__main__":
    main()
