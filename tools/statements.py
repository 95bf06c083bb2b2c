#!/usr/bin/env python3
"""Lists what changed between two checkouts: public signatures and clauses, definitions of specs/, theorems and lemmas of proofs/.

usage: tools/statements.py OLD NEW

Each row has the old form, then the new one. It goes by text: a declaration is what stands from its name to its first equation (in specs/ to its end).
What the kit's contracts.py lists of clauses and definitions agrees with it; theorems in proofs/ are listed here alone. It writes nothing.
"""
import pathlib
import re
import signal
import sys

HEAD = re.compile(r"^(\s*)(?:(?:unfoldable|abbrev) )?pub (?:(record|data) )?(\S+)")
FUNCTION = re.compile(r"^(\s*)pub fn (\w+)")
OWNER = re.compile(r"^impl(?:<[^>]*>)? (?:[\w:]+(?:<[^>]*>)? for )?(\w+)")


def squeezed(text):
    return " ".join(text.split())


def functions(top):
    found = {}
    for path in sorted(top.glob("crates/*/src/**/*.rt")):
        crate = path.relative_to(top).parts[1]
        owner, lines = "", path.read_text(encoding="utf-8").splitlines()
        for i, line in enumerate(lines):
            if line.startswith("impl") and (m := OWNER.match(line)):
                owner = m.group(1) + "::"
            elif line.startswith("}"):
                owner = ""
            m = FUNCTION.match(line)
            if m:
                j = i
                while lines[j].rstrip() != m.group(1) + "{" and not (lines[j].rstrip().endswith("{") and not re.search(r"ensures|requires", lines[j])):
                    j += 1
                found[f"{crate}: {owner if m.group(1) else ''}{m.group(2)}"] = squeezed(" ".join(lines[i:j + 1])).rstrip("{ ")
    return found


def declarations(top, folder):
    found = {}
    for path in sorted(top.glob(f"crates/*/{folder}/*.antt")):
        crate, lines = path.relative_to(top).parts[1], path.read_text(encoding="utf-8").splitlines()
        for i, line in enumerate(lines):
            m = HEAD.match(line)
            if not m or m.group(3) in ("use", "mod"):
                continue
            indent, name, text, j = len(m.group(1)), m.group(3), line.strip(), i + 1
            whole = folder == "specs" or m.group(2)
            while j < len(lines) and lines[j].strip() and not lines[j].lstrip().startswith("--"):
                depth = len(lines[j]) - len(lines[j].lstrip())
                equation = lines[j].lstrip().split(" ")[0] == name
                if depth <= indent and not (whole and equation) or equation and not whole or lines[j].strip() == "where":
                    break
                text += " " + lines[j].strip()
                j += 1
            found[f"{crate}: {name}"] = squeezed(text)
    return found


def show(what, old, new):
    changed = [k for k in sorted(old) if k in new and old[k] != new[k]]
    gone, added = sorted(set(old) - set(new)), sorted(set(new) - set(old))
    print(f"\n### {what}: {len(changed)} changed, {len(gone)} gone, {len(added)} new\n")
    for k in changed:
        print(f"- {k}\n  - `{old[k]}`\n  - `{new[k]}`")
    print(f"\nGone: {', '.join(gone) or 'none'}.\n\nNew: {', '.join(added) or 'none'}.")


def main():
    signal.signal(signal.SIGPIPE, signal.SIG_DFL)
    old, new = (pathlib.Path(word).resolve() for word in sys.argv[1:3])
    show("Public functions, with their clauses", functions(old), functions(new))
    show("Definitions of specs/", declarations(old, "specs"), declarations(new, "specs"))
    show("Theorems and lemmas of proofs/", declarations(old, "proofs"), declarations(new, "proofs"))


if __name__ == "__main__":
    main()
