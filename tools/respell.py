#!/usr/bin/env python3
"""Brings the repository's own definitions, lemmas and record fields to snake case, in clauses, specs, proofs and edits.

usage: respell.py [--check]

Run once, at the top, after port.py. A name in camel case (`lengthField`) or with dashes (`field-one`) becomes `length_field`, `field_one`.
Types and facts (capital first), goals in Proof.antt files, functions of src/, strings and comments that stand in quotes keep theirs.
It stops and writes nothing where two names would fall together; EXCEPT says what such a name is called instead. --check writes nothing.
"""

import glob
import os
import re
import sys

TOKEN = re.compile(r"\"(?:[^\"\\]|\\.)*\"|[^\s(){}.;,@\"«»\[\]\\`:]+")
DEFINES = re.compile(r"(?:(?:unfoldable|abbrev|pub|private|total) )*([a-z][^\s:(){}.;,]*) : ")
FIELD = re.compile(r"(?:^|[{;])\s*([a-z][^\s:(){}.;,]*) : ")
# A name that would fall together with another in a file that has both.
# a lemma named as the definition that it speaks of gets `_lem`.
LEMMAS = """length-field alike-below filler-last lent-edition bytes-at formed-from length-at value-at names-put status-shown status-object spaced-size range-of
numbers-put row-text object-bytes object-by look-by tags-of push-all places-by head-text field-behind on-field head-for places-room lent-record record-room table-room byte-at""".split()
EXCEPT = {name: name.replace("-", "_") + "_lem" for name in LEMMAS}
# The same for lemmas that are spelled with '_' already, in the crates that have both.
# Names of the library, which some files define for themselves.
LIBRARY = {"not-true", "not-false"}
BESIDE = {
    "crates/card_text/proofs/": {"is_digit": "is_digit_lem"},
    "crates/example/proofs/": {"record_of": "record_of_lem"},
    "crates/frame/proofs/": {"head_in": "head_in_lem"},
    "crates/front/proofs/": {"field_put": "field_put_lem"},
    "crates/reader_steps/proofs/": {"object_of": "object_of_lem"},
    "crates/frame_head/proofs/head_end/": {"head_in": "head_in_lem"},
    "crates/frame_front/proofs/refuse_front/": {"head_in": "head_in_lem"},
    "crates/reader/proofs/copy_objects/": {"object_of": "object_of_lem"},
    "crates/text_hex/proofs/count_digits/": {"is_digit": "is_digit_lem"},
}
# Modules that stand in a file under the name of a definition in it.
ALIASES = {
    "crates/determined/proofs/Places.antt": ("part_at", "part_at_reads"),
    "crates/view/proofs/View/part/Proof.antt": ("part_at", "part_at_contract"),
}


def snake(name):
    out = re.sub(r"(?<=[a-z0-9])([A-Z])", lambda m: "_" + m.group(1).lower(), name)
    return out.replace("-", "_").replace("′", "'")


def read(path):
    with open(path, encoding="utf-8") as f:
        return f.read()


def own_names():
    """Returns the names that specs/ and the lemma files of proofs/ define, and the fields of their records."""
    names = set()
    for path in glob.glob("crates/*/specs/**/*.antt", recursive=True) + glob.glob("crates/*/proofs/**/*.antt", recursive=True):
        if os.path.basename(path) in ("Proof.antt", "Invariants.antt") or (os.path.basename(path) == "Answers.antt" and "/proofs/" in path):
            continue
        inside = False
        for line in read(path).split("\n"):
            # A lemma below a `module` with parameters is indented.
            found = DEFINES.match(line) or re.match(r"\s+pub ([a-z][^\s:(){}.;,]*) : ", line)
            if found:
                names.add(found.group(1))
            head = re.match(r"(?:(?:pub|unfoldable|abbrev) )*record ", line)
            if head:
                inside = True
            elif line and not line[0].isspace() and not line.startswith("}"):
                inside = False
            if inside:
                names.update(FIELD.findall(line.split("--")[0] if not head else line[line.find("{"):]))
    return names


def alias(path, text):
    if path not in ALIASES:
        return text
    old, new = ALIASES[path]
    text = re.sub(rf"(?m)( as ){old}$", rf"\g<1>{new}", text)
    return re.sub(rf"(?<![\w.·-]){old}(?=\.)", new, text)


def turned_in(path, turn, text, proof):
    """Returns the names to turn in a file; a goal that a Proof.antt answers keeps its name there."""
    out = dict(turn)
    for below, more in BESIDE.items():
        if path.startswith(below) and not any(re.search(rf"\b{new}\b", text) for new in more.values()):
            out.update(more)
    for name in re.findall(r"(?m)^(?:pub )?([a-z][^\s:(){}.;,]*) : tie\.", proof):
        out.pop(name, None)
    return out


def spelled(turn, proof, m):
    name = m.group(0)
    # In a Proof.antt a name with dashes behind a dot is a step of the code.
    if proof and "-" in name and m.start() and m.string[m.start() - 1] == ".":
        return name
    return turn.get(name, name)


def main():
    check = "--check" in sys.argv[1:]
    names = own_names()
    turn = {n: EXCEPT.get(n, snake(n)) for n in names - LIBRARY if n[0].islower() and EXCEPT.get(n, snake(n)) != n}
    paths = [p for e in ("rt", "antt", "edit") for p in glob.glob(f"crates/**/*.{e}", recursive=True)]
    bad = 0
    written = {}
    for path in sorted(paths):
        text = alias(path, read(path))
        proof = os.path.basename(path) == "Proof.antt"
        own = turned_in(path, turn, text, text if proof else "")
        code = re.sub(r"(?m)^\s*--.*$", "", text) if path.endswith(".antt") else re.sub(r"(?m)^\s*//.*$", "", text)
        # A part of a path in a use line is a module.
        code = re.sub(r"(?m)^(ghost |pub )*use [^{\n]*", "", code)
        tokens = set(t for t in TOKEN.findall(code)) if not proof else set(re.findall(r"(?<!\.)(?<![^\s(){}.;,@\[\]\\])[^\s(){}.;,@\"«»\[\]\\`:]+", code))
        made = {}
        for t in tokens:
            made.setdefault(own.get(t, t), set()).add(t)
        for new, old in made.items():
            # In a source file the one is a function of src/ or a clause's label, and the other what its clauses say.
            if len(old) > 1 and not path.endswith(".rt"):
                bad += 1
                print(f"{path}: {sorted(old)} -> {new}")
        new = TOKEN.sub(lambda m: spelled(own, proof, m), text)
        if new != read(path):
            written[path] = new
    print(f"{len(turn)} names, {len(written)} files, {bad} places where names fall together")
    if bad and not check:
        sys.exit(1)
    if not check:
        for path, text in written.items():
            with open(path, "w", encoding="utf-8") as f:
                f.write(text)


if __name__ == "__main__":
    main()
