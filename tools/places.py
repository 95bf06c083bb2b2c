#!/usr/bin/env python3
"""Lists the places in src/ that older forms take, point by point, and counts them (docs/DESIGN-PASS.md says what became of them).

usage: tools/places.py [--list] [POINT ..]      (POINT: 1 to 7, default all; --list prints every place, else only the counts)

A row is a place to look, not a verdict. It goes by text: names, braces, the words of comments. It writes nothing.
1 enums; structs with a number, a flag or a refusal beside their values; functions whose comment says that a number stands for none
2 functions that are the same but for names and numbers (three statements or more); functions of one name that stand in several places
3 loops with a test: those that count an index by hand (the test's variable goes up or down by a number in the body), and the others
4 functions whose names say that they compare, copy, convert or print
5 facts that stand in the `requires` of three functions or more; parameters that stand together in three signatures or more
6 lent rooms and texts with a length beside them; structs with two arrays of one length; halving by hand
7 functions that pick one of three steps or more by a word, a number or a flag
"""
import argparse
import collections
import pathlib
import re
import signal

TOP = pathlib.Path(__file__).resolve().parent.parent
SENTINEL = re.compile(r"where (there|it) (is|has) (none|no\b)|where a (byte|word) is no|no refusal|\b0 none\b|or NONE|is none of|where there are none|where that fails"
                      r"|0 where|16 where|Number 0|where it is the number|or the largest number|is no such word|as one that")
FIELD = re.compile(r"^\s+(?:pub(?:\([a-z]+\))? )?(number|wrong|status|clause|accepted|dated|safe|refusal|line|refused|required_of): ")
NAMED = re.compile(r"^(is_same|is_equal|same|same_\w+|eq|cmp|is_below|copy\w*|clone\w*|\w*_word|number_of|rule_of|rule_by|edition_by|number_at|print_\w+|show_\w+|put_number|put_decimal|wide|bits|four_bytes|word_of)$")
KEEP = {"let", "mut", "if", "else", "while", "for", "in", "return", "match", "fn", "pub", "as", "true", "false", "loop", "break"}


class Function:
    def __init__(self, path, line, name, head, body, comment):
        self.path, self.line, self.name, self.head, self.body, self.comment = path, line, name, head, body, comment

    def place(self):
        return f"{self.path.relative_to(TOP)}:{self.line} {self.name}"


def without_comments(text):
    return re.sub(r"//.*", "", text)


def functions_of(path):
    lines = path.read_text(encoding="utf-8").splitlines()
    i = 0
    while i < len(lines):
        m = re.match(r"^(\s*)(?:pub(?:\([a-z]+\))? )?fn (\w+)", lines[i])
        if not m:
            i += 1
            continue
        indent, start = m.group(1), i
        comment = []
        k = i - 1
        while k >= 0 and (lines[k].strip().startswith("//") or lines[k].strip().startswith("#[")):
            comment.insert(0, lines[k].strip())
            k -= 1
        opened = i
        while opened < len(lines) and not (lines[opened].rstrip() == indent + "{" or (lines[opened].rstrip().endswith("{") and "ensures" not in lines[opened] and "requires" not in lines[opened])):
            if lines[opened].rstrip().endswith(";"):
                break
            opened += 1
        end = opened
        while end < len(lines) and lines[end].rstrip() != indent + "}":
            end += 1
        yield Function(path, start + 1, m.group(2), "\n".join(lines[start:opened + 1]), "\n".join(lines[opened + 1:end]), " ".join(comment))
        i = max(end, i) + 1


def sources():
    return sorted(TOP.glob("crates/*/src/**/*.rt"))


def all_functions():
    return [f for path in sources() for f in functions_of(path)]


def point_1(functions):
    enums, fields, sentinels = [], [], []
    for path in sources():
        text = path.read_text(encoding="utf-8").splitlines()
        for n, line in enumerate(text, 1):
            m = re.match(r"^\s*(?:pub(?:\([a-z]+\))? )?enum (\w+)", line)
            if m:
                enums.append(f"{path.relative_to(TOP)}:{n} {m.group(1)}")
        inside = None
        for n, line in enumerate(text, 1):
            m = re.match(r"^(?:pub(?:\([a-z]+\))? )?struct (\w+)", line)
            if m:
                inside = m.group(1)
            elif line.startswith("}"):
                inside = None
            elif inside and (m := FIELD.match(line)):
                fields.append(f"{path.relative_to(TOP)}:{n} {inside}.{m.group(1)}")
    for f in functions:
        if SENTINEL.search(f.comment) and re.search(r"-> (u8|u16|u32|u64|usize|i32)\b", f.head):
            sentinels.append(f.place())
    return [("enums", enums), ("numbers, flags and refusals beside values", fields), ("numbers that stand for none", sentinels)]


def shape(body):
    seen = {}

    def one(m):
        word = m.group(0)
        return word if word in KEEP else seen.setdefault(word, f"w{len(seen)}")

    return " ".join(re.sub(r"b?\"[^\"]*\"|b?'[^']*'|[A-Za-z_]\w*|\d[\w]*", one, without_comments(body)).split())


def point_2(functions):
    shapes, names = collections.defaultdict(list), collections.defaultdict(list)
    for f in functions:
        if len([line for line in without_comments(f.body).splitlines() if line.strip()]) >= 3:
            shapes[shape(f.body)].append(f)
        names[f.name].append(f)
    alike = [", ".join(f.place() for f in group) for group in shapes.values() if len(group) > 1]
    named = [f"{name}: " + ", ".join(f"{f.path.relative_to(TOP)}:{f.line}" for f in group) for name, group in sorted(names.items()) if len(group) > 1 and name not in ("run", "main")]
    return [("the same but for names and numbers", alike), ("of one name", named)]


def point_3(functions):
    counted, others = [], []
    for f in functions:
        lines = f.body.splitlines()
        for n, line in enumerate(lines):
            m = re.match(r"^(\s*)while (.*) \{$", line) or re.match(r"^(\s*)(loop) \{$", line)
            if not m:
                continue
            inner = []
            for later in lines[n + 1:]:
                if later.rstrip() == m.group(1) + "}":
                    break
                inner.append(later)
            body = without_comments("\n".join(inner))
            words = set(re.findall(r"[a-z_]\w*", m.group(2)))
            stepped = any(re.search(rf"^\s*{w} (\+|-)= \d+;|^\s*{w} = {w} (\+|-) \d+;", body, re.M) for w in words)
            (counted if stepped else others).append(f"{f.path.relative_to(TOP)}:{f.line} {f.name}: while {m.group(2)}")
    return [("that count an index by hand", counted), ("others", others)]


def point_4(functions):
    return [("by their names", [f.place() for f in functions if NAMED.match(f.name)])]


def parts_of(fact):
    depth, start, out = 0, 0, []
    for i, c in enumerate(fact):
        depth += c in "([{"
        depth -= c in ")]}"
        if c == "×" and depth == 0:
            out.append(fact[start:i])
            start = i + 1
    out.append(fact[start:])
    cleaned = []
    for part in out:
        part = part.strip()
        while part.startswith("(") and part.endswith(")") and parts_balanced(part[1:-1]):
            part = part[1:-1].strip()
            if "×" in part:
                cleaned.extend(parts_of(part))
                part = ""
                break
        if part:
            cleaned.append(part)
    return cleaned


def parts_balanced(text):
    depth = 0
    for c in text:
        depth += c == "("
        depth -= c == ")"
        if depth < 0:
            return False
    return depth == 0


def point_5(functions):
    facts, pairs = collections.defaultdict(set), collections.defaultdict(set)
    for f in functions:
        for m in re.finditer(r"requires (?:\w+ )?\{ (.*) \}\s*$", f.head, re.M):
            for part in parts_of(m.group(1)):
                facts[part].add(f.place())
        m = re.search(r"\((.*?)\)\s*(?:->|$|\{|\n)", f.head.replace("\n", " "))
        names = re.findall(r"(\w+): (&?(?:'\w+ )?(?:mut )?[\w\[\]; ]+)", m.group(1)) if m else []
        for i in range(len(names)):
            for j in range(i + 1, len(names)):
                pairs[names[i], names[j]].add(f.place())
    return [("facts", [f"{len(v)} {k}" for k, v in sorted(facts.items(), key=lambda p: -len(p[1])) if len(v) >= 3]),
            ("parameters", [f"{len(v)} {a[0]}: {a[1]}, {b[0]}: {b[1]}" for (a, b), v in sorted(pairs.items(), key=lambda p: -len(p[1])) if len(v) >= 3])]


def point_6(functions):
    beside = [f.place() for f in functions if re.search(r"\w+: &(mut )?\[u\d+\], (size|count|length): u", f.head.replace("\n", " "))]
    read = [f.place() for f in functions if re.search(r"let \w+ = (files::(arg|read_full)|cases::get_span)\(", f.body)]
    halving = [f.place() for f in functions if "/ 2" in f.body and "while" in f.body]
    arrays = []
    for path in sources():
        for m in re.finditer(r"struct (\w+)(?:<[^>]*>)? \{(.*?)\n\}", path.read_text(encoding="utf-8"), re.S):
            sizes = re.findall(r": \[\w+; (\w+)\]", m.group(2))
            if len(sizes) != len(set(sizes)):
                arrays.append(f"{path.relative_to(TOP)} {m.group(1)}")
    return [("a length beside", beside), ("read with a length beside", read), ("arrays of one length", arrays), ("halving", halving)]


def point_7(functions):
    found = []
    for f in functions:
        words = len(re.findall(r"if .*is_same\(.*b\"", f.body))
        numbers = len(re.findall(r"if \(?(number|kind|form|field|words|count|row|got\.field|which) == ", f.body))
        arms = max([len(re.findall(r"^\s+(?:\d\w*|b'.')(?: \| \w+)* =>", m.group(2), re.M)) for m in re.finditer(r"match (\w+) \{(.*?)\n    \}", f.body, re.S)] or [0])
        if max(words, numbers, arms) >= 3:
            found.append(f.place())
    return [("steps picked", found)]


def main():
    signal.signal(signal.SIGPIPE, signal.SIG_DFL)
    parser = argparse.ArgumentParser(description=__doc__, formatter_class=argparse.RawDescriptionHelpFormatter)
    parser.add_argument("--list", action="store_true")
    parser.add_argument("points", nargs="*", type=int)
    given = parser.parse_args()
    functions = all_functions()
    print(f"{len(functions)} functions in {len(sources())} files")
    for number, point in enumerate((point_1, point_2, point_3, point_4, point_5, point_6, point_7), 1):
        if given.points and number not in given.points:
            continue
        for what, places in point(functions):
            print(f"{number} {what}: {len(places)}")
            if given.list:
                for place in places:
                    print(f"    {place}")


if __name__ == "__main__":
    main()
