#!/usr/bin/env python3
"""Lists places in crates/*/src that an older form may have left, by the points of docs/DESIGN-PASS.md.

usage: tools/places.py [FOLDER] [POINT..]     FOLDER is a checkout, this one if it is left out

It lists candidates, by their shape alone; the page says of each what became of it.
"""
import itertools
import pathlib
import re
import sys

ARGS = sys.argv[1:]
ROOT = pathlib.Path(ARGS.pop(0)) if ARGS and not ARGS[0].isdigit() else pathlib.Path(".")
WANTED = [int(a) for a in ARGS] or list(range(1, 9))

FN = re.compile(r"^(?P<indent> *)(?:pub(?:\([a-z]+\))? )?(?:const )?fn (?P<name>\w+)", re.M)


class Function:
    """A function with a body or a trait's declaration: its place, head, clauses and body as text."""

    def __init__(self, path, line, name, head, clauses, body):
        self.path, self.line, self.name = path, line, name
        self.head, self.clauses, self.body = head, clauses, body

    def at(self):
        return f"{self.path}:{self.line} {self.name}"


def files():
    for path in sorted(ROOT.glob("crates/*/src/**/*.rt")):
        yield path.relative_to(ROOT).as_posix(), path.read_text()


def functions():
    for path, text in files():
        lines = text.split("\n")
        for match in FN.finditer(text):
            line = text.count("\n", 0, match.start()) + 1
            indent = match["indent"]
            head, clauses, body, state = [], [], [], "head"
            for row in lines[line - 1:]:
                if state == "body":
                    if row == indent + "}":
                        break
                    body.append(row)
                elif row == indent + "{}":
                    break
                elif row == indent + "{" or (state == "head" and row.startswith(indent) and row.endswith(" {")):
                    if row != indent + "{":
                        head.append(row)
                    state = "body"
                elif re.match(r"\s*(requires|ensures)\b", row):
                    state = "clauses"
                    clauses.append(row.strip())
                    if row.endswith(";"):
                        break
                elif state == "clauses":
                    clauses[-1] += " " + row.strip()
                    if row.endswith(";"):
                        break
                else:
                    head.append(row)
                    if row.endswith(";"):
                        break
            yield Function(path, line, match["name"], " ".join(h.strip() for h in head), clauses, "\n".join(body))


def grep(pattern):
    wanted = re.compile(pattern)
    for path, text in files():
        for number, row in enumerate(text.split("\n"), 1):
            if wanted.search(row) and not row.strip().startswith("//"):
                yield f"{path}:{number} {row.strip()}"


def shape(text):
    """A text with its names, numbers and strings left out, but for the words of the language."""
    words = {"if", "else", "match", "for", "in", "let", "mut", "return", "while", "loop", "self", "Some", "None", "Ok", "Err", "true", "false"}
    token = re.compile(r'b?"[^"]*"|\d[\d_]*|\w+|[^\s\w]')
    out = []
    for word in token.findall(re.sub(r"//.*", "", text)):
        if re.match(r"\w", word) or '"' in word:
            word = word if word in words else "_"
        out.append(word)
    return " ".join(out)


def point1():
    """functions that tell a refusal by a flag, an Option of a fault or a number; enums of the shape of Option or Result"""
    for f in functions():
        if re.search(r"-> Option<\w*Fault>", f.head) or re.search(r"-> (Result<\w+, u8>|u8)\b", f.head) and "Fault" in f.body + f.head:
            yield f.at()
        elif "&mut self" in f.head and "-> bool" in f.head:
            yield f.at()
        elif re.search(r"-> Result<\w+, Answer>", f.head) or re.search(r"Err\(fault\) => Answer::", f.body):
            yield f.at()
        elif re.search(r"Some\(fault\) => (return )?Err\(fault\)", f.body) or re.search(r"let Some\(fault\)", f.body):
            yield f.at()
        elif "fault.number()" in f.body and "-> u8" in f.head:
            yield f.at()
    for path, text in files():
        for match in re.finditer(r"enum (\w+)[^{]*\{([^}]*\{[^}]*\})*[^}]*\}", text):
            names = re.findall(r"^\s+([A-Z]\w+)", match[0], re.M)
            if len(names) <= 3 and "(" in match[0]:
                yield f"{path} enum {match[1]}: {', '.join(names)}"


def point2():
    """functions of one shape: the same text but for names, numbers and strings, from 25 words on"""
    groups = {}
    for f in functions():
        form = shape(f.body)
        if len(form.split()) >= 25:
            groups.setdefault(form, []).append(f)
    for group in groups.values():
        if len(group) > 1:
            yield " = ".join(f.at() for f in group)


def point3():
    """loops over a range of numbers or by while, and those that count beside the items"""
    yield from grep(r"\bfor \w+ in [\w.()]+\.\.")
    yield from grep(r"\bwhile |\bloop \{|\.enumerate\(\)")


def point4():
    """tests of a shape by match, copies through match, printing in pieces, conversions by `match Some`"""
    for f in functions():
        if re.search(r"=> true,\s*_ => false", f.body) or re.search(r"=> true,\s*None => false|None => false,", f.body):
            yield f.at() + ": a test by match"
        elif re.search(r"Some\((\w+)\) => Some\(", f.body) or re.search(r"Ok\((\w+)\) => Ok\(\1\)", f.body) or re.search(r"None => None,", f.body):
            yield f.at() + ": a map by match"
        elif re.search(r"Some\((\w+)\) => \1\b|Ok\((\w+)\) => \2\b|None => 0,|Err\(_\) => 0,", f.body):
            yield f.at() + ": a default by match"
        elif len(re.findall(r"self\.(text|number)\(", f.body)) > 1:
            yield f.at() + ": printing in pieces"
        elif re.search(r"fn (eq|ne|cmp|partial_cmp|clone|fmt)\(", f.head):
            yield f.at() + ": an impl by hand"


def point5():
    """premises and requires that three or more functions share; three or more parameters that three or more functions share"""
    facts = {}
    for f in functions():
        for clause in f.clauses:
            match = re.match(r"requires (?:\w+ )?\{ (.*) \}", clause)
            if match:
                facts.setdefault("requires " + re.sub(r"\.(now|old)\b", "", match[1]), []).append(f)
            match = re.match(r"ensures (?:\w+ )?\{ ([^≡(]*?) → ", clause)
            if match:
                facts.setdefault("premise " + re.sub(r"\.(now|old)\b", "", match[1]), []).append(f)
    for fact, group in facts.items():
        if len(group) >= 3:
            yield f"{fact}: " + ", ".join(f.at() for f in group)
    sets = {}
    for f in functions():
        match = re.search(r"\((.*)\)", f.head)
        pairs = re.findall(r"(\w+): ([&\w'<>\[\]:, ]+?)(?=, \w+:|,? ?\)|$)", match[1]) if match else []
        names = sorted({f"{n}: {t.strip(' ,')}" for n, t in pairs if n != "self"})
        for three in itertools.combinations(names, 3):
            sets.setdefault(three, []).append(f)
    for three, group in sets.items():
        if len(group) >= 3:
            yield f"({', '.join(three)}): " + ", ".join(f.at() for f in group)


def point6():
    """structs with an array or list and a count beside it, or with two arrays; lists of places that are numbers"""
    for path, text in files():
        for match in re.finditer(r"struct (\w+)[^{;]*\{(.*?)\n\}", text, re.S):
            fields = [row.strip() for row in match[2].split("\n") if ":" in row and "ghost" not in row and not row.strip().startswith("//")]
            arrays = [row for row in fields if re.search(r"\[.*;.*\]|Vec<|\[u32\]", row)]
            counts = [row for row in fields if re.search(r"count|\blen\b|room", row) and row not in arrays]
            if len(arrays) >= 2 or arrays and counts:
                yield f"{path} struct {match[1]}: " + " ".join(arrays + counts)


def point7():
    """a value of an enum that only says which step comes next"""
    for f in functions():
        for match in re.finditer(r"match (?:\w+\.)*(kind|placer|name_of\(\w+\)|step|next)\b", f.body):
            yield f.at() + ": " + match[0]


def point8():
    """answers and invariants in proofs"""
    for kind in ("Answers", "Invariants"):
        for crate in sorted(ROOT.glob("crates/*")):
            count = sum(len(re.findall(r"^abbrev pub|^pub |^unfoldable pub", p.read_text(), re.M)) for p in crate.glob(f"proofs/**/{kind}.antt"))
            if count:
                yield f"{crate.name}: {count} in {kind}.antt"


for number in WANTED:
    point = globals()[f"point{number}"]
    found = list(point())
    print(f"## {number}: {point.__doc__}: {len(found)}")
    for place in found:
        print("   " + place)
