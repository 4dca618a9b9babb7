#!/usr/bin/env python3
"""Lists the places of src/ that have the form of an older language, point by point, for docs/DESIGN-PASS.md.

    python3 tools/forms.py [POINT..] [--root ROOT]

A place is a line `POINT FILE:LINE what`, and the last line of a point is `POINT: N places`. It goes by text: it lists what may be such a
place, and the page says of each what became of it.
"""
import difflib
import itertools
import re
import sys
from collections import defaultdict
from pathlib import Path

FUNCTION = re.compile(r"^ *(?:pub )?(?:const )?(?:extern \"C\" )?fn (\w+)", re.M)
TOKEN = re.compile(r"\w+|[^\w\s]")
PRINTS = re.compile(r"\b(?:text|line|value|flag|hex|check|octets|say|say_number)\(\s*(?:&?rt|err)\b")


def closing(text, at, pair="{}"):
    """The place behind what closes the bracket at `at`."""
    depth = 0
    for i in range(at, len(text)):
        depth += {pair[0]: 1, pair[1]: -1}.get(text[i], 0)
        if depth == 0:
            return i + 1
    return len(text)


class Function:
    def __init__(self, path, text, m):
        self.path, self.name = path, m[1]
        self.line = text.count("\n", 0, m.start() + 1) + (0 if text[m.start()] == "\n" else 1)
        start = text.index("(", m.end())
        end = closing(text, start, "()")
        self.params = [p.strip() for p in re.split(r",(?![^<\[(]*[>\])])", text[start + 1 : end - 1]) if p.strip()]
        head = re.compile(r"[^{]*?(?=\s*(?:requires\b|ensures\b|\{|where\b)|;\n)").match(text, end)
        self.result = " ".join(head[0].split())
        at = head.end()
        self.clauses = []
        while c := re.compile(r"\s*(requires|ensures)( \w+)? \{").match(text, at):
            at = closing(text, c.end() - 1)
            self.clauses.append((c[1], " ".join(text[c.end() : at - 1].split())))
        body = re.compile(r"\s*\{").match(text, at)
        self.body = text[body.end() : closing(text, body.end() - 1) - 1] if body else ""

    def place(self):
        return "%s:%d %s" % (self.path, self.line, self.name)

    def shape(self):
        """The function with its own name, types, numbers and octet strings blotted out."""
        said = re.sub(r'b?"(?:\\.|[^"\\])*"', '""', re.sub(r"//.*", "", ", ".join(self.params) + self.result + " { " + self.body))
        blot = lambda t: "T" if re.fullmatch(r"[uif](?:8|16|32|64|size)|usize|bool|[A-Z]\w*", t) else "0" if t[0].isdigit() else "F" if t == self.name else t
        return [blot(t) for t in TOKEN.findall(said)]


def functions(files):
    for path, text in files:
        for m in FUNCTION.finditer(text):
            yield Function(path, text, m)


def lines(files, pattern):
    for path, text in files:
        for n, line in enumerate(text.split("\n"), 1):
            if re.search(pattern, line.split("//")[0] if pattern[0] != "/" else line):
                yield "%s:%d %s" % (path, n, line.strip())


def point1(files):
    for path, text in files:
        for m in re.finditer(r"^(?:pub )?enum (\w+) \{(.*?)^\}", text, re.M | re.S):
            cases = re.findall(r"^    (\w+(?:\([^)]*\))?)(?: = \d+)?,", m[2], re.M)
            if len(cases) < 4:
                yield "%s:%d enum %s { %s }" % (path, text.count("\n", 0, m.start()) + 1, m[1], ", ".join(cases))
    yield from lines(files, r"^\s*(pub )?\w+: bool,")
    yield from lines(files, r"//.*(\b\d+ (if|where|past|for)\b|\b0 past|, 0 (if|for)|or the length)")
    yield from lines(files, r"\bif (state|number|heard|kind|letter)\w* [!=<]=? |\b1 < heard|match (letter|state, |kind_number|number)\b")
    yield from lines(files, r"^\s*pub const (IDLE|NONE|SEGMENT_ID)\b|^\s*pub (segment|pointer|version|type_bit|grouping): ")


def point2(files):
    all_of = [f for f in functions(files) if len(f.shape()) > 12]
    for a, b in itertools.combinations(all_of, 2):
        x, y = a.shape(), b.shape()
        stem = lambda f: re.sub(r"\d+$|_across$|_within$", "", f.name)
        if a.path == b.path and stem(a) == stem(b):
            yield a.place() + "  --  " + b.place()
        elif min(len(x), len(y)) / max(len(x), len(y)) > 0.8 and "extern" not in a.body:
            if difflib.SequenceMatcher(None, x, y, autojunk=False).ratio() > 0.86:
                yield a.place() + "  --  " + b.place()


def point3(files):
    yield from lines(files, r"^\s*(while\b.*\{|(let \w+ = )?loop \{)")
    for f in functions(files):
        calls = re.findall(r"\b(\w+)\((?:\w+, )*(\d)\)", f.body)
        for name in sorted({c[0] for c in calls}):
            if [c[1] for c in calls if c[0] == name][:4] == list("0123"):
                yield f.place() + " (%s written out)" % name


def point4(files):
    for f in functions(files):
        body = " ".join(re.sub(r"//.*", "", f.body).split())
        arms = re.findall(r"=> (?:\d+|true|false|\"[^\"]*\"|b\"[^\"]*\"),", body)
        if re.fullmatch(r"if !?[\w.]+ \{ \w+ \} else \{ \w+ \}", body) or re.fullmatch(r"if [\w.]+ [<=!]+ [\w.:]+ \{ [\w.:]+ \} else \{ [\w.:]+ \}", body):
            yield f.place() + " (a conversion or a choice)"
        elif re.fullmatch(r"match \w+ \{.*\}", body) and len(arms) > 1:
            yield f.place() + " (a conversion by match)"
        elif len(re.findall(r"\w+: (?:0|false)\b", body)) > 2:
            yield f.place() + " (zeros written out)"
        elif re.search(r"if [^{]+ \{ return (?:true|false); \}", body):
            yield f.place() + " (a condition by return)"
        elif len(re.findall(r"(\w+): (\w+)\.\1\b", body)) > 2:
            yield f.place() + " (a copy field by field)"
        if len(PRINTS.findall(body)) > 0 and "impl Print" in " ".join(f.params) or len(PRINTS.findall(body)) > 1:
            yield f.place() + " (%d pieces printed)" % len(PRINTS.findall(body))


def point5(files):
    facts, groups = defaultdict(list), defaultdict(set)
    all_of = [f for f in functions(files) if "_c/src" not in f.path]
    for f in all_of:
        for kind, said in f.clauses:
            if kind == "requires":
                for fact in said.split(" × "):
                    facts[re.sub(r"^\(|\)$", "", fact.strip())].append(f)
        for group in itertools.combinations(sorted(set(f.params) - {"&self", "self", "&mut self"}), 3):
            groups[group].add(f)
    for fact, where in sorted(facts.items()):
        if len(where) > 2:
            yield "%s: %s" % (fact, ", ".join(f.place() for f in where))
    largest = {}
    for group, where in groups.items():
        if len(where) > 2:
            key = frozenset(f.place() for f in where)
            largest[key] = sorted(set(largest.get(key, [])) | set(group))
    groups = sorted(largest.items(), key=lambda kv: -len(kv[1]))
    for key, group in groups:
        if any(set(group) < set(other) for _, other in groups):
            continue
        yield "(%s): %s" % (", ".join(group), ", ".join(sorted(key)))


def point6(files):
    for f in functions(files):
        said = ", ".join(f.params)
        if re.search(r": &(?:mut )?\[\w+(?:; \w+(?:::\w+)?)?\], (?:n|m|got|len|k): usize", said.replace("key: &[u8]", "")):
            yield f.place() + " (a buffer with its length beside it)"
    yield from lines(files, r"^\s*pub \w+: \[\w+(<.*>)?; (8|Header::CHANNELS)\]")


def point7(files):
    yield from lines(files, r"\bmatch (letter|command|step|which)\b|\bfn\(|\[fn")


POINTS = {"1": point1, "2": point2, "3": point3, "4": point4, "5": point5, "6": point6, "7": point7}


def main():
    words = sys.argv[1:]
    root = Path(__file__).resolve().parent.parent
    if "--root" in words:
        at = words.index("--root")
        root = Path(words[at + 1])
        del words[at : at + 2]
    paths = sorted(root.glob("crates/*/src/**/*.rt"))
    files = [(str(p.relative_to(root / "crates")), p.read_text(encoding="utf-8")) for p in paths]
    for point in words or sorted(POINTS):
        found = list(dict.fromkeys(POINTS[point](files)))
        for place in found:
            print(point, place)
        print("%s: %d places" % (point, len(found)))


main()
