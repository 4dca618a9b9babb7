#!/usr/bin/env python3
"""Every public operation of the libraries has its field in OneAnswer, and that field cites its contract and all that it leaves behind.

    python3 tests/one_answer_test.py [ROOT]

A public operation is a function that another crate, or C, can name: a `pub fn` of a crate's root file, one that the root passes on by
`pub use`, or an associated one. Forms of `pub` and of `impl`, and traits by hand, that this test does not know are errors, so that none is
passed over; so is a public type with a lifetime, since what is left behind a borrow in it would not be seen: gathering's `Field` alone is
known, as it stands. Only the parts of
decision 15 may have a `requires`. What C calls are the functions of the static libraries, which no crate can cite: each has to be, word for
word in its head and its clauses, a function of a library that has its field, and to call that one alone. A line for each thing that is
wrong, and exit status 1.
"""
import re
import sys
from pathlib import Path

ROOT = Path(sys.argv[1] if len(sys.argv) > 1 else __file__).resolve()
ROOT = ROOT if ROOT.is_dir() else ROOT.parent.parent

# Libraries without operations of the paper: theorems alone, and parts of the program (docs/PROMISES.md says why).
APART = {"demands", "read_back", "nothing_glued", "bench", "one_answer", "desk", "lines", "files", "input", "printing", "keeping"}
# Decision 15: parts that ask something of their arguments.
PARTS = {
    "octets": {"octet", "octet_across", "copy", "fill"},
    "numbers": {"number", "put"},
    "frame": {"data_size"},
    "packet": {"header.Header.of", "source.Packet.idle", "source.Packet.idle_across", "source.Packet.total"},
    "chain": {"distance"},
    "channel": {"store.Store.place"},
    "walk": {"walk"},
    "gathering": {"settle", "hunt", "gather"},
    "steps": {"steps"},
    "accepting": {"accept"},
    "laying": {"lay", "pointer"},
    "host_words": {"pack"},
    "host_answers": {"answer_read", "answer_write"},
}

SIZE = r"<const \w+: usize>"
HEAD = re.compile(rf"^( *)pub fn (\w+)({SIZE})?\(((?:[^()]|\(\))*)\)(?: -> ([^{{}}\n]+?))?(?=\s*(?:requires|ensures|\{{))", re.M)
CLAUSE = re.compile(r"\s*(requires|ensures)( \w+)? \{")
KNOWN = re.compile(
    rf"^ *(?:pub fn \w+(?:{SIZE})?\("
    r"|pub struct \w+(?: \{|;|\((?:pub \w+(?:, )?)+\);)|pub enum \w+ \{|pub const [A-Z_]+: |pub use \w+::(?:\w+;|\{)|pub \w+: )"
)
# The public types with a lifetime, each as it stands: what is lent in it is only read.
BORROWS = {"gathering": "pub struct Field<'a> {\n    pub octets: &'a [u8],\n    pub pointer: usize,\n    pub limit: usize,\n}\n"}
# Traits that a library's type has by hand, with clauses of their own and edits; what is derived has the clauses of the toolchain's derives.
TRAITS = {"reading": {"From<frame::Refusal> for Refusal"}}
IMPL = re.compile(r"^impl(?:<'a>)? (\w+)(?:<'a>)? \{", re.M)
PASSED_ON = re.compile(r"^pub use \w+::(?:(\w+)|\{([\w\s,]+)\});$", re.M)
EXPORT = re.compile(r'^#\[unsafe\(no_mangle\)\]\npub extern "C" fn ', re.M)


def libraries(static=False):
    """The names of the crates that are libraries and not APART, or else of the static libraries."""
    lines = (ROOT / "crates.txt").read_text().splitlines()
    heads = [line.split(":")[0].split() for line in lines if ":" in line and not line.startswith("#")]
    names = [head[0] for head in heads if ("staticlib" in head[1:]) == static]
    return [name for name in names if (ROOT / "crates" / name / "src/lib.rt").exists() and name not in APART]


def sources(crate):
    return {path: path.read_text() for path in sorted((ROOT / "crates" / crate / "src").rglob("*.rt"))}


def closing(text, at):
    """The place behind the brace that closes the one that opens right before `at`."""
    depth = 1
    while depth:
        depth += {"{": 1, "}": -1}.get(text[at], 0)
        at += 1
    return at


def functions(text):
    """Of each public function: where it begins, its indent, name, size, parameters and result, its clauses, and its body."""
    found = []
    for m in HEAD.finditer(text):
        at, clauses = m.end(), []
        while clause := CLAUSE.match(text, at):
            at = closing(text, clause.end())
            clauses.append((clause[1], " ".join(text[clause.start() : at].split())))
        body = re.compile(r"\s*\{").match(text, at)
        if body:
            found.append((m.start(), *m.groups(), clauses, text[body.end() : closing(text, body.end()) - 1]))
    return found


def operations(crate, wrong):
    """Each public operation's name in the crate's facade, with whether it has a size, whether its result is an array of that size, the places of
    its `&mut` parameters, whether it has a `requires`, and how many `ensures` it has."""
    files = sources(crate)
    root = files[ROOT / "crates" / crate / "src/lib.rt"]
    passed_on = {name for one, some in PASSED_ON.findall(root) for name in re.findall(r"\w+", one + some)}
    if len(PASSED_ON.findall(root)) != len(re.findall(r"^pub use ", root, re.M)):
        wrong.append(f"{crate}: lib.rt: a `pub use` that this test cannot read")
    homes = {name: path.stem for path, text in files.items() for name in re.findall(r"^pub (?:struct|enum) (\w+)", text, re.M)}
    found = {}
    for path, text in files.items():
        for line in text.replace(BORROWS.get(crate, "\0"), "").splitlines():
            if re.search(r"\b(?:pub|extern|no_mangle)\b", line.split("//")[0]) and not KNOWN.match(line):
                wrong.append(f"{crate}: {path.name}: a form of `pub` that is not known: {line.strip()}")
            if re.search(r"\bimpl\b", line.split("//")[0]) and not IMPL.match(line) and " for " not in line.split("//")[0]:
                wrong.append(f"{crate}: {path.name}: a form of `impl` that is not known: {line.strip()}")
            if re.search(r"&\s*'\w+\s+mut\b", line.split("//")[0]):
                wrong.append(f"{crate}: {path.name}: what a call leaves behind this is not seen here: {line.strip()}")
        for said in re.findall(r"^ *(?:unsafe )?impl\b(?:<[^{]*?>)? ([^{]* for [^{]*?)(?:\s+where\s[^{]*)?\s*\{", text, re.M):
            if said not in TRAITS.get(crate, set()):
                wrong.append(f"{crate}: {path.name}: a trait by hand that this test does not know: {said}")
        for start, inside, name, size, params, result, clauses, _ in functions(text):
            array = bool(size) and result == f"[u32; {size[len('<const ') : -len(': usize>')]}]"
            if size and (inside or "[" in (result or "") and not array):
                wrong.append(f"{crate}: {name}: a size that this test cannot read")
            if inside:
                kind = IMPL.findall(text[:start])[-1]
                name = f"{kind}.{name}" if homes[kind] == "lib" else f"{homes[kind]}.{kind}.{name}"
            elif not (path.name == "lib.rt" or name in passed_on):
                continue
            each = [p.strip() for p in re.split(r",(?![^<\[]*[>\]])", params) if p.strip()]
            lent = [i for i, p in enumerate(each) if re.search(r":\s*&mut\b", p)]
            kinds = [kind for kind, _ in clauses]
            found[name] = (bool(size), array, lent, "requires" in kinds, kinds.count("ensures"))
        if len(functions(text)) != len(re.findall(r"^ *pub fn ", text, re.M)):
            wrong.append(f"{crate}: {path.name}: a public function whose head this test cannot read")
    return found


def exported(wrong):
    """Each function of a static library, which exports it, is a public function of the library that it calls, and says what that one says."""
    def plain(text):
        return re.sub(r"\s|,(?=\s*\))", "", text)

    def meant(text):
        uses = re.findall(r"^ghost use ([\w.]+)\.\{([^}]*)\};$", text, re.M)
        return {(path, name.strip()) for path, names in uses for name in names.split(",")}

    said, means = {}, {}
    for crate in libraries():
        text = sources(crate)[ROOT / "crates" / crate / "src/lib.rt"]
        means[crate] = meant(text)
        for _, inside, name, *rest, _ in functions(text):
            if not inside:
                said[crate, name] = rest
    count = 0
    for crate in libraries(static=True):
        for path, text in sources(crate).items():
            own = functions(EXPORT.sub("pub fn ", text))
            count += len(own)
            code = re.sub(r"//.*", "", text)
            if len(own) != len(EXPORT.findall(text)) or len(own) != len(re.findall(r"\bfn\b", code)) or path.name != "lib.rt":
                wrong.append(f"{crate}: {path.name}: a function that this test cannot read, or that is not exported")
            for _, inside, name, size, params, result, clauses, body in own:
                called = re.match(r"(\w+)::(\w+)\(", body.strip())
                there = said.get(called.groups()) if called else None
                names = re.findall(r"(?:^|,)\s*(\w+)\s*:", params)
                if inside or size or not there or called[2] != name or plain(body) != plain(f"{called[1]}::{name}({','.join(names)})"):
                    wrong.append(f"{crate}: {name} is not a call of a library's function of that name, with its own parameters")
                elif [size, plain(params), result, clauses] != [there[0], plain(there[1]), *there[2:]] or not meant(text) <= means[called[1]]:
                    wrong.append(f"{crate}: {name} does not say what {called[1]}::{name} says")
    return count


CLAUSES = {1: "one_clause _", 2: "two_clauses _ _", 3: "three_clauses _ _ _"}


def expected(alias, sized, array, lent, part, ensures):
    """The field: of a function that has a size, at each size n, and where the result is an array of n words, at each n that fits the memory."""
    each, of, at = ("(n : ℕ) → ", "({}.ended (of_size n))", " (of_size n)") if sized else ("", "{}.ended", "")
    each += "n * 4 < 2 ^ 63 → " if array else ""
    form = ("One" if part else "Answers") + ("Left" if lent else "")
    asks = "" if part else f" (λ κs a. {'array_clauses _ _' if array else 'no_clause'})"
    places = ", ".join("e" + ".1" * i + ".0.now" for i in lent)
    left = f" (λ κs e. {places})" if len(lent) == 1 else f" (λ κs e. ({places}))" if lent else ""
    says = CLAUSES.get(ensures, f"{ensures} clauses")
    clauses = f"(λ w. {alias}.clauses{at} w.𝓛 w.𝓜.mem w.𝓡.returns)"
    return f"{each}{form} {of.format(alias)} {clauses} (λ κs a w. tt){asks} (λ κs a x e. {says}){left}"


def proved(wrong):
    """The theorem is proved as the contract of a function, so that the crate cannot pass without it."""
    source = (ROOT / "crates/one_answer/src/lib.rt").read_text()
    if not re.search(r"^pub fn one_answer\(\)\n    ensures \{ OneAnswer \}\n\{", source, re.M):
        wrong.append("one_answer: src/lib.rt has no function with the contract OneAnswer")
    if "ghost use Rattle.one_answer.specs.OneAnswer.{OneAnswer};" not in source.splitlines():
        wrong.append("one_answer: src/lib.rt takes OneAnswer from elsewhere")


def main():
    text = (ROOT / "crates/one_answer/specs/OneAnswer.antt").read_text()
    cited = {(m[0], m[1]): m[2] for m in re.findall(r"^use Rattle\.(\w+)\.specs\.contracts\.([\w.]+) as (\w+)$", text, re.M)}
    body = text[text.index("pub record OneAnswer") :]
    fields = {}
    for name, said in re.findall(r"^  pub (\w+) : (.*?)(?=^  (?:pub|--)|\Z)", body, re.M | re.S):
        fields[name] = re.sub(r"\{A = [^}]*\} ", "", " ".join(said.split()))
    wrong = []
    count = 0
    proved(wrong)
    for crate in libraries():
        for name, (sized, array, lent, asks, ensures) in operations(crate, wrong).items():
            count += 1
            part = name in PARTS.get(crate, set())
            if asks != part:
                wrong.append(f"{crate}: {name} " + ("has a `requires`, and is no part of decision 15" if asks else "is a part, and asks nothing"))
            alias = cited.pop((crate, name), "ALIAS")
            if fields.pop(alias, None) != expected(alias, sized, array, lent, part, ensures):
                wrong.append(f"{crate}: {name} lacks the field `{expected(alias, sized, array, lent, part, ensures)}`")
    wrong += [f"{crate}: {name} is cited, and is no public operation" for crate, name in cited]
    wrong += [f"the field {name} is of no public operation" for name in fields]
    for_c = exported(wrong)
    for line in wrong:
        print(f"one_answer_test: {line}")
    print(f"one_answer_test: {count} public operations, {for_c} of them for C, {len(wrong)} wrong")
    sys.exit(1 if wrong else 0)


main()
