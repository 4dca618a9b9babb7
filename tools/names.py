#!/usr/bin/env python3
"""Respells the repository's own definitions and lemmas: words in snake case, facts and types in camel case.

    python3 tools/names.py [ROOT]

Run once, as `python3 tools/names.py --anyway`, over the tree that the kit's port.py left. Names come from specs/ and proofs/ alone;
functions, types and fields of src/, and names of the kit, keep their spelling. In Markdown only names in backquotes are turned. It
prints each name that falls together with another one, and without --anyway then writes nothing: CHOSEN has those that had to
be told apart; the others are fields, functions of src/ or modules of the same name, which no file confuses.
"""
import collections
import glob
import re
import sys

ROOT = next((a for a in sys.argv[1:] if not a.startswith("--")), ".")
TOKEN = re.compile(r"[A-Za-z0-9_'?₀-₉⁺ℕℤ]+(?:-[A-Za-z0-9_'?₀-₉⁺ℕℤ]+)*")
OWN = re.compile(r"^(?:ghost )?(?:pub )?use Rattle\.([a-z_0-9]+)\.(.*)$")

# Names that would fall together with another one, or say another thing than before.
CHOSEN = {
    # a theorem beside the record of its sentences
    "Few-enough": "FewEnoughLaw", "Goes_on": "GoesOnLaw", "Handed-in-words": "HandedInWordsLaw", "Heard-in-words": "HeardInWordsLaw",
    "In-octets": "InOctetsLaw", "In-range": "InRangeLaw", "Laid-each": "LaidEachLaw", "Laid-well": "LaidWellLaw",
    "Reads-back": "ReadsBackLaw", "Writes-back": "WritesBackLaw", "Steps-in-words": "StepsInWordsLaw", "Walk-in-words": "WalkInWordsLaw",
    # a lemma beside its function
    "case-of": "packet_case", "chain-of": "chain_of_lem", "course-by": "course_by_lem", "digits_from": "digits_from_lem",
    "distance-in": "distance_in_lem", "header-octets": "header_octets_lem", "length-field": "length_field_lem",
    "lowest-from": "lowest_from_lem", "mask-from": "mask_from_lem", "short-idle": "short_idle_lem", "tallied-all": "tallied_all_lem",
    "values-of": "values_of_lem", "whole_in": "whole_in_lem", "word-octets": "word_octets_lem",
    "word_number": "word_number_lem", "ended_by": "ended_by_lem", "arrived-whole": "arrived_whole_lem",
    "channel-follows": "channel_follows_lem", "frame-written": "frame_written_lem", "packets-in": "packets_in_lem",
    "part-after": "part_after_lem", "state-follows": "state_follows_lem", "skips-out": "skips_out_lem",
    # decisions
    "hunts?": "hunts_or_not", "under-way?": "under_way_or_not", "agrees?": "agrees_or_not",
    # fields beside a definition that they cite
    "none-starts": "none_begins", "end_to_end": "laid_end_to_end", "store-fits": "store_is_fit", "output-fits": "output_is_fit",
    "packet-fits": "packet_is_fit",
    # the generator and the multiplier, by their letters in the book
    "G": "G", "S": "S",
    # triples, which are no values
    "Entry": "Entry", "Core": "Core", "Frame": "Frame", "Post": "Post", "Lent": "Lent", "Toks": "Toks",
    "Slices": "Slices", "Local": "Local",
}


# Names of blocks in a proof, which stand deeper than any definition.
ALSO = {"held-six", "and-true", "with-version", "plain-zero", "comes-plain", "tail-gone", "length-is", "eD", "dR"}


def camel(name):
    parts = [p for p in re.split(r"[-_?]", name) if p]
    return "".join(p[0].upper() + p[1:] for p in parts)


def snake(name):
    name = name.replace("?", "").replace("-", "_")
    name = re.sub(r"([a-z0-9'₀-₉])([A-Z])", r"\1_\2", name)
    name = re.sub(r"([A-Z])([A-Z][a-z])", r"\1_\2", name)
    return name.lower()


def antt_files():
    return sorted(glob.glob(ROOT + "/crates/*/specs/**/*.antt", recursive=True) + glob.glob(ROOT + "/crates/*/proofs/**/*.antt", recursive=True))


HEAD = re.compile(r"^((?:(?:abbrev|unfoldable|pub|data|record)\s+)*)([^\s:(){}=]+)\s+(.*)$")
SKIP = ("use ", "pub use ", "mod ", "pub mod ", "unfolding ", "open ", "--", "ghost ", "ruleset", "mutual", "where")


def defined(text):
    """(name, kind) of each definition, field and constructor of a file."""
    lines = text.split("\n")
    inside, blocks = None, []
    for i, line in enumerate(lines):
        if not line.strip() or line.strip().startswith("--"):
            continue
        if line.startswith(("use ", "pub use ")):
            for name in re.findall(r" as ([a-z][A-Za-z0-9_'-]*)", line):
                yield name, "alias"
        indent = len(line) - len(line.lstrip())
        blocks = [b for b in blocks if b < indent]
        if line.lstrip().startswith("module "):
            blocks.append(indent)
            inside = None
        elif blocks and indent == blocks[-1] + 2:
            m = HEAD.match(line.lstrip())
            if not m or line.lstrip().startswith(SKIP):
                continue
            if "record" in m.group(1) or "data" in m.group(1):
                yield m.group(2), "type"
            elif m.group(3).startswith(":"):
                whole = m.group(3)
                for more in lines[i + 1 :]:
                    if not more.startswith(" " * (indent + 1)):
                        break
                    whole += " " + more.split("--")[0].strip()
                yield m.group(2), "type" if re.search(r"(?:^|→|:)\s*Type \d+\s*$", whole) else "value"
        elif blocks and indent == blocks[-1] + 4:
            m = re.match(r"pub ([^\s:(){}=]+) :(?: |$)", line.lstrip())
            if m:
                yield m.group(1), "field"
        elif not line[0].isspace():
            inside = None
            if line.startswith(SKIP):
                continue
            m = HEAD.match(line)
            if not m:
                continue
            before, name, rest = m.groups()
            if "record" in before or "data" in before:
                inside = "record" if "record" in before else "data"
                yield name, "type"
            elif rest.startswith(":"):
                whole = rest
                for more in lines[i + 1 :]:
                    if not more.startswith(" "):
                        break
                    whole += " " + more.split("--")[0].strip()
                if re.search(r"\btie\.|\bgoal\.|statement M\s*$", whole):
                    continue  # an answer, named after its goal
                yield name, "type" if re.search(r"(?:^|→|:)\s*Type \d+\s*$", whole) else "value"
        elif inside:
            m = re.match(r"  (?:pub )?([^\s:(){}=]+) :(?: |$)", line)
            if m:
                yield m.group(1), "field" if inside == "record" else "constructor"


def source_names():
    """What src/ calls its own: these keep their spelling."""
    names = set()
    for path in glob.glob(ROOT + "/crates/*/src/*.rt"):
        with open(path, encoding="utf-8") as f:
            names |= set(re.findall(r"\b[A-Za-z_][A-Za-z0-9_]*\b", re.sub(r"(?m)^ghost use .*$|//.*$", "", f.read())))
    return names


def outside_names(text, own):
    """The names that a file takes from the kit."""
    names = set()
    for line in re.findall(r"(?m)^(?:ghost )?(?:pub )?use ([^\n]*)$", text):
        m = re.match(r"Rattle\.([a-z_0-9]+)\.", line)
        if m and m.group(1) in own:
            continue
        for group in re.findall(r"\{([^}]*)\}", line):
            for part in group.split(","):
                names |= set(TOKEN.findall(part))
    return names


def main():
    own = {line.split(":")[0].split()[0] for line in open(ROOT + "/crates.txt", encoding="utf-8") if ":" in line and not line.startswith("#")}
    kinds = collections.defaultdict(set)
    texts = {}
    for path in antt_files():
        with open(path, encoding="utf-8") as f:
            texts[path] = f.read()
        for name, kind in defined(texts[path]):
            kinds[name].add(kind)
    for name in ALSO:
        kinds[name].add("value")
    turned = {}
    for name, ks in kinds.items():
        new = camel(name) if "type" in ks else snake(name)
        if len(ks & {"type"}) and len(ks) > 1:
            print("a fact and a value: %s %s" % (name, sorted(ks)))
        new = CHOSEN.get(name, new)
        if new != name:
            turned[name] = new
    back = collections.defaultdict(set)
    for name in kinds:
        back[turned.get(name, name)].add(name)
    bad = 0
    for new, olds in sorted(back.items()):
        if len(olds) > 1:
            print("together: %s <- %s" % (new, sorted(olds)))
            bad += 1
    rt = {p: open(p, encoding="utf-8").read() for p in sorted(glob.glob(ROOT + "/crates/*/src/*.rt"))}
    for path, text in sorted(list(texts.items()) + list(rt.items())):
        tokens = set(TOKEN.findall(re.sub(r"(?m)--.*$|//.*$", "", text)))
        outside = outside_names(text, own)
        for t in sorted(tokens & set(turned)):
            if t in outside:
                continue
            if turned[t] in tokens and turned[t] not in turned:
                print("in %s: %s -> %s is there already%s" % (path[len(ROOT) + 8 :], t, turned[t], " (kit)" if turned[t] in outside else ""))
                bad += 1
    print("%d names, %d turned, %d to look at" % (len(kinds), len(turned), bad))
    if bad and "--anyway" not in sys.argv:
        return 1
    # write
    for path, text in list(texts.items()) + list(rt.items()):
        outside = outside_names(text, own)
        mark = "//" if path.endswith(".rt") else "--"
        out = []
        for line in text.split("\n"):
            code, sep, comment = line.partition(mark)
            code = TOKEN.sub(lambda m: turned.get(m.group(0), m.group(0)) if m.group(0) not in outside else m.group(0), code) if '"' not in code or mark == "--" else code
            comment = TOKEN.sub(lambda m: turned.get(m.group(0), m.group(0)) if re.search(r"[a-z0-9][A-Z]|^[A-Z].*-", m.group(0)) else m.group(0), comment)
            comment = re.sub(r"`([^`]+)`", lambda m: "`" + TOKEN.sub(lambda k: turned.get(k.group(0), k.group(0)), m.group(1)) + "`", comment)
            out.append(code + sep + comment)
        new = "\n".join(out)
        if new != text:
            with open(path, "w", encoding="utf-8") as f:
                f.write(new)
    for path in glob.glob(ROOT + "/crates/*/must-fail/*.edit"):
        text = open(path, encoding="utf-8").read()
        out = []
        for line in text.split("\n"):
            if line.startswith(("old: ", "new: ")):
                line = line[:5] + TOKEN.sub(lambda m: turned.get(m.group(0), m.group(0)), line[5:])
            out.append(line)
        new = "\n".join(out)
        if new != text:
            open(path, "w", encoding="utf-8").write(new)
    for path in glob.glob(ROOT + "/*.md") + glob.glob(ROOT + "/docs/**/*.md", recursive=True) + glob.glob(ROOT + "/rust/*.md"):
        text = open(path, encoding="utf-8").read()
        new = re.sub(r"`([^`\n]+)`", lambda m: "`" + (m.group(1) if "." in m.group(1) and "/" in m.group(1) else TOKEN.sub(lambda k: turned.get(k.group(0), k.group(0)), m.group(1))) + "`", text)
        if new != text:
            open(path, "w", encoding="utf-8").write(new)
    return 0


if __name__ == "__main__":
    sys.exit(main())
