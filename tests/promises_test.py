#!/usr/bin/env python3
"""docs/PROMISES.md and the must-fail edits name the same edits, and each edit finds the text that it changes.

    python3 tests/promises_test.py

Every crates/CRATE/must-fail/LABEL.edit stands in the page as `CRATE/LABEL`, and every `CRATE/LABEL` of the page
is such a file. Each `old:` text of an edit stands once in its file, after the pairs before it were put in. A line for
each that is not so, and exit status 1.
"""
import glob
import os
import re
import sys

HERE = os.path.dirname(os.path.dirname(os.path.abspath(__file__)))


def edits():
    for path in glob.glob(os.path.join(HERE, "crates", "*", "must-fail", "*.edit")):
        crate = os.path.basename(os.path.dirname(os.path.dirname(path)))
        yield crate + "/" + os.path.basename(path)[: -len(".edit")]


def lost(name):
    """What is wrong with the texts that the edit quotes, or None."""
    crate, label = name.split("/")
    home = os.path.join(HERE, "crates", crate)
    texts, file, old = {}, None, None
    with open(os.path.join(home, "must-fail", label + ".edit"), encoding="utf-8") as f:
        for line in f.read().split("\n"):
            if line.startswith("file: "):
                file = line[len("file: ") :]
                if not os.path.isfile(os.path.join(home, file)):
                    return "no file " + file
                with open(os.path.join(home, file), encoding="utf-8") as source:
                    texts.setdefault(file, source.read())
            elif line.startswith("old: "):
                old = line[len("old: ") :]
            elif line.startswith("new:"):
                if texts[file].count(old) != 1:
                    return "its text stands %d times in %s: %s" % (texts[file].count(old), file, old)
                texts[file] = texts[file].replace(old, re.sub("^new: ?", "", line))
    return None if old else "it changes nothing"


def named(page):
    # Two words in small letters with one slash between them name an edit, unless they are a path of the repository.
    for name in re.findall(r"`([a-z0-9_]+/[a-z0-9_]+)`", page):
        if not os.path.exists(os.path.join(HERE, name)):
            yield name


def main():
    with open(os.path.join(HERE, "docs", "PROMISES.md"), encoding="utf-8") as f:
        on_page = set(named(f.read()))
    there = set(edits())
    wrong = ["%s: an edit that docs/PROMISES.md does not name" % name for name in sorted(there - on_page)]
    wrong += ["%s: named in docs/PROMISES.md, and no such edit" % name for name in sorted(on_page - there)]
    wrong += ["%s: %s" % (name, said) for name, said in ((name, lost(name)) for name in sorted(there)) if said]
    for line in wrong:
        print(line)
    print("promises_test: %d edits, %d named, %d wrong" % (len(there), len(on_page), len(wrong)))
    return 1 if wrong else 0


if __name__ == "__main__":
    sys.exit(main())
