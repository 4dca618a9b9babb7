#!/usr/bin/env python3
"""docs/READING.md and docs/PROVING.md name files and names that are there.

    python3 tests/reading_test.py

A file stands in a page as `CRATE/specs/NAME`, `CRATE/proofs/NAME` or `CRATE/src/NAME`. Names in backquotes behind
`file`: up to the next full stop, bar or line end must occur in that file. Every file of specs/ stands in READING.md, but
for Lib, Inside and Theorems, which every crate may have. A line for each that is not so, and exit status 1.
"""
import glob
import os
import re
import sys

HERE = os.path.dirname(os.path.dirname(os.path.abspath(__file__)))
PAGES = ["docs/READING.md", "docs/PROVING.md"]
FILE = r"`([a-z_]+/(?:specs|proofs|src)/[A-Za-z_/]+)`"


def path_of(name):
    for end in (".antt", ".rt", ""):
        path = os.path.join(HERE, "crates", name + end)
        if os.path.exists(path):
            return path
    return None


def read(path):
    with open(path, encoding="utf-8") as f:
        return f.read()


def wrong_in(page, text):
    for name in sorted(set(re.findall(FILE, text))):
        if path_of(name) is None:
            yield "%s: `%s`: no such file" % (page, name)
    for name, names in re.findall(FILE + r": ((?:`[^`]+`(?:, )?)+)", text):
        path = path_of(name)
        if path is None or os.path.isdir(path):
            continue
        there = read(path)
        for word in re.findall(r"`([^`]+)`", names):
            if not re.search(r"(?<![\w-])" + re.escape(word) + r"(?![\w-])", there):
                yield "%s: `%s` does not stand in `%s`" % (page, word, name)


def main():
    wrong, seen = [], 0
    for page in PAGES:
        text = read(os.path.join(HERE, page))
        seen += len(re.findall(FILE, text))
        wrong += wrong_in(page, text)
    reading = read(os.path.join(HERE, "docs/READING.md"))
    for path in sorted(glob.glob(os.path.join(HERE, "crates", "*", "specs", "*.antt"))):
        crate, name = path.split(os.sep)[-3], os.path.basename(path)[: -len(".antt")]
        if name not in ("Lib", "Inside", "Theorems") and "`%s/specs/%s`" % (crate, name) not in reading:
            wrong.append("docs/READING.md: does not name `%s/specs/%s`" % (crate, name))
    for line in wrong:
        print(line)
    print("reading_test: %d files named, %d wrong" % (seen, len(wrong)))
    return 1 if wrong or not seen else 0


if __name__ == "__main__":
    sys.exit(main())
