#!/usr/bin/env python3
"""Respells the names that this repository's specs/ and proofs/ declare: words in snake case, types in upper camel case.

usage: tools/respell_names.py [--names]

Was run once, at the top of the repository, after the toolchain's own port.py, and has nothing left to do. A declared name
with a dash is turned wherever it stands as a whole word: in specs/, proofs/, src/, must-fail/*.edit, and the code spans of
pages. It goes by spelling alone, for the whole repository: names of the toolchain and of its goals are not declared here and
stay, but for one that is spelled like a declared name. --names prints the old and the new names of each crate, and writes
nothing.
"""

import glob
import re
import sys

SIGNS = r"\s(){}.;,@\"«»:`"
WORD = re.compile(rf"[^{SIGNS}]+")
# a signature, which may declare several names, and a record or a data type
SIGNATURE = re.compile(rf"\s*(?:abbrev |unfoldable )?(?:pub )?((?:[^{SIGNS}]+ )*[^{SIGNS}]+) :(?: |$)")
TYPE = re.compile(rf"\s*(?:pub )?(?:record|data) ([^{SIGNS}]+)")
# names that the toolchain makes for what is left to prove
GOAL = re.compile(
    r"(returns|invariant|invariant_of|loop|overflow(_\w+)?|bounds|slice[-_]bounds|decreases|nonzero)-|.*-(requires|init|preserved|smaller)(-\d+)?$"
)
SPAN = re.compile(r"`[^`\n]+`")


def files(*endings):
    for ending in endings:
        for path in sorted(glob.glob(ending, recursive=True)):
            if "/out/" not in path:
                yield path


def text_of(path):
    with open(path, encoding="utf-8") as file:
        return file.read()


def new_name(name):
    if name[0].isupper():
        return "".join(part[0].upper() + part[1:] for part in name.split("-"))
    return name.replace("-", "_")


def declared(path):
    for line in text_of(path).split("\n"):
        if line.lstrip().startswith(("--", "use ")):
            continue
        found = TYPE.match(line) or SIGNATURE.match(line)
        for name in found.group(1).split() if found else []:
            if "-" in name and not GOAL.match(name):
                yield name


def main():
    table = {}
    crates = {}
    for path in files("crates/*/specs/**/*.antt", "crates/*/proofs/**/*.antt"):
        for name in declared(path):
            table[name] = new_name(name)
            crates.setdefault(path.split("/")[1], {})[name] = table[name]
    if "--names" in sys.argv:
        for crate, names in crates.items():
            print(f"{crate}: " + ", ".join(f"`{old}` `{new}`" for old, new in sorted(names.items())))
        return

    def turned(text):
        return WORD.sub(lambda found: table.get(found.group(0), found.group(0)), text)

    for path in files("crates/**/*.antt", "crates/*/src/**/*.rt", "crates/*/must-fail/*.edit", "README.md", "docs/*.md"):
        before = text_of(path)
        if path.endswith(".md"):
            after = SPAN.sub(lambda found: turned(found.group(0)), before)
        else:
            after = turned(before)
        if after != before:
            with open(path, "w", encoding="utf-8") as file:
                file.write(after)


main()
