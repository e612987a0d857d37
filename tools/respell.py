#!/usr/bin/env python3
"""Brings the names of definitions and lemmas to snake case: `at-reading` becomes `at_reading`.

usage: python3 tools/respell.py            at the top of the repository

A name is taken where specs/ or proofs/ declares it: a definition, a lemma, a constructor or a field of a record, or a
name that a proof gives to a step of its own by `let`. It is respelled wherever it stands as a whole name in an .antt or
.rt file of any crate, but not in a comment, not in a string, and not behind `goal.`, where Rattle's own names of goals
stand. A step of a proof that Rattle named as some declared name is named would be respelled too: the check tells.
A second run changes nothing. Names of one crate that would fall together are listed, and then nothing is changed.
"""

import os
import re
import sys

WORD = r"[A-Za-z][A-Za-z0-9_'-]*"
DECLARED = [
    re.compile(r"^(?:abbrev |unfoldable |pub )*(?P<name>" + WORD + r") *:(?: |$)"),
    re.compile(r"^  +(?:pub )?(?P<name>" + WORD + r") : "),
    re.compile(r"\blet (?P<name>" + WORD + r")(?: :| =)"),
]
MADE = re.compile(r"(?:goal|need|choose|choice)\.$")


def texts(top):
    for folder, dirs, files in os.walk(os.path.join(top, "crates")):
        dirs[:] = sorted(d for d in dirs if d != "out")
        for file in sorted(files):
            if file.endswith((".antt", ".rt")):
                yield os.path.join(folder, file)


def crate_of(path):
    return path.split("crates" + os.sep, 1)[1].split(os.sep, 1)[0]


def lines_of(path):
    with open(path, encoding="utf-8") as f:
        return f.read().split("\n")


def declared(path):
    """The names that this file declares, but for the answers to goals, whose names Rattle makes."""
    if not path.endswith(".antt"):
        return set()
    answers = os.path.basename(path) in ("Answers.antt", "Invariants.antt")
    found = set()
    for line in lines_of(path):
        for kind, pattern in enumerate(DECLARED):
            for match in pattern.finditer(line):
                made = answers and kind == 0 and re.search(r": *(?:\w+ )*(?:goal|need)\.", line)
                if not made and not line.lstrip().startswith("--"):
                    found.add(match.group("name"))
    return found


def respelled(line, names, comment):
    """The line with its names respelled, outside its strings and its comment."""
    parts = re.split(r'("(?:[^"\\]|\\.)*")', line)
    done = []
    for i, part in enumerate(parts):
        if i % 2 == 1:
            done.append(part)
            continue
        code, mark, rest = part.partition(comment)

        def turn(match):
            if match.group(0) not in names or MADE.search(code[: match.start()]):
                return match.group(0)
            return match.group(0).replace("-", "_")

        done.append(re.sub(r"(?<![\w'-])" + WORD, turn, code) + mark + rest)
        if mark:
            done.extend(parts[i + 1 :])
            break
    return "".join(done)


def main():
    top = os.getcwd()
    all_names, by_crate = set(), {}
    for path in texts(top):
        found = declared(path)
        all_names |= found
        by_crate.setdefault(crate_of(path), set()).update(found)
    clashes = []
    for crate, found in sorted(by_crate.items()):
        for name in sorted(found):
            if "-" in name and name.replace("-", "_") in found:
                clashes.append(f"{crate}: {name}")
    if clashes:
        print("these would fall together:", *clashes, sep="\n")
        return 1
    names = {name for name in all_names if "-" in name}
    changed = 0
    for path in texts(top):
        old = lines_of(path)
        comment = "--" if path.endswith(".antt") else "//"
        new = [respelled(line, names, comment) for line in old]
        if new != old:
            changed += 1
            with open(path, "w", encoding="utf-8") as f:
                f.write("\n".join(new))
    print(f"{len(names)} names, {changed} files")
    return 0


if __name__ == "__main__":
    sys.exit(main())
