#!/usr/bin/env python3
"""Which wrong bodies were tried, and how each was refused: the lines of bench/tried.txt.

A line has an edit of crates/NAME/wrong or crates/NAME/must-fail, the digest of that crate's own sources when it was
tried, and where the prover refused it: at a `goal` that stays open, at a `limit` of `search`, or at an `answer` that
is written by hand and no longer fits, which shows least. A change of a crate below isn't seen.

usage: bench/tried.py                 prints how many are tried as their crates are now, how many of these were refused
                                      where, how many were recorded ever, and each that isn't tried so
       bench/tried.py record FILE     takes the lines that rt must-fail printed to FILE; bench/wrong_bodies.sh does so
"""
import collections
import glob
import hashlib
import os
import re
import sys

TOP = os.path.dirname(os.path.dirname(os.path.realpath(__file__)))
RECORD = f"{TOP}/bench/tried.txt"
PLACES = (("goal", "a goal"), ("limit", "a limit"), ("answer", "an answer"))


def digest(crate):
    """The first digits of a digest over the names and bytes of the crate's src, specs and proofs."""
    made = hashlib.sha256()
    for part in ("src", "specs", "proofs"):
        for folder, folders, names in os.walk(f"{TOP}/crates/{crate}/{part}"):
            folders.sort()
            for name in sorted(names):
                path = f"{folder}/{name}"
                with open(path, "rb") as file:
                    made.update(os.path.relpath(path, TOP).encode() + b"\0" + file.read() + b"\0")
    return made.hexdigest()[:12]


def read():
    """The record: of each edit its digest and how it was refused."""
    if not os.path.exists(RECORD):
        return {}
    with open(RECORD, encoding="utf-8") as file:
        return {words[0]: words[1:] for words in map(str.split, file) if len(words) == 3}


def how(said):
    """Where an edit was refused, by what rt must-fail says of it."""
    if "`search` gave up" in said:
        return "limit"
    return "goal" if "it is not proved that" in said else "answer"


def record(said):
    """Puts the edits that were refused into the record, which keeps to the edits that are there."""
    known = read()
    with open(said, encoding="utf-8", errors="replace") as file:
        for crate, edit, text in re.findall(r"must-fail (\w+)/(\w+)\.edit: refused, as it must be: (.*)", file.read()):
            if "only because a proof file names" not in text:
                known[f"{crate}/{edit}"] = [digest(crate), how(text)]
    there = edits()
    with open(RECORD, "w", encoding="utf-8") as file:
        file.writelines(f"{edit} {' '.join(known[edit])}\n" for edit in sorted(known) if edit in there)


def edits():
    """All edits, as CRATE/NAME."""
    paths = glob.glob(f"{TOP}/crates/*/wrong/*.edit") + glob.glob(f"{TOP}/crates/*/must-fail/*.edit")
    return {f"{path.split('/')[-3]}/{os.path.basename(path)[:-5]}" for path in paths}


def main(words):
    if len(words) == 2 and words[0] == "record":
        record(words[1])
        return 0
    if words:
        print(__doc__, end="", file=sys.stderr)
        return 2
    known, there, digests = read(), sorted(edits()), {}
    left, where = [], collections.Counter()
    for edit in there:
        crate = edit.split("/")[0]
        digests.setdefault(crate, digest(crate))
        tried_at, at = known.get(edit, ("", ""))
        if tried_at == digests[crate]:
            where[at] += 1
        else:
            left.append(edit)
    print(f"{len(there) - len(left)} of {len(there)} are tried as their crates are now", end=": ")
    print(", ".join(f"{where[at]} refused at {words}" for at, words in PLACES))
    print(f"{sum(edit in known for edit in there)} were recorded ever; these aren't tried as their crates are:")
    for edit in left:
        print(f"{edit}{'' if edit in known else ', never recorded'}")
    return 0


if __name__ == "__main__":
    sys.exit(main(sys.argv[1:]))
