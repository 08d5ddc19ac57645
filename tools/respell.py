#!/usr/bin/env python3
"""Brings the repository's own definitions, lemmas and fields to today's spelling: snake case, once, over all crates.

usage: tools/respell.py            in the repository, after port.py

Words of specs/ and proofs/ that begin with a small letter and have capitals are turned part by part (`keyNamesAt` to `key_names_at`,
`freshLen-same` to `fresh_len-same`; a part that begins with a capital, as the `WF` of `cut-WF`, is a type's name and stays), and so are the
17 definitions whose words were joined by dashes. It turns specs/, proofs/, the clauses of src/, the edits, and the pages that name the words.
It stops where two names would fall together. Functions of src/, exported names, strings, inputs and outputs keep their names.
"""
import glob
import re
import sys

WORD = re.compile(r"(?<![\w'′-])[A-Za-z_][\w'′]*(?:-[\w'′]+)*")
# Words that a file binds or names without a path.
FREE = re.compile(r"(?<![\w'′.-])[A-Za-z_][\w'′]*(?:-[\w'′]+)*")
PARAMETER = re.compile(r"(?:^|[(,]\s*|\bmut |\blet |\|)([a-z_]\w*)\s*(?::|=)")
DASHED = "labels-compute forest-compute tags-compute read-compute bytes-compute times-compute longest-compute marks-compute address-compute tree-compute keys-compute version-compute calls-compute archive-compute walk-compute shelf-compute at-list".split()
# A name with a middle dot before it, which is the library's.
OTHERWISE = {"lt-wfRel": "lt-wfRel"}
# Lemmas that would have their definition's name get `_lem`.
LEMMAS = "first_taken found_after go_on held_by is_among is_digit is_name keys_from mask_at name_in number_by read_as refused_as run_holds run_in same_set step_in value_in".split()
# Where the name is also a record's field: the files of the lemma.
FIELDS = {"refused_as": ["crates/archive/specs/AddCall.antt"]}
# A premise that hides a definition's new name.
PREMISES = {"place_of": ("of_place", "crates/keys/specs/BuildingLaws.antt")}
# Names that are met only behind a dot, or in proofs that are made anew.
APART = "add_at back_to step_back".split()


def snake(part):
    pieces = part.split("_")
    out = []
    for p in pieces:
        if p[:1].islower():
            p = re.sub(r"(?<=[a-z0-9₀-₉])([A-Z]+)", lambda m: "_" + m.group(1).lower(), p)
            p = re.sub(r"([A-Z])", lambda m: "_" + m.group(1).lower(), p)
        out.append(p)
    return "_".join(out)


def turned(word):
    if word in OTHERWISE:
        return OTHERWISE[word]
    if word in DASHED:
        return word.replace("-", "_")
    return "-".join(snake(p) for p in word.split("-"))


def is_old(word):
    return word in DASHED or (word[:1].islower() and any(c.isupper() for c in word) and turned(word) != word)


def bare(line):
    """A line of antt without its comment."""
    return re.sub(r"(^|\s)--(\s.*)?$", r"\1", line)


def main():
    antt = sorted(glob.glob("crates/*/specs/*.antt") + glob.glob("crates/*/proofs/**/*.antt", recursive=True))
    rt = sorted(glob.glob("crates/*/src/*.rt"))
    words, free, homes = set(), set(), {}
    for p in antt:
        for line in open(p):
            line = bare(line)
            words.update(WORD.findall(line))
            if not line.startswith("use Rattle") or "{" in line:
                for w in FREE.findall(re.sub(r"^use \S+\.\{", "", line)):
                    free.add(w)
                    homes.setdefault(w, p)
    for p in rt:
        for line in open(p):
            if not line.strip().startswith("//"):
                line = re.sub(r"b?'(\\.|[^'\\])'|\"[^\"]*\"|0x[0-9A-Fa-f_]+", "", line)
                words.update(WORD.findall(line))
                for w in PARAMETER.findall(line):
                    free.add(w)
                    homes.setdefault(w, p)
    table = {w: turned(w) for w in words if is_old(w)}
    bad, seen = [], {}
    for w, n in sorted(table.items()):
        if n in free and n not in table and n not in LEMMAS + APART + list(PREMISES):
            bad.append(f"{w} would be {n}, which is there already ({homes[n]}; {homes.get(w)})")
        if n in seen:
            bad.append(f"{w} and {seen[n]} would both be {n}")
        seen[n] = w
    for line in bad:
        print("respell: " + line, file=sys.stderr)
    if bad and "--force" not in sys.argv:
        return 1
    one = re.compile(r"(?<![\w'′-])(" + "|".join(sorted(map(re.escape, table), key=len, reverse=True)) + r")(?![\w'′]|-\w)")
    lemma = re.compile(r"(?<![\w'′.-])(" + "|".join(LEMMAS) + r")(?![\w'′]|-\w)")
    for p in antt:
        old = open(p).read()
        new = "\n".join(line if re.match(r"use [^{]*$", line) else lemma.sub(lambda m: m.group(1) + ("" if m.group(1) in FIELDS and p not in FIELDS[m.group(1)] else "_lem"), line) for line in old.split("\n"))
        for w, (n, home) in PREMISES.items():
            if p == home:
                new = re.sub(r"(?<![\w'′.-])" + w + r"(?![\w'′-])", n, new)
        if new != old:
            open(p, "w").write(new)
    pages = sorted(glob.glob("crates/*/must-fail/*.edit") + glob.glob("tests/edits/**/*.edit", recursive=True) + glob.glob("docs/*.md") + glob.glob("docs/changes/*.md") + ["README.md"])
    n = 0
    for p in antt + rt + pages:
        old = open(p).read()
        new = one.sub(lambda m: table[m.group(1)], old)
        if new != old:
            n += 1
            open(p, "w").write(new)
    print(f"respell: {len(table)} words, {n} files")
    return 0


if __name__ == "__main__":
    sys.exit(main())
