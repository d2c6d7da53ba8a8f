#!/usr/bin/env python3
"""Spells this repository's own definitions and lemmas in snake case, by respell.tsv beside this file.

usage: python3 tools/respell.py [TOP]          (run once, after the kit's port.py; TOP is the checkout, default the current folder)
       python3 tools/respell.py --table [TOP]  (writes respell.tsv from the declarations below TOP)

Each row of the table is an old name, a tab, a new name. Whole words turn, in .antt files, in .rt files, in must-fail edits, and in the code spans of
the documents. Names of the program (functions, fields, constants of src/) have snake case already and are not touched.
"""
import collections
import functools
import glob
import os
import re
import sys

HERE = os.path.dirname(os.path.realpath(__file__))
TABLE = os.path.join(HERE, "respell.tsv")
WORD = re.compile(r"[^\s(){}.;,@\"«»\[\]|`:!?*…/\\]+")
DECLARED = re.compile(r"^\s*((?:(?:unfoldable|abbrev|pub|data|record|ruleset) )*)(?!use |mod |where |mutual|let |in |elim |--|infix|unfolding|deriving)([^\s:(){},.]+)(?= : | \(| \{|$)(.*)")
CAMEL = re.compile(r"[a-z][A-Za-z0-9_'-]*$")
# Lemmas and a field that have a definition's name once that is in snake case: the files, below crates/, where they turn.
IN_FILES = [
    ("header_ok", "header_ok_lem", "beat/proofs/"),
    ("header_ok", "header_holds", "laws/specs/"),
    ("header_of", "header_of_lem", "laws/specs/"),
    ("left_by", "left_by_lem", "laws/specs/Halves.antt"),
    ("right_by", "right_by_lem", "laws/specs/Halves.antt"),
    ("take_in", "take_in_lem", "laws/specs/Reading.antt"),
    ("in_order", "in_order_lem", "midi/proofs/"),
    ("in_order", "in_order_lem", "writer/proofs/Ranked.antt"),
]
# Words of the library that a lemma's name may begin with or name after a dash.
LIBRARY = set("length take drop append set replicate map filter sum get_or insert sort min max zip fold all any pairs".split())


def texts(top):
    for f in sorted(glob.glob(os.path.join(top, "crates/*/*/**/*"), recursive=True)):
        if os.path.isfile(f) and "/out/" not in f and f.endswith((".antt", ".rt", ".edit")):
            yield f


def snake(word):
    if word[:1].isupper():
        return word
    word = "get_or" if word == "getD" else word
    return re.sub(r"(?<=[a-z0-9])[A-Z]", lambda m: "_" + m[0].lower(), word)


def declared(top):
    """Each name that a file of specs/ or of proofs/ itself declares, with whether it is a definition: marked so, or with a type that ends in one of values."""
    names = collections.defaultdict(bool)
    for f in texts(top):
        if not f.endswith(".antt") or f.count("/proofs/") and os.path.basename(os.path.dirname(f)) != "proofs":
            continue
        for line in open(f, encoding="utf-8"):
            m = DECLARED.match(line)
            if m and re.match(r"[A-Za-z]", m[2]):
                names[m[2]] |= bool(re.search(r"unfoldable|abbrev|data|record", m[1])) or bool(re.search(r"→ (List \S+|ℕ|Bool|Note|Cell|Take|Machine|Option \S+)$", line.strip()))
    return names


def camels(top):
    """The words in camel case that begin with a small letter, wherever they stand: declarations, fields and variables."""
    found = set()
    for f in texts(top):
        if f.endswith(".antt"):
            found |= {w for w in WORD.findall(open(f, encoding="utf-8").read()) if CAMEL.match(w) and re.search(r"[a-z0-9][A-Z]", w)}
    return found


@functools.lru_cache
def imported(top):
    """The names that some text imports from a library of the kit: these stay."""
    found = set()
    for f in texts(top):
        for module, names in re.findall(r"^(?:ghost )?use ([A-Za-z.]+?)\.\{([^}]*)\}", open(f, encoding="utf-8").read(), re.M):
            if re.match(r"Rattle\.(std|core)\b|(?!Rattle\.)", module):
                found |= {n.strip().split(" as ")[0] for n in names.split(",")}
    return found


def spelled(name, definitions):
    """Snake case; a dash stays between two names of definitions, and behind a type."""
    parts = [snake(p) for p in name.split("-")]
    out, i, last = "", 0, None
    while i < len(parts):
        j = next((j for j in range(len(parts), i, -1) if "_".join(parts[i:j]) in definitions), i + 1)
        unit = "_".join(parts[i:j])
        known = unit in definitions
        if out:
            out += "-" if (last is not False and known) or parts[i - 1][:1].isupper() else "_"
        out, last, i = out + unit, known, j
    return out


def write_table(top):
    names = declared(top)
    definitions = {snake(n).replace("-", "_") for n, d in names.items() if d} | LIBRARY
    rows = {}
    for n in sorted(set(names) | camels(top)):
        to = spelled(n, definitions)
        if to != n and n not in imported(top):
            rows[n] = to
    # A lemma that would have its function's name gets _lem.
    for _, old, new in collisions(top, rows):
        if "-" in old and not new.endswith("_lem"):
            rows[old] = new + "_lem"
    falls = collisions(top, rows)
    for f, old, new in falls:
        print(f"falls together: {old} -> {new} in {os.path.relpath(f, top)}")
    with open(TABLE, "w", encoding="utf-8") as t:
        t.writelines(f"{a}\t{b}\n" for a, b in sorted(rows.items()))
    print(f"{len(rows)} rows, {len(falls)} places where names fall together")


def collisions(top, rows):
    """The places where a new name is one that the file has already, or where two old names get one new name."""
    found, back = [], collections.defaultdict(set)
    for a, b in rows.items():
        back[b].add(a)
    for f in texts(top):
        if f.endswith(".edit"):
            continue
        words = set(WORD.findall(open(f, encoding="utf-8").read()))
        if f.endswith(".rt"):
            # A function of the program may be called as a definition is; a parameter, a field or a variable may not.
            words = set(re.findall(r"\b(\w+) *:(?!:)|\blet (?:mut )?(\w+)", open(f, encoding="utf-8").read()))
            words = {w for pair in words for w in pair} | set(WORD.findall(open(f, encoding="utf-8").read())) & set(rows)
        for w in words & set(rows):
            if rows[w] in words or len(back[rows[w]] & words) > 1:
                found.append((f, w, rows[w]))
    return found


def rows_of(f, rows):
    """The rows for a file."""
    own = {old: new for old, new, where in IN_FILES if "/crates/" + where in os.path.abspath(f)}
    return rows | own if own else rows


def turn(text, rows):
    return WORD.sub(lambda m: rows.get(m[0], m[0]), text)


def documents(top):
    return glob.glob(os.path.join(top, "docs/*.md")) + [os.path.join(top, "README.md")]


def main(argv):
    table = "--table" in argv
    top = next((a for a in argv if not a.startswith("--")), ".")
    if table:
        return write_table(top)
    rows = dict(line.rstrip("\n").split("\t") for line in open(TABLE, encoding="utf-8"))
    n = 0
    for f in list(texts(top)) + documents(top):
        old = open(f, encoding="utf-8").read()
        new = re.sub(r"`[^`\n]*`", lambda m: turn(m[0], rows), old) if f.endswith(".md") else turn(old, rows_of(f, rows))
        if new != old:
            n += 1
            with open(f, "w", encoding="utf-8") as out:
                out.write(new)
    print(f"{n} files changed")


if __name__ == "__main__":
    main(sys.argv[1:])
