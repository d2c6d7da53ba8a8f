#!/usr/bin/env python3
"""Lists each signature, clause, definition and must-fail edit that changed between two checkouts, old and new side by side, as docs/DESIGN-PASS.md has
them: usage: design_listing.py OLD NEW PORT, where PORT is the toolchain's folder with contracts.py, whose reading of the sources is used."""

import re
import sys


def entries(old, new, port):
    """What changed, by crate: (crate, title, old lines, new lines); and what is not found again, by its old text."""
    found, lone = [], []
    r = port.compare(old, new)
    _, of, _, os_, _, _ = port.read(old)
    _, nf, _, _, _, _ = port.read(new)
    changed = {}
    for name, *texts in r["contracts changed"]:
        changed.setdefault(name, [None, None])[0] = texts
    for name, *signs in r["signatures changed"]:
        changed.setdefault(name, [None, None])[1] = signs
    for name, (texts, signs) in changed.items():
        crate, title = name.split(" ", 1)
        was, now = ([signs[0]], [signs[1]]) if signs else ([], [])
        if texts:
            was, now = was + clauses(texts[0], texts[1]), now + clauses(texts[2], texts[3])
        found.append((crate, "function " + title, was, now))
    taken = {name for name in changed}
    for row in r["functions not found again"]:
        key = row.split(" (requires")[0].split(" ")
        crate, name = key[0], key[-1]
        was = [x for k, v in sorted(of.items()) if k[0] == crate and k[3] == name and " ".join(p for p in k if p) == " ".join(key) for x in v]
        now = [(k, x) for k, v in sorted(nf.items()) if k[0] == crate and k[3] == name and " ".join(p for p in k if p) not in taken for x in v]
        for x in was:
            title = "function " + " ".join(key[1:])
            if now:
                k, y = now.pop(0)
                found.append((crate, title + ", now " + " ".join(p for p in k[1:] if p), whole(x), whole(y)))
            else:
                lone.append((crate, title, whole(x)))
    for crate, name, was, now in r["definitions"]["changed"]:
        found.append((crate, "definition or theorem " + name, was, now))
    for crate, name in r["definitions"]["gone"]:
        lone.append((crate, "definition " + name, os_[crate, name]))
    for crate, kind, name in r["ghost items and constants"]["gone"]:
        lone.append((crate, f"{kind} {name}", []))
    for crate, name, was, now in r["edits and outputs"]["changed"]:
        found.append((crate, "edit " + name if name.endswith(".edit") else "file " + name, [was], [now]))
    return r, found, lone


def clauses(requires, ensures):
    return [f"{word} {c[0]} {{ {c[1]} }}" for word, cs in (("requires", requires), ("ensures", ensures)) for c in cs]


def whole(f):
    return [f["sign"]] + clauses([c[1:] for c in f["requires"]], [c[1:] for c in f["ensures"]])


def order(entry):
    """Definitions, then functions, then edits, each by name."""
    return ["defi", "func", "edit", "file"].index(entry[1][:4]), entry[1]


def block(rows):
    lines = ["```"]
    for _, title, was, *now in rows:
        lines += [title] + [f"  - {t}" for t in was] + [f"  + {t}" for t in (now[0] if now else [])]
    return lines + ["```", ""]


def main(old, new, folder):
    sys.path.insert(0, folder)
    import contracts as port

    r, found, lone = entries(old, new, port)
    d = r["definitions"]
    print(f"{r['functions'][0]} functions, now {r['functions'][1]}; contracts the same {r['contracts the same']}, changed {len(r['contracts changed'])}; signatures changed {len(r['signatures changed'])}; ", end="")
    print(f"definitions and laws {d['old']}, now {d['new']}: the same {d['same']}, changed {len(d['changed'])}, gone by that name {len(d['gone'])}.\n")
    crates = [l.split(":")[0].split()[0] for l in open(f"{new}/crates.txt", encoding="utf-8") if re.match(r"\w", l)]
    for crate in crates:
        rows = sorted((e for e in found if e[0] == crate), key=order)
        if rows:
            print("\n".join([f"### {crate}", ""] + block(rows)))
    print("\n".join(["### Not found again by crate and name", "", "What states each of these now: above, in \"What went\".", ""] + block([(c, f"{c}: {t}", w) for c, t, w in sorted(lone)])))


if __name__ == "__main__":
    main(*sys.argv[1:4])
