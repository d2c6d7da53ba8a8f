#!/usr/bin/env python3
"""Counts the places of each point of docs/DESIGN-PASS.md in crates/*/src. Usage: design_counts.py [FOLDER] [--list]"""
import collections, glob, os, re, sys

root = next((a for a in sys.argv[1:] if not a.startswith("-")), ".")
show = "--list" in sys.argv
files = sorted(f for f in glob.glob(os.path.join(root, "crates/*/src/**/*.rt"), recursive=True) if "/out/" not in f)
text = {os.path.relpath(f, root): open(f, encoding="utf-8").read() for f in files}


def lines(pattern, comments=False):
    """The lines of code (or of comments) that match."""
    found = []
    for name, body in text.items():
        for number, line in enumerate(body.split("\n"), 1):
            is_comment = line.lstrip().startswith("//")
            if line.startswith("ghost use") or is_comment != comments:
                continue
            if re.search(pattern, line):
                found.append((f"{name}:{number}", line.strip()))
    return found


def functions():
    """(place, name, parameters, clauses, body) of each function."""
    for name, body in text.items():
        for m in re.finditer(r"^( *)(?:pub(?:\(crate\))? )?(?:extern \"C\" )?fn (\w+)", body, re.M):
            end = body.find("\n" + m.group(1) + "}", m.start())
            item = body[m.start():end]
            start = item.find("(")
            depth, close = 0, start
            for close in range(start, len(item)):
                depth += {"(": 1, ")": -1}.get(item[close], 0)
                if depth == 0:
                    break
            code = item.find("\n" + m.group(1) + "{")
            head = item[close + 1:code] if code >= 0 else ""
            number = body.count("\n", 0, m.start()) + 1
            yield f"{name}:{number}", m.group(2), item[start + 1:close], head, item[code + 1:]


def twins():
    """Functions whose bodies are the same but for types, names and numbers."""
    groups = collections.defaultdict(list)
    for place, name, params, head, body in functions():
        words = re.findall(r"[A-Za-z_]\w*|\d+|\S", re.sub(r"//.*", "", body))
        if len(words) < 24:
            continue
        keep = {"if", "else", "while", "for", "in", "let", "mut", "return", "match", "loop", "break", "as", "true", "false"}
        groups[" ".join(w if w in keep or not re.match(r"\w", w) else "_" for w in words)].append((place, name))
    return [(g[0][0], ", ".join(f"{n} ({p})" for p, n in g)) for g in groups.values() if len(g) > 1]


def facts():
    """Facts that stand in the requires of three functions or more."""
    seen = collections.defaultdict(list)
    for place, name, params, head, body in functions():
        for clause in re.findall(r"requires(?: \w+)? \{(.*)\}", head):
            for fact in set(re.split(r" × ", clause)):
                seen[fact.strip(" ()")].append(f"{name} ({place})")
    return [(f"{len(w)} times", f) for f, w in sorted(seen.items(), key=lambda x: -len(x[1])) if len(w) >= 3]


def travelling():
    """Pairs of parameters, with their types, that stand in six signatures or more."""
    seen = collections.Counter()
    for place, name, params, head, body in functions():
        names = sorted(set(re.sub(r"\s+", " ", p).strip() for p in params.split(",") if ":" in p))
        seen.update((a, b) for i, a in enumerate(names) for b in names[i + 1:])
    return [(f"{n} times", f"{a}, {b}") for (a, b), n in seen.most_common() if n >= 6]


def lengths():
    """Signatures with a slice and a count of what is used of it."""
    found = []
    for place, name, params, head, body in functions():
        if re.search(r"&(mut )?\[", params) and re.search(r"\b(count|m|n|left|held|size|rest): usize", params):
            found.append((place, name))
    return found


points = [
    ("1 enums", lines(r"\benum \w+")),
    ("1 flags in structs", lines(r"^\s*(pub )?\w+: bool,")),
    ("1 numbers for none or a refusal (comments)", lines(r"\bor 0\b|0 if |0 for |0 where|Returns 0|Returns 1|Returns 255|255 for|16 for|2,048 if|[Oo]ne more than (it|the table)|or e \+ 1", True)),
    ("1 numbers for none or a refusal (code)", lines(r"return (1|2|3|4|5|6|7|8|15|16|255|MALFORMED|2048|e \+ 1|MOST \+ 1);|number: (1|MALFORMED)")),
    ("2 twins by shape", twins()),
    ("2 named twins", [f for f in ((p, n) for p, n, *_ in functions()) if re.search(r"first_places|count_events?$|put_(two|three|four|six)$|further|fewer|lesser|half_at|word_at|(cell|note)_lane", f[1])]),
    ("3 while and loop", lines(r"\bwhile |\bloop \{")),
    ("4 by hand", lines(r"fn again|fn (lesser|fewer|further|one_if|moved|emptied|rewound|copy|clear|fits|half_at|word_at|digit_of|digit_value)\b|/ 16777216|/ 65536|\* 65536|\* 256 \+")),
    ("5 facts in three contracts or more", facts()),
    ("5 pairs of parameters in six signatures or more", travelling()),
    ("6 buffers with a length beside", lengths()),
    ("7 flags and numbers that choose a step", lines(r"\b(short|high): bool|call == \d|\bkind: u64")),
]
for title, found in points:
    print(f"{len(found):4}  {title}")
    if show:
        for place, what in found:
            print(f"        {place}  {what}")
