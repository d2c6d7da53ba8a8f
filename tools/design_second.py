#!/usr/bin/env python3
"""Counts the places of docs/DESIGN-PASS.md in another way than design_counts.py: by what each function is made of, not by lines.
Usage: design_second.py [FOLDER] [--list]"""
import collections, difflib, glob, os, re, sys

root = next((a for a in sys.argv[1:] if not a.startswith("-")), ".")
show = "--list" in sys.argv
files = sorted(f for f in glob.glob(os.path.join(root, "crates/*/src/**/*.rt"), recursive=True) if "/out/" not in f)


def functions():
    """(place, name, signature, body) of each function, without comments and contracts."""
    for f in files:
        body = re.sub(r"//.*", "", open(f, encoding="utf-8").read())
        body = re.sub(r"(?m)^\s*(?:ghost use|requires|ensures)\b.*$", "", body)
        for m in re.finditer(r"^( *)(?:pub(?:\(crate\))? )?(?:unsafe )?(?:extern \"C\" )?fn (\w+)", body, re.M):
            end = body.find("\n" + m.group(1) + "}", m.start())
            item = body[m.start():end]
            head, _, code = item.partition("\n" + m.group(1) + "{")
            line = body.count("\n", 0, m.start()) + 1
            yield f"{os.path.relpath(f, root)}:{line}", m.group(2), " ".join(head.split()), code


FUNCTIONS = list(functions())


def counters():
    """Variables that a loop raises or lowers by a constant: an index or a count by hand."""
    for place, name, _, code in FUNCTIONS:
        for loop in re.finditer(r"(?m)^( *)(?:'\w+: )?(?:let \w+ = )?(?:'\w+: )?(?:for|while|loop)\b.*\{", code):
            end = code.find("\n" + loop.group(1) + "}", loop.start())
            for var in set(re.findall(r"(?m)^\s*(\w+) [+-]= \d+;", code[loop.start():end])):
                yield place, f"{name}: {var}"


def free_loops():
    """Loops that are neither a `for` nor a `while let`."""
    for place, name, _, code in FUNCTIONS:
        for _ in re.finditer(r"\bwhile (?!let\b)|\bloop\b", code):
            yield place, name


def sentinels():
    """Functions that answer a number and return a literal early, and comparisons of a call's answer with 0."""
    for place, name, head, code in FUNCTIONS:
        if re.search(r"-> (?:u8|u16|u32|u64|usize)$", head) and re.search(r"return \d+;", code):
            yield place, name


def near_twins():
    """Pairs of functions of eight lines or more of which 85 words in a hundred are the same."""
    long = [(p, n, re.findall(r"[A-Za-z_]\w*|\d+|[^\s\w]", c)) for p, n, _, c in FUNCTIONS if c.count("\n") >= 8]
    for i, (p, n, a) in enumerate(long):
        for q, m, b in long[i + 1:]:
            if abs(len(a) - len(b)) * 5 < len(a) and difflib.SequenceMatcher(None, a, b, False).ratio() > 0.85:
                yield p, f"{n}, {m} ({q})"


def copied():
    """Struct values of which three fields or more are those of another value by the same names."""
    for place, name, _, code in FUNCTIONS:
        for source, count in collections.Counter(s for f, s, g in re.findall(r"\b(\w+): (\w+)\.(\w+),", code) if f == g).items():
            if count >= 3:
                yield place, f"{name}: {source}"


def bools():
    """Parameters that are flags, and matches on a number that is no byte of input."""
    for place, name, head, code in FUNCTIONS:
        for p in re.findall(r"(\w+): bool", head):
            yield place, f"{name}: {p}"


def lengths():
    """A list with a number beside it that says how much of it is meant: parameters named for that, not places."""
    for place, name, head, _ in FUNCTIONS:
        if re.search(r"&(?:mut )?\[", head):
            for p in re.findall(r"\b(count|len|length|m|n|left|size|held|upto): usize", head):
                yield place, f"{name}: {p}"


def travelling():
    """Three parameters of the same names and types in five signatures or more."""
    seen = collections.Counter()
    for _, name, head, _ in FUNCTIONS:
        params = sorted(set(re.findall(r"(\w+: [^,()]+)", head)))
        for i in range(len(params)):
            for j in range(i + 1, len(params)):
                for k in range(j + 1, len(params)):
                    seen[", ".join((params[i], params[j], params[k]))] += 1
    return [(f"{n} times", p) for p, n in seen.most_common() if n >= 5]


for title, found in [
    ("point 1: functions that answer a number and return a literal", sentinels()),
    ("point 2: pairs of which 85 words in a hundred are the same", near_twins()),
    ("point 3: loops that are no `for` and no `while let`", free_loops()),
    ("point 3: variables that a loop moves by a constant", counters()),
    ("point 4: values copied field by field", copied()),
    ("point 5: three parameters together in five signatures or more", travelling()),
    ("point 6: a list with a number beside it", lengths()),
    ("point 7: flags as parameters", bools()),
]:
    found = list(found)
    print(f"{len(found):4}  {title}")
    for place, what in found if show else []:
        print(f"        {place}  {what}")
