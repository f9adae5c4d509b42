#!/usr/bin/env python3
"""Counts the places of docs/DESIGN-PASS.md's points in the sources of a tree: python3 tools/places.py [TREE] [POINT]."""
import glob
import re
import sys

tree = sys.argv[1] if len(sys.argv) > 1 else "."
point = sys.argv[2] if len(sys.argv) > 2 else None
files = sorted(glob.glob(f"{tree}/crates/*/src/*.rt"))
text = {f[len(tree) + 1:]: open(f).read() for f in files}

# a regular expression for each kind of place, matched line by line
kinds = {
    "1 refusals by number": r"refused\(|\.number [!=]= 0|number: \d+,|fn none\(",
    "1 a number that means none": r"^\s*//.*(\bor 0\b|\b0 where|\b0 for\b|is 0 if|\b0 if\b|or NO_NUMBER|or count\b|or `points`|or their number|0 elsewhere)",
    "3 loops by hand": r"^\s*(while|loop)\b",
    "4 conversions by `as`": r"\bas (u8|u16|u32|u64|usize|i32)\b",
    "4 bytes by division": r"% 256",
    "6 arrays as parameters": r"\b\w+: &(mut )?\[(u64|u16|usize|bool)\]",
    "7 function pointers, dyn": r"\bdyn\b|\bfn\(",
}


def functions(source):
    for m in re.finditer(r"^\s*(?:pub(?:\(crate\))? )?(?:extern \"C\" )?fn (\w+)(?:<[^(]*>)?\(([^)]*)\)(.*?)^\s*\{", source, re.S | re.M):
        yield m.group(1), m.group(2), m.group(3)


def show(kind, places):
    print(f"{kind}: {len(places)}")
    if point and kind.startswith(point):
        for p in places:
            print("   ", p)


# what a comment says counts in the second row alone
for kind, pattern in kinds.items():
    of_comments = kind == "1 a number that means none"
    show(kind, [f"{f}:{n}: {l.strip()[:110]}" for f, s in text.items() for n, l in enumerate(s.split("\n"), 1) if re.search(pattern, l if of_comments else l.split("//")[0])])

structs = [(f, m.group(1), m.group(2)) for f, t in text.items() for m in re.finditer(r"^(?:pub )?struct (\w+)[^{;]*\{(.*?)^\}", t, re.S | re.M)]
show("1 flags of a struct", [f"{f}: {name}.{flag}" for f, name, body in structs for flag in re.findall(r"(\w+): bool,", body)])

# 5: a clause that stands in three or more functions, and functions of six parameters or more
clauses, many = {}, []
for f, s in text.items():
    for name, params, contract in functions(s):
        for c in set(re.findall(r"(?:requires|ensures)[^{]*\{(.*)\}\s*$", contract, re.M)):
            for part in re.split(r" × ", c):
                part = part.strip(" ()")
                if len(part) > 12 and "result" not in part:
                    clauses.setdefault(part, set()).add(f"{f}:{name}")
        n = len(re.findall(r"\b\w+: ", params)) + ("self" in params)
        if n >= 6:
            many.append(f"{f}:{name}: {n}")
show("5 clauses in three functions or more", [f"{c}: {len(v)}" for c, v in clauses.items() if len(v) >= 3])
show("5 functions of six parameters or more", many)

answers = [f for f in glob.glob(f"{tree}/crates/*/proofs/**/Answers.antt", recursive=True)]
print("8 answers:", sum(len(re.findall(r"^pub \S+ : goal\.", open(f).read(), re.M)) for f in answers), "in", len(answers), "files,", sum(open(f).read().count("\n") for f in answers), "lines")
