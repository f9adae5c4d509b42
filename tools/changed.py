#!/usr/bin/env python3
"""Old and new side by side, as Markdown: python3 tools/changed.py OLD_TREE NEW_TREE. Reads what the kit's port/contracts.py finds; of a theorem it shows the statement alone."""
import json
import re
import subprocess
import sys

old, new = sys.argv[1:3]
found = json.loads(subprocess.run(
    [sys.executable, "/opt/rattle/port/contracts.py", old, new, "--json"], capture_output=True, text=True).stdout)


def clauses(all_of):
    return " ".join(f"`{kind}{' ' + name if name else ''} {{ {text} }}`" for kind, group in all_of for name, text in group)


def row(*cells):
    print("| " + " | ".join(re.sub(r"\s+", " ", c).replace("|", "\\|").strip() for c in cells) + " |")


def statement(text, name):
    """A definition whole, a theorem without its proof."""
    if re.search(r"\b(abbrev|unfoldable|record|data)\b", text.split(name)[0]):
        return text
    parts = re.split(rf"(?<![\w-]){re.escape(name)}(?![\w-])", text)
    return text if len(parts) < 3 else parts[0] + name + parts[1].split(" unfolding ")[0]


print("### Signatures\n\n| function | old | new |\n|---|---|---|")
for name, was, now in found["signatures changed"]:
    row(name, f"`{was}`", f"`{now}`")
print("\n### Clauses\n\n| function | old | new |\n|---|---|---|")
for name, r0, e0, r1, e1 in found["contracts changed"]:
    row(name, clauses([("requires", r0), ("ensures", e0)]), clauses([("requires", r1), ("ensures", e1)]))
print("\n### Constants and ghost items\n\n| item | old | new |\n|---|---|---|")
for one in found["ghost items and constants"]["changed"]:
    row(" ".join(one[:-2]), str(one[-2]), str(one[-1]))
for one in found["ghost items and constants"]["gone"]:
    row(" ".join(one), "", "gone")
print("\n### Definitions and theorems\n\n| name | old | new |\n|---|---|---|")
for crate, name, was, now in found["definitions"]["changed"]:
    was, now = ([statement(t, name) for t in (x if isinstance(x, list) else [x])] for x in (was, now))
    if was != now:
        row(f"{crate} `{name}`", " ".join(f"`{t}`" for t in was if t not in now), " ".join(f"`{t}`" for t in now if t not in was))
print("\nFunctions gone:", "; ".join(re.sub(r" \(requires.*", "", f) for f in found["functions not found again"]) + ".")
print("\nDefinitions and theorems gone:", "; ".join(" ".join(one) for one in found["definitions"]["gone"]) + ".")
print("\nEdits whose text changed:", "; ".join(f"{one[0]} {one[1]}" for one in found["edits and outputs"]["changed"]) + ".")
