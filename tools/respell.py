#!/usr/bin/env python3
"""Brings the names of this repository's own definitions and lemmas to the spelling of today's Rattle. Run once, at the top, after port.py.

What is defined in crates/*/specs is respelled: a function, a lemma, a field or a constructor in snake case (`wireBytes` is
`wire_bytes`), types and modules stay in camel case; a dash stays only where it joins two names (`length-gather`), a plain word
is added with `_` (`nodes-at` is `nodes_at`). Names of src/, of generated goals, strings and inputs stay.
`respell.py --list` prints the old and the new names, and those that fall together, and changes nothing.
The names that it made on the repository stand in tools/respelled.txt, old and new; with that file there they are taken from it,
so that an earlier commit gets the same spelling. Other names follow the rules.
"""
import collections
import glob
import re
import sys

# names of std that a lemma's name is made of
STD = set("""length append set take drop sum map reverse add mul sub div mod suc zero nil cons get_or eqb ltb leb cond not and or
count concat min max ≤ < + * - χ ≥ ≡ le16 le32 bytes16 bytes32 le16b eq ne lt le""".split())
NAME = r"[^\s(){}.,;«»\"]+"
DEF = re.compile(r"^(\s*)((?:abbrev |unfoldable |pub |record |data )*)(" + NAME + r")((?: \([^\n]*\)| \{[^\n]*\})*)\s+:(\s|$)")


def code_and_comment(line):
    m = re.search(r"(^|\s)--(\s|$)", line)
    return (line, "") if not m else (line[:m.start()], line[m.start():])


def specs():
    return sorted(glob.glob("crates/*/specs/**/*.antt", recursive=True))


def defined(path):
    """The names defined in a file, each with whether it is a record's field."""
    names, record = {}, False
    for line in open(path):
        code, _ = code_and_comment(line.rstrip("\n"))
        if re.match(r"(pub )?(abbrev |unfoldable )?(pub )?record ", code):
            record = True
        elif code and not code[0].isspace():
            record = False
        if code.lstrip().startswith("let "):
            continue
        m = DEF.match(code)
        if m:
            names[m.group(3)] = names.get(m.group(3), False) or (record and bool(m.group(1)))
    return names


def snake(part):
    """One part of a name, without dashes."""
    if not re.search(r"[a-z0-9][A-Z]", part):
        return part
    return re.sub(r"(?<=[a-z0-9])([A-Z])", lambda m: "_" + m.group(1).lower(), part)


def is_type(name):
    return name[:1].isupper() and "-" not in name


def respelling():
    all_names, fields = {}, set()
    for path in specs():
        for name, field in defined(path).items():
            all_names.setdefault(name, set()).add(path)
            if field:
                fields.add(name)
    types = {n for n in all_names if is_type(n)}
    plain = {snake(n) for n in all_names if "-" not in n and n not in types} | types | STD
    new = {}
    for name in all_names:
        if is_type(name):
            continue
        parts = name.split("-")
        if "-" not in name or any(p == "" for p in parts):
            result = snake(name)
        else:
            parts = [p if p in types else snake(p if not re.fullmatch(r"[A-Z]", p) else p.lower()) for p in parts]
            two = len(parts) == 2 and all(p in plain for p in parts) and name not in fields
            result = parts[0]
            for left, right in zip(parts, parts[1:]):
                symbol = not re.search(r"\w", right) or not re.search(r"\w", left)
                result += ("-" if two or symbol else "_") + right
        if result != name:
            new[name] = result
    try:
        made = dict(line.split() for line in open("tools/respelled.txt"))
    except FileNotFoundError:
        made = {}
    for name in all_names:
        if name in made:
            new[name] = made[name]
        elif made and new.get(name, name) in made.values():
            new[name] = new.get(name, name) + "_lem"
    if made:
        return all_names, fields, new
    # of those that fall together the function keeps the name, the lemma or the field gets `_lem`
    for result, group in clashes(all_names, new).items():
        camel = [n for n in group if re.search(r"[a-z0-9][A-Z]", n) and "-" not in n]
        keeps = camel[0] if camel else result
        for name in group:
            if name != keeps:
                new[name] = result + "_lem"
    return all_names, fields, new


def clashes(all_names, new):
    found = collections.defaultdict(set)
    for name in all_names:
        found[new.get(name, name)].add(name)
    return {k: v for k, v in found.items() if len(v) > 1}


TOKEN = re.compile(NAME)
WORDS = re.compile(r"[A-Za-z][\w']*")


def comment_respelled(text, new):
    def put(m):
        return TOKEN.sub(lambda t: new.get(t.group(0), t.group(0)), m.group(1)) if m.group(1) else (
            new[m.group(2)] if m.group(2) in new and re.search(r"[a-z0-9][A-Z]", m.group(2)) else m.group(2))
    return re.sub(r"((?<=`)[^`]*(?=`))|(" + WORDS.pattern + ")", put, text)


def antt(text, new, only=None, fields=()):
    out = []
    for line in text.split("\n"):
        code, comment = code_and_comment(line)

        def put(m):
            t = m.group(0)
            if t not in new:
                return t
            if only is not None and t not in only and t not in fields:
                return t
            return new[t]
        out.append(TOKEN.sub(put, code) + comment_respelled(comment, new))
    return "\n".join(out)


def imported(text):
    """The names that a proof file has from specs/."""
    names = set()
    for m in re.finditer(r"^use Rattle\.\w+\.specs\.[\w.]+\.(?:\{([^}]*)\}|(" + NAME + r"))", text, re.M):
        names |= {n.strip().split(" as ")[0] for n in (m.group(1) or m.group(2)).split(",")}
    return names


def rt(text, new):
    out, depth = [], 0
    for line in text.split("\n"):
        code, mark, comment = line.partition("//")
        clause = re.match(r"\s*(ghost use|requires|ensures|ghost)\b", code) is not None
        if clause:
            code = TOKEN.sub(lambda m: new.get(m.group(0), m.group(0)), code)
        else:
            code = re.sub(r"[A-Za-z]\w*", lambda m: new.get(m.group(0), m.group(0)), code)
        out.append(code + mark + comment_respelled(comment, new))
    return "\n".join(out)


def page(text, new):
    return re.sub(r"`[^`\n]*`", lambda m: comment_respelled(m.group(0), new), text)


def write(path, old, text):
    if old != text:
        open(path, "w").write(text)
        return 1
    return 0


def main():
    all_names, fields, new = respelling()
    together = clashes(all_names, new)
    if "--list" in sys.argv:
        for name in sorted(new):
            print(name, new[name])
        for k, v in sorted(together.items()):
            print("together:", k, sorted(v), sorted(set.union(*(all_names[n] for n in v))))
        return
    n = 0
    for path in specs():
        old = open(path).read()
        n += write(path, old, antt(old, new))
    for path in sorted(glob.glob("crates/*/proofs/**/*.antt", recursive=True)):
        old = open(path).read()
        own = {m.group(1) for m in re.finditer(r"^(?:abbrev )?(?:pub )?(" + NAME + r") :", old, re.M)}
        n += write(path, old, antt(old, new, imported(old) - own, fields - own))
    for path in sorted(glob.glob("crates/*/src/**/*.rt", recursive=True)):
        old = open(path).read()
        n += write(path, old, rt(old, new))
    for path in ["README.md", "crates.txt"] + sorted(glob.glob("docs/**/*.md", recursive=True)):
        if path.endswith("PORT.md"):
            continue
        old = open(path).read()
        n += write(path, old, page(old, new))
    print(n, "files respelled,", len(new), "names")


main()
