#!/usr/bin/env python3
"""Brings the names of our own definitions and lemmas to today's spelling, after the kit's port.py; run once, at the top.

Words are in snake case: a capital inside a name and a dash between two words become an underscore. A dash beside a fact or
a type (a part that begins with a capital) or beside a symbol stays, as in `append-In`. A name that would fall together with
another of its file gets `_lem` behind it, as a lemma with its function's name does. A prime is an apostrophe.

Only names that a file of specs/ or proofs/ here defines or binds are turned: wherever they stand alone; and behind a dot
where they are a field of a record of ours or the path is a module's. Names that Rattle makes, names of its library and all
names of src/ stay. In pages only what stands between backticks is turned. Must-fail edits are turned whole; what port.py had turned
in the sources before is in neither, and was brought over by hand.
"""
import collections
import glob
import re
import sys

TOKEN = re.compile(r"[^\s(){}\[\];,.:`\"«»|]+")
MODIFIERS = r"(?:(?:pub|abbrev|unfoldable|record|data)\s+)*"
DEFINES = re.compile(r"\s*\|?\s*" + MODIFIERS + r"([^\s(){}\[\];,.:|]+(?:\s+[^\s(){}\[\];,.:|]+)*?)\s+:\s")
BINDS = re.compile(r"(?:[({λ]|\blet\b)\s*([^(){}:=λ]+?)\s+:\s")
FREE = re.compile(r"λ\s+([^(){}:.]+)\.\s")
# lemmas that port.py has already given the name that a definition of the same file takes now
ROOM = {"crates/writer/proofs/WriteLaws.antt": ["only_arms"]}
WORDS = {"pub", "abbrev", "unfoldable", "record", "data", "where", "use", "as", "module", "let", "in"}


def files(*patterns):
    return sorted(f for p in patterns for f in glob.glob(p, recursive=True) if "/out/" not in f)


def collect(paths):
    """The names that each file defines or binds, and the fields of its records."""
    names, fields = collections.defaultdict(set), set()
    for path in paths:
        inside = None
        for line in open(path):
            if line.lstrip().startswith("--") or not line.strip():
                continue
            depth = len(line) - len(line.lstrip())
            if inside is not None and depth <= inside:
                inside = None
            found = DEFINES.match(line)
            made = re.search(r":\s+(tie|goal)\.", line) or re.match(r"\s*pub [^ ]+[-_]spec :", line)
            if found and not made:
                for name in found.group(1).split():
                    if name not in WORDS:
                        names[name].add(path)
                        if inside is not None:
                            fields.add(name)
            if re.match(r"\s*(?:pub )?record\b.*\bwhere\s*$", line) and not re.match(r"\s*record\s*\{", line):
                inside = depth
            for found in BINDS.finditer(line):
                for name in found.group(1).split():
                    names[name].add(path)
            for found in FREE.finditer(line):
                for name in found.group(1).split():
                    names[name].add(path)
    return names, fields


def snake(name):
    name = name.replace("′", "'")
    if name[0].isupper() or "◌" in name:
        return name
    out = ""
    for i, c in enumerate(name):
        before = name[i - 1] if i else ""
        after = name[i + 1] if i + 1 < len(name) else ""
        if c.isupper() and before.isalnum() and not before.isupper():
            out += "_" + c.lower()
        elif c == "-" and (before.islower() or before.isdigit() or before == "'") and (after.islower() or after.isdigit()):
            out += "_"
        else:
            out += c
    return out


def table(names, tokens):
    """Old name to new, with `_lem` where two of one file fall together."""
    camel = {n: snake(n) for n in names if snake(n) != n and "-" not in n}
    dashed = {n: snake(n) for n in names if snake(n) != n and "-" in n}
    taken = set(camel.values())
    turned = dict(camel)
    for old, new in sorted(dashed.items()):
        if new in taken or any(new in tokens[f] for f in tokens if old in tokens[f]):
            new += "_lem"
        turned[old] = new
    clash = [(o, n, f) for o, n in camel.items() for f in tokens if o in tokens[f] and n in tokens[f]]
    return turned, clash


def turn(text, turned, fields, aliases):
    out, end = [], 0
    for found in TOKEN.finditer(text):
        name = found.group()
        new = turned.get(name)
        start = found.start()
        if new is None:
            continue
        if start and text[start - 1] == ".":
            path = re.search(r"([^\s(){}\[\];,]+)\.$", text[:start])
            head = path.group(1).split(".")[0] if path else ""
            if name not in fields and head != "Rattle" and head not in aliases:
                continue
        out.append(text[end:start])
        out.append(new)
        end = found.end()
    out.append(text[end:])
    return "".join(out)


def main():
    for f, lemmas in ROOM.items():
        text = open(f).read()
        for name in lemmas:
            text = re.sub(rf"(?<![^\s(]){name}(?![^\s)])", name + "_lem", text)
        open(f, "w").write(text)
    antt = files("crates/*/specs/**/*.antt", "crates/*/proofs/**/*.antt")
    rt = files("crates/*/src/**/*.rt")
    names, fields = collect(antt)
    tokens = {f: set(TOKEN.findall(open(f).read())) for f in antt + rt}
    outside = set()
    ours = {f.split("/")[1] for f in antt + rt}
    for f in antt + rt:
        for path, items in re.findall(r"use ([A-Za-z0-9_.+-]+)\.\{([^}]*)\}", open(f).read()):
            part = path.split(".")
            if not (part[0] == "Rattle" and part[1] in ours and part[2] != "proofs.+"):
                outside |= {i.split(" as ")[0].strip() for i in items.split(",")}
    names = {n: p for n, p in names.items() if n not in outside}
    turned, clash = table(names, tokens)
    for old, new, path in clash:
        print(f"both {old} and {new} in {path}")
    for f in antt + rt + files("crates/*/must-fail/*.edit"):
        text = open(f).read()
        aliases = set(re.findall(r"use [^\s;]+ as ([^\s;]+)", text))
        new = turn(text, turned, fields, aliases).replace("′", "'")
        if new != text:
            open(f, "w").write(new)
    # port.py has turned some names in the crates alone, and no page
    for name in list(names):
        if "_" in name and name.islower():
            turned.setdefault(name.replace("_", "-"), name)
    for f in files("*.md", "docs/*.md", "crates/*/*.md"):
        text = open(f).read()
        new = re.sub(r"`[^`\n]+`", lambda m: turn(m.group(), turned, fields, set()), text)
        if new != text:
            open(f, "w").write(new)
    lem = sorted(n for n in turned.values() if n.endswith("_lem"))
    print(f"{len(turned)} names turned; with _lem: {', '.join(lem)}")


if __name__ == "__main__":
    sys.exit(main())
