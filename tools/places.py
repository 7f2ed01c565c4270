#!/usr/bin/env python3
"""Counts, in crates/*/src, the places that docs/DESIGN-PASS.md speaks of; with a point's number, lists them.

    tools/places.py [POINT] [FOLDER]

Point 2 compares functions with their names, numbers, constants and types made the same; point 8 counts answers and
lines under crates/*/proofs.
"""
import pathlib
import re
import sys

FUNCTION = re.compile(r"^ *(?:pub )?(?:extern \"C\" )?fn (\w+)", re.M)
TABLE = re.compile(r"(\w+): &(?:'\w+ )?(?:mut )?\[u\d+; [\w:]+\]")


def functions(text):
    """Each function as (line, name, parameters, clauses, body)."""
    for m in FUNCTION.finditer(text):
        rest = text[m.end():]
        depth, i = 0, rest.index("(")
        for j in range(i, len(rest)):
            depth += {"(": 1, ")": -1}.get(rest[j], 0)
            if depth == 0:
                break
        head = rest[i + 1:j]
        body = re.search(r"^ *\{$|\{ *$|\{\n", rest[j:], re.M)
        start = j + body.end() if body else len(rest)
        # the clauses stand before a line that is a brace alone
        brace = re.search(r"^( *)\{$", rest[j:], re.M)
        if brace:
            start = j + brace.end()
        clauses = rest[j:start]
        depth = 1
        for k in range(start, len(rest)):
            depth += {"{": 1, "}": -1}.get(rest[k], 0)
            if depth == 0:
                break
        yield text[:m.start()].count("\n") + 1, m.group(1), head, clauses, rest[start:k]


def code(text):
    return "\n".join("" if l.lstrip().startswith(("//", "ghost use", "use ")) else l for l in text.split("\n"))


def lines(pattern):
    def find(files):
        for name, text in files:
            for n, l in enumerate(code(text).split("\n"), 1):
                if re.search(pattern, l):
                    yield f"{name}:{n}: {l.strip()}"
    return find


def by_function(test):
    def find(files):
        for name, text in files:
            for n, f, head, clauses, body in functions(code(text)):
                why = test(f, head, clauses, body)
                if why:
                    yield f"{name}:{n}: {f}: {why}"
    return find


def twins(files):
    """Functions whose text is the same once names, numbers, constants and types are."""
    seen = {}
    for name, text in files:
        for n, f, head, clauses, body in functions(code(text)):
            names = {}
            norm = re.sub(r"\b\d+\b|\b[A-Z]\w*\b|\bu(8|16|32|64)\b|\busize\b", "#", body)
            norm = re.sub(r"\b(?!if|else|return|while|for|in|let|mut|match|loop\b)[a-z_]\w*\b",
                          lambda m: names.setdefault(m.group(0), f"v{len(names)}"), norm)
            norm = re.sub(r"\s+", " ", norm)
            if len(norm) > 12:
                seen.setdefault(norm, []).append(f"{name}:{n}: {f}")
    for same in seen.values():
        if len(same) > 1:
            yield from (f"{p} (one of {len(same)})" for p in same)


def index_loop(f, head, clauses, body):
    found = re.findall(r"while (\w+) < [^{]*\{|while 0 < (\w+) \{", body)
    return ", ".join(a or b for a, b in found)


def yes_or_no(f, head, clauses, body):
    """One of 0 and 1 is answered early, and the other at the end."""
    early = re.search(r"return ([01]);", body)
    last = body.strip().split("\n")[-1].strip()
    return f"{early.group(1)} or {last}" if early and last in ("0", "1") else ""


def travellers(f, head, clauses, body):
    n = len(TABLE.findall(head))
    return f"{n} tables" if n >= 3 else ""


def sized(f, head, clauses, body):
    n = len(re.findall(r"length [\w.]+ ≡ (?:blocks|arms|room|spans)", clauses))
    return f"{n} lengths" if n else ""


def beside(f, head, clauses, body):
    pairs = re.search(r"\[u\d+; [\w:]+\]", head) and re.search(r"\b(n|len|c|m|found|len|finished): usize", head)
    return pairs.group(0) if pairs else ""


POINTS = {
    "1 own Option or Result: variants": lines(r"^\s*Nothing,$|^\s*Outside,$"),
    "1 a number that stands for none": lines(
        r"return (BLOCKS|ARMS);|^\s*(BLOCKS|ARMS)$|(==|<=) (BLOCKS|ARMS)\b|\b(BLOCKS|ARMS) (<=|==) |: (BLOCKS|ARMS),$|=> BLOCKS|UNKNOWN"),
    "1 a number that says what is wrong": lines(r"\bwhy\b|return [3-9];|^\s*(else \{ )?[4-9]$|=> [3-4],|refused?\(\d|number != 0|refusal != 0|-> u64\b.*fault"),
    "1 a number for yes or no": by_function(yes_or_no),
    "2 twins": twins,
    "3 loops that count an index": by_function(index_loop),
    "4 conversions, comparisons and digits by hand": lines(
        r"\bfn (wide|number|said|greater|looser|is_worse|below|put_decimal)\b|lists::wide\(|= (wide|number)\(r\["),
    "5 three tables or more side by side": by_function(travellers),
    "5 lengths said in a contract": by_function(sized),
    "6 a table with a length beside": by_function(beside),
    "7 steps chosen by a number": lines(r"if (i|step|kind) == \d"),
}


def main():
    point = next((a for a in sys.argv[1:] if re.fullmatch(r"\d", a)), None)
    top = pathlib.Path(next((a for a in sys.argv[1:] if not re.fullmatch(r"\d", a)), pathlib.Path(__file__).parent.parent))
    files = [(str(f.relative_to(top)), f.read_text()) for f in sorted(top.glob("crates/*/src/*.rt"))]
    for name, find in POINTS.items():
        found = list(find(files))
        if point is None:
            print(f"{len(found):5} {name}")
        elif name.startswith(point):
            print(f"{name}: {len(found)}", *found, sep="\n  ")
    if point in (None, "8"):
        proofs = [f.read_text() for f in sorted(top.glob("crates/*/proofs/**/*.antt"))]
        print(f"{sum(t.count(chr(10)) for t in proofs):5} 8 lines of proofs")
        print(f"{sum(len(re.findall(r': goal.', t)) for t in proofs):5} 8 answers and invariants")


main()
