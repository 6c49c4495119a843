#!/usr/bin/env python3
"""Lists the places of the code that docs/DESIGN-PASS.md speaks of, point by point.

    python3 tools/places.py [FOLDER]     counts and places of src/ below FOLDER/crates (default: the repository)

It goes by text and finds candidates: the page says which of them are places, and what became of each.
"""
import collections
import os
import re
import sys

TOP = sys.argv[1] if len(sys.argv) > 1 else os.path.join(os.path.dirname(os.path.abspath(__file__)), "..")


def sources():
    base = os.path.join(TOP, "crates")
    for crate in sorted(os.listdir(base)):
        for folder, _, files in os.walk(os.path.join(base, crate, "src")):
            for name in sorted(files):
                if name.endswith(".rt"):
                    path = os.path.join(folder, name)
                    yield crate, os.path.relpath(path, base), open(path, encoding="utf-8").read()


FILES = list(sources())


def lines(pattern, but=None):
    found = []
    for crate, path, text in FILES:
        for number, line in enumerate(text.split("\n"), 1):
            code = line.split("//")[0]
            if "ghost use" in code or re.match(r"\s*(requires|ensures|ghost)\b", code):
                continue
            if re.search(pattern, code) and not (but and re.search(but, code)):
                found.append(f"{path}:{number}: {code.strip()[:110]}")
    return found


def fields(pattern):
    """Lines of struct and enum declarations."""
    found = []
    for crate, path, text in FILES:
        inside = False
        for number, line in enumerate(text.split("\n"), 1):
            code = line.split("//")[0]
            if re.match(r"\s*(pub(\(\w+\))? )?(struct|enum) ", code):
                inside = "}" not in code and ";" not in code
                if re.search(r"\(.*\[", code) and "bool" not in pattern:
                    found.append(f"{path}:{number}: {code.strip()[:110]}")
            elif re.match(r"\}", code):
                inside = False
            elif inside and not re.match(r"\s*(ghost\b|#)", code) and re.search(pattern, code):
                found.append(f"{path}:{number}: {code.strip()[:110]}")
    return found


def functions():
    """Every function as (crate, path, line, name, its tokens from the signature to the end, clauses left out)."""
    for crate, path, text in FILES:
        rows = text.split("\n")
        for number, row in enumerate(rows):
            match = re.match(r"(\s*)(pub(\(crate\))? )?fn (\w+)", row)
            if not match:
                continue
            body = []
            for other in rows[number:]:
                if not re.match(r"\s*(requires|ensures)\b", other):
                    body.append(other.split("//")[0])
                if other.rstrip() == match.group(1) + "}" or (other.rstrip().endswith(";") and other is row):
                    break
            code = re.sub(r'"[^"]*"', " str ", "\n".join(body))
            tokens = re.findall(r"\w+|[^\w\s]", code)
            yield crate, path, number + 1, match.group(4), tokens


def shape(tokens):
    """The tokens, with names and numbers by their order of appearance: equal for functions that differ in them alone."""
    seen = {}
    out = []
    for token in tokens:
        if re.match(r"\w", token) and token not in ("fn", "let", "mut", "if", "else", "match", "for", "in", "return", "self", "pub", "ref"):
            out.append(seen.setdefault(token, str(len(seen))))
        elif token not in ("pub", "(crate)"):
            out.append(token)
    return " ".join(out)


def twins():
    groups = collections.defaultdict(list)
    for crate, path, number, name, tokens in functions():
        if len(tokens) >= 30:
            groups[shape(tokens)].append(f"{path}:{number} {name}")
    found = [" = ".join(group) for group in groups.values() if len(group) > 1]
    seen = collections.defaultdict(list)
    for crate, path, text in FILES:
        if "\n" in text.strip():
            seen[text].append(path)
    return found + ["whole file: " + " = ".join(group) for group in seen.values() if len(group) > 1]


def clauses():
    """Clauses that stand in the contracts of three or more functions of a crate."""
    groups = collections.defaultdict(list)
    for crate, path, text in FILES:
        name = None
        for line in text.split("\n"):
            match = re.search(r"\bfn (\w+)", line)
            if match:
                name = match.group(1)
            match = re.match(r"\s*(requires|ensures)\s*(\w+ )?\s*\{(.*)\}\s*;?\s*$", line)
            if match:
                said = re.sub(r"\.(old|now)\b", ".x", match.group(3).strip())
                groups[crate, match.group(1), said].append(name)
    return [f"{c} {k} {len(v)}: {s[:90]} ({', '.join(v)})" for (c, k, s), v in groups.items() if len(v) >= 3]


def parameters():
    """Two or more parameters, by name and type, that three or more functions of a crate take together."""
    groups = collections.defaultdict(set)
    for crate, path, text in FILES:
        for match in re.finditer(r"\bfn (\w+)(<[^>]*>)?\(([^{]*?)\)\s*(->|\n|\{|;)", text, re.S):
            names = [p.strip() for p in re.split(r",(?![^<\[(]*[>\])])", match.group(3)) if ":" in p]
            names = [p for p in names if not p.startswith("rt:")]
            for i in range(len(names)):
                for j in range(i + 1, len(names)):
                    groups[crate, names[i], names[j]].add(match.group(1))
    return [f"{c}: {a}, {b} ({', '.join(sorted(f))})" for (c, a, b), f in sorted(groups.items()) if len(f) >= 3]


POINTS = [
    ("1 own enums (each is read: has it the shape of Option or Result?)", lines(r"^\s*(pub(\(\w+\))? )?enum \w")),
    ("1 flags in types", fields(r": (bool|\[bool; \d+\])")),
    ("1 numbers for kinds", lines(r"\b(kind|code|status|act|refusal)\w*: u(8|16|32|size)\b")),
    ("1 an Option or a Result taken apart and put together again", lines(r"(Some\(\w+\) => (Some|Ok)\(|Ok\((\w+|\(\))\) => (Ok|Some|\w+ > 0)|Err\(\w+\) => (Err|None|false|0)\b|None => (None|0|false|Err)\b)")),
    ("2 functions that differ in names and numbers alone, and equal files", twins()),
    ("3 loops over numbers, and loops that find a place", lines(r"^\s*(for \w+ in .*\.\.|while |loop \{|for \(\w+, .*enumerate)")),
    ("4 equality, order, copying, conversion and printing by hand", lines(r"^\s*impl(<.*>)? (fmt::)?(PartialEq|Eq|PartialOrd|Ord|Clone|Copy|Debug|Display|From|TryFrom|Default)\b|fn (code|kind|number|name|text|direction|operation)\(")),
    ("5 clauses in three or more contracts of a crate", clauses()),
    ("5 parameters that three or more functions of a crate take together", parameters()),
    ("6 arrays in types, and lengths beside them", fields(r"\[\w.*\]|\b(len|\w*count): (u|i)\w+")),
    ("7 which step to run, by a value", lines(r"=> \w+(_of)\(|dyn |: fn\(|Fn(Mut|Once)?\(")),
]

for title, found in POINTS:
    print(f"{title}: {len(found)}")
    for place in found:
        print("   ", place)
answers = [os.path.join(d, f) for d, _, fs in os.walk(os.path.join(TOP, "crates")) for f in fs if "/proofs" in d and "/out/" not in d and f.endswith(".antt")]
size = sum(len(open(f, encoding="utf-8").read().split("\n")) - 1 for f in answers)
print(f"8 proof files: {len(answers)}, of {size} lines")
