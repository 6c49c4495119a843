#!/usr/bin/env python3
"""Brings this repository's own definitions and lemmas to one spelling: words in snake case, facts and types in camel case.

usage: tools/respell.py [--dry]      at the top of the repository, once, right after the port's own scripts

A name is this repository's if a file of specs/ or proofs/ declares it. Names of the library, of src/ and those that
the check makes (goals, steps, loops) stay. It rewrites .antt files, and the clauses and imports of .rt files, and says
which names fall together with others.
"""

import os
import re
import sys

DRY = "--dry" in sys.argv[1:]
NAME = r"[A-Za-z_][\w'-]*"
TOKEN = re.compile(r"(?<![\w'-])" + NAME)
SIGNATURE = re.compile(
    r"^\s*((?:(?:abbrev|unfoldable|pub|data|record|ruleset|\|)\s+)*)(" + NAME + r"(?:\s+" + NAME + r")*)\s*(?:(?:\([^)]*\)|\{[^}]*\})\s*)*:(?:\s|$)"
)
WORDS = {"abbrev", "unfoldable", "pub", "data", "record", "ruleset", "let", "use", "unfolding", "mod", "ghost", "in", "as"}
IMPORT = re.compile(r"^\s*(?:ghost\s+)?(?:pub\s+)?use\s+([\w.'+-]+?)\.\{([^}]*)\}")


# Names that would fall together: a lemma that would have its function's name.
LEMMAS = {n: n.replace("-", "_") + "_lem" for n in ("from-channels", "from-count", "from-instructions", "from-width", "read-record")}
# Facts that were written as functions are.
LEMMAS.update({"if-accepted": "IfAccepted", "if-refused": "IfRefused", "any-puts": "AnyPuts", "any-takes": "AnyTakes"})
# A lemma that the port's own scripts respelled, a function that they gave a tactic's name, and facts of one crate.
IN_FILES = {
    "crates/page/specs/Ladder.antt": {"first_of": "first_some"},
    "crates/page/specs/Lowest.antt": {"first_of": "first_some"},
    "crates/verb/specs/Verbs.antt": {"first_of": "first_some"},
    "crates/format/proofs/Files.antt": {"from_tail": "from_tail_lem"},
    "crates/own_host/specs/Added.antt": {"told": "Told"},
    "crates/own_host/src/lanes/build.rt": {"told": "Told"},
}


def walk(ending):
    for folder, dirs, files in sorted(os.walk("crates")):
        dirs[:] = sorted(d for d in dirs if d != "out")
        for f in sorted(files):
            if f.endswith(ending):
                yield os.path.join(folder, f)


def text_of(path):
    with open(path, encoding="utf-8") as f:
        return f.read()


def respelled(name):
    """The name in today's spelling."""
    if name in LEMMAS:
        return LEMMAS[name]
    if name[:1].isupper():
        if "-" not in name:
            return name
        return "".join(part[:1].upper() + part[1:] for part in name.split("-"))
    name = name.replace("-", "_").replace("′", "'")
    name = re.sub(r"([a-z0-9'])([A-Z])", lambda m: m.group(1) + "_" + m.group(2).lower(), name)
    return name


def is_answers(path):
    return os.path.basename(path) in ("Answers.antt", "Invariants.antt", "Choices.antt", "Proof.antt")


def main():
    own, imported, taken = {}, set(), set()
    for path in walk(".antt"):
        text = text_of(path)
        for line in text.split("\n"):
            if line.lstrip().startswith("--"):
                continue
            i = IMPORT.match(line)
            if i and not is_own(i.group(1)):
                imported.update(n.split(" as ")[0].strip() for n in i.group(2).split(","))
            for n in re.findall(r"\bas\s+(" + NAME + ")", line) if re.match(r"\s*(ghost\s+)?(pub\s+)?use\b", line) else []:
                own.setdefault(n, path)
            s = SIGNATURE.match(line)
            if not s:
                continue
            if is_answers(path) and re.search(r":\s*(goal|given|need)\.", line):
                continue
            for n in s.group(2).split():
                if n not in WORDS:
                    own.setdefault(n, path)
    for path in walk(".rt"):
        code = re.sub(r"//.*", "", text_of(path))
        code = re.sub(r"^\s*ghost .*$|^\s*(requires|ensures)\b.*$", "", code, flags=re.M)
        taken.update(re.findall(r"\b[A-Za-z_]\w*", code))
        for line in text_of(path).split("\n"):
            for n in re.findall(r"\bas\s+(" + NAME + ")", line) if re.match(r"\s*ghost\s+use\b", line) else []:
                own.setdefault(n, path)
            i = IMPORT.match(line)
            if i and line.lstrip().startswith("ghost") and not is_own(i.group(1)):
                imported.update(n.split(" as ")[0].strip() for n in i.group(2).split(","))
    change = {n: respelled(n) for n in own if respelled(n) != n}
    for n in sorted(change):
        if n in imported:
            print(f"look: {n} ({own[n]}) is also a name of the library: left")
            del change[n]
    to = {}
    for n, m in change.items():
        to.setdefault(m, []).append(n)
    for m, ns in sorted(to.items()):
        if len(ns) > 1:
            print(f"look: {', '.join(ns)} fall together in {m}")
        if m in own and m not in change:
            print(f"look: {ns[0]} ({own[ns[0]]}) falls on {m} ({own[m]})")
        if m in imported:
            print(f"look: {ns[0]} falls on the library's {m}")
        if m in taken:
            print(f"info: {m} is a name of src/ too")
    print(f"{len(change)} names")
    if DRY:
        for n in sorted(change):
            print(f"  {n} -> {change[n]}")
        return
    turn = lambda t: TOKEN.sub(lambda k: change.get(k.group(0), k.group(0)), t)
    for path in list(walk(".antt")) + list(walk(".rt")):
        old = text_of(path)
        first = IN_FILES.get(path, {})
        new = turn_file(TOKEN.sub(lambda k: first.get(k.group(0), k.group(0)), old) if first else old, path, turn)
        if new != old:
            with open(path, "w", encoding="utf-8") as f:
                f.write(new)


def is_own(path):
    parts = path.split(".")
    return len(parts) > 1 and parts[0] == "Rattle" and os.path.isdir(os.path.join("crates", parts[1]))


def turn_file(text, path, turn):
    if path.endswith(".antt"):
        return turn(text)
    out, depth, ghost = [], 0, False
    for line in text.split("\n"):
        starts = re.match(r"\s*(ghost|requires|ensures)\b", line)
        if starts or ghost:
            out.append(turn(line))
            depth += line.count("{") - line.count("}")
            ghost = depth > 0 if not line.rstrip().endswith(";") else False
            if not ghost:
                depth = 0
        else:
            out.append(line)
    return "\n".join(out)


main()
