#!/usr/bin/env python3
"""Spells the repository's own definitions and lemmas as today's Rattle does: words in snake case, facts and types in upper camel case.

usage: python3 tools/respell.py [--show]     at the top of the repository, once, right after /opt/rattle/port/port.py

It goes by whole words. The names that turn are those that a file of specs/ or proofs/ declares, but for the answers of a function's own
proof, which have the names that Rattle makes. They turn in specs/ and proofs/, in the clauses and comments of src/, and in the must-fail
edits. Functions, types and fields of src/ keep their names. --show writes nothing and prints the table.
"""

import collections
import os
import re
import sys

ROOT = "crates"
WORD = re.compile(r'[^\s(){}.;,@"«»]+')
DECL = re.compile(
    r"(?m)^( *)((?:(?:abbrev|unfoldable|pub|data|record|axiom) +)*)([^\s(){}.;,@\"«»:]+)"
    r"((?: +(?:\{[^{}\n]*\}|\([^()\n]*\)))*) +:(?: +(\S+)|$)"
)
# An operator's parts, and what the kit calls something of its own.
OPERATOR = re.compile(r"^◌?[^\w◌]+[\wᵃ-ᵿⁿ]*◌?$")
# Parameters that the look for declarations takes for facts.
NO_FACTS = {"both", "test"}
# getD is get_or today.
WORDS = [("getD", "get_or")]


def files(*endings):
    for folder, dirs, names in os.walk(ROOT):
        dirs[:] = sorted(d for d in dirs if d != "out")
        for f in sorted(names):
            if f.endswith(endings):
                yield os.path.join(folder, f)


def read(path):
    with open(path, encoding="utf-8", newline="") as f:
        return f.read()


def snake(name):
    if "◌" in name:
        return name
    for old, new in WORDS:
        name = name.replace(old, new)
    name = name.replace("-", "_")
    parts = []
    for part in name.split("_"):
        if part[:1].isupper():  # a fact or a type keeps its capital and its humps
            parts.append(part)
            continue
        # ℕ and ℤ stand as words of their own; a lone capital, as m's M, keeps its case at the end
        part = re.sub(r"(?<=[a-z0-9])([ℕℤ])", r"_\1", part)
        part = re.sub(r"(?<=[a-z0-9])M$", "_M", part)
        part = re.sub(r"(?<=[a-z0-9])[A-Z]", lambda m: "_" + m[0].lower(), part)
        parts.append(part)
    return "_".join(parts)


def declared():
    """Each declared name, with the files that declare it, and whether it is a definition of a fact or a type."""
    at, facts = collections.defaultdict(set), set()
    for path in files(".antt"):
        text = read(path)
        for m in DECL.finditer(text):
            name, first = m[3], m[5] or ""
            if first.startswith(("tie.", "goal.")) or name in ("let", "_"):
                continue
            at[name].add(path)
            line = text[m.start():text.find("\n", m.end())]
            if re.search(r"(?:^|→ |: )Type 0(?: where)?$", line.strip()):
                facts.add(name)
    # what a file calls something else, as `own as own_tuple`
    for path in files(".antt", ".rt"):
        for name in re.findall(r"[{,] *[^\s,{}]+ as ([^\s,{}]+)(?=[,}])", read(path)):
            at[name].add(path)
    return at, facts


def spelled(name, facts):
    new = snake(name)
    if name in facts and name not in NO_FACTS and ("_" in new or new[:1].islower()):
        new = "".join(p[:1].upper() + p[1:] for p in new.split("_"))
    return new


def table():
    """Old and new name of each that turns. Where two would be one, the definition has the name, and the lemma is NAME_lem."""
    at, facts = declared()
    turned = {n: spelled(n, facts) for n in at if spelled(n, facts) != n}
    meet = collections.defaultdict(set)
    for n in at:
        meet[turned.get(n, n)].add(n)
    for new, olds in meet.items():
        if len(olds) == 1:
            continue
        humps = {n for n in olds if re.search(r"[a-z0-9][A-Zℕℤ]", n)}
        # With no hump among them, port.py has turned the definition already.
        first = humps or {n for n in olds if "-" not in n}
        if len(first) != 1 or len(olds) != 2:
            raise SystemExit(f"respell: {sorted(olds)} would all be {new}: give one another name first")
        turned[(olds - first).pop()] = new + "_lem"
    return at, facts, turned


def turn(text, turned):
    return WORD.sub(lambda m: turned.get(m[0], m[0]), text)


# In comments a word may end in a mark, as `rename-page:`.
MARKED = re.compile(r"^([^\w]*)(.*?)([:`'’?!-]*)$", re.S)


def turn_prose(text, turned):
    def one(m):
        if m[0] in turned:
            return turned[m[0]]
        k = MARKED.match(m[0])
        # A bare word of prose, as new-line, stays; a name has a hump or stands in a code span or behind a file's name.
        return k[1] + turned.get(k[2], k[2]) + k[3] if k[2] in turned else m[0]

    return WORD.sub(one, text)


# A function's own proof: what stands behind a dot there is a name that Rattle makes.
OWN_PROOF = re.compile(r"/proofs/.*/Proof\.antt$")
GHOST = re.compile(r"^\s*(?:ghost use|requires|ensures)\b")


def behind_no_dot(text, turned):
    return re.sub(r'(?<![.])(?<![^\s(){}.;,@"«»])[^\s(){}.;,@"«»]+', lambda m: turned.get(m[0], m[0]), text)


def turn_antt(text, turned, own_proof):
    out = []
    for line in text.split("\n"):
        m = re.search(r"(?:^|(?<=\s))--(?=\s)", line)
        code, note = (line[: m.start()], line[m.start():]) if m else (line, "")
        code = (behind_no_dot if own_proof else turn)(code, turned)
        out.append(code + turn_prose(note, turned))
    return "\n".join(out)


def turn_rt(text, turned):
    """Clauses, ghost items and comments. A name of the code's own, as a function's, stays."""
    out, open_clause = [], 0
    for line in text.split("\n"):
        m = re.search(r"//", line)
        code, note = (line[: m.start()], line[m.start():]) if m else (line, "")
        if open_clause or GHOST.match(code):
            open_clause += code.count("{") - code.count("}")
            code = turn(code, turned)
        out.append(code + turn_prose(note, turned))
    return "\n".join(out)


def main(argv):
    at, facts, turned = table()
    if "--show" in argv:
        kept = {n for n in at if n not in turned}
        by_new = collections.defaultdict(set)
        for old, new in turned.items():
            by_new[new].add(old)
        for new, olds in sorted(by_new.items()):
            if len(olds) > 1 or new in kept:
                print("meets:", new, sorted(olds), "kept" if new in kept else "", sorted(set().union(*(at[o] for o in olds)) | (at[new] if new in kept else set())))
        for old, new in sorted(turned.items()):
            print(old, new, "FACT" if old in facts else "")
        return 0
    for path in files(".antt", ".rt", ".edit"):
        text = read(path)
        new = turn_rt(text, turned) if path.endswith(".rt") else turn_antt(text, turned, OWN_PROOF.search(path))
        if new != text:
            with open(path, "w", encoding="utf-8", newline="") as f:
                f.write(new)
    return 0


if __name__ == "__main__":
    raise SystemExit(main(sys.argv[1:]))
