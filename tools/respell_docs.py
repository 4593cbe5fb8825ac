#!/usr/bin/env python3
"""Spells in README.md and docs/ the names of the repository's definitions and lemmas as they are spelled now.

usage: python3 tools/respell_docs.py OLD NEW FILE..     OLD and NEW: commits before and after the spelling changed, with the same declarations in each file

A name turns in a code span, or in a fenced block, where it stands as a whole word.
"""

import re
import subprocess
import sys

DECL = re.compile(
    r"(?m)^ *(?:(?:abbrev|unfoldable|pub|data|record|axiom) +)*([^\s(){}.;,@\"«»:]+)"
    r"(?: +(?:\{[^{}\n]*\}|\([^()\n]*\)))* +:(?: |$)"
)
WORD = re.compile(r"[^\s(){}.;,@\"«»`:|]+")


def git(*words):
    return subprocess.run(["git", *words], capture_output=True, text=True, check=True).stdout


def declared(commit, path):
    return DECL.findall(git("show", f"{commit}:{path}"))


def table(old, new):
    out = {}
    for path in git("ls-tree", "-r", "--name-only", old, "crates").split("\n"):
        if not path.endswith(".antt") or path.endswith("/Proof.antt"):
            continue
        a, b = declared(old, path), declared(new, path)
        if len(a) != len(b):
            print("look:", path, len(a), len(b), file=sys.stderr)
            continue
        for x, y in zip(a, b):
            if x != y:
                out.setdefault(x, set()).add(y)
    for x, ys in out.items():
        if len(ys) > 1:
            print("look:", x, sorted(ys), file=sys.stderr)
    return {x: min(ys) for x, ys in out.items()}


def main(argv):
    names = table(argv[0], argv[1])
    names["getD"] = "get_or"

    def span(m):
        return WORD.sub(lambda w: names.get(w[0], w[0]), m[0])

    for path in argv[2:]:
        with open(path, encoding="utf-8") as f:
            text = f.read()
        new = re.sub(r"`[^`\n]+`", span, text)
        new = re.sub(r"`[^`\n]+`", lambda m: re.sub(r"(?<=[\w>]) \.(?=[a-z])", ".", m[0]), new)
        if new != text:
            with open(path, "w", encoding="utf-8") as f:
                f.write(new)
            print(path)


main(sys.argv[1:])
