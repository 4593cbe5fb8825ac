#!/usr/bin/env python3
"""Turns a crate's proofs of functions from the form of an older Rattle, Proof.antt with its ties, to Invariants.antt and Answers.antt.

usage: python3 tools/turn_proofs.py CRATE [FUNCTION..]     at the top of the repository; the crates below CRATE must prove

What it reads of the goals' names is what `rt check --generated FOLDER --old-names` writes, and of a function's clauses the sources. Answers
that only call a tactic are left out, since the check tries its own. What stays to do by hand it marks with '-- LOOK'.
The old file is kept as target/turned/CRATE/FUNCTION/Proof.antt.
"""

import difflib
import json
import os
import re
import subprocess
import sys

WORD = r'[^\s(){}\[\].;,@"«»]+'


def read(path):
    with open(path, encoding="utf-8") as f:
        return f.read()


def labels_of_sources():
    """crate::path::fn -> ([labels of requires], [labels of ensures])."""
    out = {}
    for crate in sorted(os.listdir("crates")):
        src = os.path.join("crates", crate, "src")
        if not os.path.isdir(src):
            continue
        for f in sorted(os.listdir(src)):
            if not f.endswith(".rt"):
                continue
            module = [] if f in ("lib.rt", "main.rt") else [f[:-3]]
            text = read(os.path.join(src, f))
            owner = None
            name = None
            for line in text.split("\n"):
                m = re.match(r"impl(?:<[^>]*>)? (\w+)", line)
                if m:
                    owner = m[1]
                if line == "}":
                    owner = None if not line.startswith(" ") else owner
                m = re.match(r"\s*(?:pub |unsafe |extern \"C\" |const )*fn (\w+)", line)
                if m:
                    name = "::".join([crate] + module + ([owner] if owner and line.startswith("    ") else []) + [m[1]])
                    out[name] = ([], [])
                m = re.match(r"\s*(requires|ensures)\*? (\w+ )?\{", line)
                if m and name:
                    out[name][0 if m[1] == "requires" else 1].append((m[2] or "").strip())
    return out


SLICES = {}


def slices_of_sources():
    """crate::path::fn -> its parameters that are &mut slices."""
    for crate in sorted(os.listdir("crates")):
        src = os.path.join("crates", crate, "src")
        for f in sorted(os.listdir(src)) if os.path.isdir(src) else []:
            if f.endswith(".rt"):
                module = [] if f in ("lib.rt", "main.rt") else [f[:-3]]
                for m in re.finditer(r"\bfn (\w+)(?:<[^>]*>)?\(([^)]*)\)", read(os.path.join(src, f))):
                    SLICES["::".join([crate] + module + [m[1]])] = re.findall(r"(\w+): &(?:'\w+ )?mut \[", m[2])


CLAUSES = {}


def clauses_of_sources():
    """crate::path::fn -> (parameters by name with their types, [(label, text) of ensures])."""
    for crate in sorted(os.listdir("crates")):
        src = os.path.join("crates", crate, "src")
        for f in sorted(os.listdir(src)) if os.path.isdir(src) else []:
            if not f.endswith(".rt"):
                continue
            module = [] if f in ("lib.rt", "main.rt") else [f[:-3]]
            text = read(os.path.join(src, f))
            for m in re.finditer(r"\bfn (\w+)(?:<[^>]*>)?\(([^)]*)\)[^{;]*?\n((?:    (?:requires|ensures)[^\n]*\n)*)", text):
                params = re.findall(r"(\w+): ", m[2])
                ens = re.findall(r"ensures (\w+) \{ (.*) \}", m[3])
                CLAUSES["::".join([crate] + module + [m[1]])] = (params, ens)


def clause_type(full):
    """The types of a function's ensures at its return, with _ for the result and what is left."""
    params, ens = CLAUSES.get(full, ([], []))
    out = []
    for label, text in ens:
        text = re.sub(r"(?<![\w.'-])result(?:\.[\w.]+)?(?![\w'-])", "_", text)
        text = re.sub(r"(?<![\w.'-])\w+\.new(?![\w'-])", "_", text)
        def one(m):
            if m[1] not in params:
                return m[0]
            return f"c.args.{m[1]}" + (".now" if m[2] else "")

        text = re.sub(r"(?<![\w.'-])(\w+)(\.(?:old|now)(?![\w'-]))?(?![\w'-])(?! =)", one, text)
        out.append(text)
    return out


def missing_uses(crate, name, uses, types):
    """The source's own imports of what the types name and the uses lack."""
    parts = name.split("/")
    src = f"crates/{crate}/src/"
    path = src + parts[0] + ".rt" if len(parts) > 1 and os.path.exists(src + parts[0] + ".rt") else next(src + f for f in ("lib.rt", "main.rt") if os.path.exists(src + f))
    have = set()
    for u in uses:
        m = re.search(r"\{(.*)\}", u)
        if m:
            have |= {w.strip().split(" as ")[-1] for w in m[1].split(",")}
    text = " ".join(types)
    out = []
    for mod, names in re.findall(r"ghost use (\S+)\.\{([^}]*)\};", read(path)):
        want = []
        for w in names.split(","):
            w = w.strip()
            short = w.split(" as ")[-1]
            word = short.replace("◌", "")
            if short not in have and re.search(r"(?<![^\s(){}\[\];,@\"«».])" + re.escape(word) + r"(?![^\s(){}\[\];,@\"«».])", text):
                want.append(w)
                have.add(short)
        if want:
            out.append(f"use {mod}.{{{', '.join(want)}}}")
    return out


def names_of(crate):
    folder = f"/tmp/names-{crate}"
    subprocess.run(["rm", "-rf", folder])
    r = subprocess.run(["rt", "check", "--generated", folder, "--old-names"], cwd=f"crates/{crate}", capture_output=True, text=True)
    path = os.path.join(folder, "names.json")
    if not os.path.exists(path):
        sys.exit(r.stdout[-2000:] + r.stderr[-1000:])
    return json.loads(read(path))


def norm(s):
    s = s.replace("_", "-").lower()
    for a, b in (("-holds", "-init"), ("-less", "-smaller"), ("-again", "-preserved"), ("overflow-", "")):
        s = s.replace(a, b)
    s = re.sub(r"^part-|slice-bounds-", "part-", s)
    return s


DECL = re.compile(r"^(?:(?:abbrev|unfoldable|pub) )*(" + WORD + r")\s*:(.*)$")


def blocks_of(text):
    """The file's head (comments and use lines) and its declarations, each a list of lines with the comments above it."""
    lines = text.split("\n")
    i = 0
    head = []
    while i < len(lines) and (lines[i].startswith("--") or lines[i].startswith("use ") or not lines[i].strip()):
        head.append(lines[i])
        i += 1
    # comments right above the first declaration belong to it
    tail = []
    while head and (head[-1].startswith("--") and any(l.startswith("use") for l in head)):
        tail.insert(0, head.pop())
    out, now = [], tail
    for line in lines[i:]:
        if not line.strip() and now and not now[-1].startswith("--"):
            out.append(now)
            now = []
            continue
        if line.strip():
            now.append(line)
    if now:
        out.append(now)
    return head, out


def typed(block):
    """(comments, name, type text, rest lines: unfolding and the definition)"""
    k = 0
    while k < len(block) and block[k].startswith("--"):
        k += 1
    m = DECL.match(block[k])
    if not m:
        return block[:k], None, "", block[k:]
    ty = m[2]
    j = k + 1
    while j < len(block) and not re.match(r"(unfolding |" + re.escape(m[1]) + r"(\s|$))", block[j]):
        ty += "\n" + block[j]
        j += 1
    return block[:k], m[1], ty, block[j:]


def peeled(text):
    """The lines `unfolding ..` at the head of a definition, and the rest."""
    lines = text.split("\n")
    k = 0
    while lines[k].startswith("unfolding "):
        k += 1
    return "".join(l + "\n" for l in lines[:k]), "\n".join(lines[k:])


def words(text, table):
    """Replaces whole words that stand behind no dot."""
    return re.sub(r'(?<![^\s(){}\[\];,@"«»])' + WORD, lambda m: table.get(m[0], m[0]), text)


class Turn:
    def __init__(self, crate, name, data, labels):
        self.crate, self.name, self.data, self.labels = crate, name, data, labels
        self.full = f"{crate}::" + "::".join(name.split("/"))
        self.steps = {}
        self.callee = {}
        # (old step, old path) -> ARM.field of a match, and the arms whose `ensures` is known
        self.arms, self.told = {}, set()
        for row in data.get("arms", []):
            for field, old, by in (row[2] if row else []):
                if by:
                    self.arms[(norm(old), ".".join(by))] = f"{row[0]}.{field}"
                if field == "ensures":
                    self.told.add(row[0])
        self.typed = {norm(old): var for row in data.get("typed", []) for var, old in row}
        self.slices = SLICES
        self.used = set()
        for place in data["places"]:
            old, new = place[2]
            if old:
                self.steps[norm(old)] = new
                if place[3]:
                    self.callee[norm(old)] = place[3]
        self.places = {norm(p[0]): (p[0], by) for p, by in zip(data["places"], data["places_by_name"])}

    def fields(self, text, bound):
        """Turns IDENT.step.field of a place in bound or of c."""

        def one(m):
            ident, step, rest = m[1], m[2], m[3] or ""
            if ident not in bound:
                return m[0]
            if step == "args":
                return "c.args" + rest
            if step in ("pre", "requires"):
                if rest and len(self.labels.get(self.full, ([], []))[0]) > 1:
                    k = re.match(r"\.(\d+)", rest)
                    if k:
                        return "c.requires." + self.labels[self.full][0][int(k[1])] + rest[k.end():]
                own = self.labels.get(self.full, ([], []))[0]
                if not rest and len(own) > 1:
                    return "(" + ", ".join("c.requires." + l for l in own) + ")"
                return "c.requires" + rest
            if step in ("lifetimes", "ranges", "well_formed", "well-formed", "type_inv", "good", "fits"):
                return "c." + {"good": "well_formed", "well-formed": "well_formed", "fits": "ranges"}.get(step, step) + rest
            key = norm(step)
            new = self.steps.get(key)
            for (old, by), arm in sorted(self.arms.items(), key=lambda it: -len(it[0][1])):
                if old == key and (rest == "." + by or rest.startswith("." + by + ".")):
                    return "c." + arm + rest[len(by) + 1:]
            if key in self.typed and not key.startswith("struct") and rest.startswith(".given"):
                return "c.type_inv." + self.typed[key] + rest[6:]
            if new is None:
                if ident == "c" or rest:
                    return "c." + step + rest
                return m[0]
            rest = re.sub(r"^\.inv(?![\w-])", ".invariant", rest)
            rest = re.sub(r"^\.taken(?![\w-])", ".true", rest)
            rest = re.sub(r"^\.left(?![\w-])", ".false", rest)
            callee = self.callee.get(key)
            if callee:
                lab = self.labels.get(callee, ([], []))[1]
                k = re.match(r"\.last((?:\.1)*)\.0", rest)
                params = self.data["params"].get(callee, [])
                if k and len(k[1]) // 2 < len(params):
                    rest = ".new." + params[len(k[1]) // 2] + rest[k.end():]
                rest = re.sub(r"^\.(?:type-inv|ok)(?![\w-])", ".type_inv", rest)
                if callee not in self.labels and "wrapping" in callee:
                    rest = re.sub(r"^\.ensures(?![.\w])", ".ensures.value", rest)
                k = re.match(r"\.kept\.(\d+)", rest)
                if k:
                    slices = self.slices.get(callee, [])
                    if int(k[1]) < len(slices):
                        rest = ".auto." + slices[int(k[1])] + rest[k.end():]
                if re.match(r"\.kept(?![.\w])", rest) and len(self.slices.get(callee, [])) == 1:
                    rest = ".auto." + self.slices[callee][0] + rest[5:]
                k = re.match(r"\.ensures\.(\d+)", rest)
                if k and len(lab) > 1:
                    rest = ".ensures." + lab[int(k[1])] + rest[k.end():]
            return "c." + new + rest

        for alias, ident in re.findall(r"let ([\w'-]+) = ([\w'-]+) in", text):
            if ident in bound:
                bound.add(alias)
                text = re.sub(r"[ \t]*let " + re.escape(alias) + " = " + re.escape(ident) + r" in[ \n]?", "    ", text)
        for alias, ident, step in re.findall(r"let ([\w'-]+) = ([\w'-]+)\.([\w'-]+)\.given in", text):
            known = {by[len("given."):]: arm for (old, by), arm in self.arms.items() if old == norm(step) and by.startswith("given.")}
            if ident in bound and known:
                text = re.sub(r"[ \t]*let " + re.escape(alias) + r" = [\w'-]+\.[\w'-]+\.given in\n?", "", text)
                for by in sorted(known, key=len, reverse=True):
                    text = re.sub(r"(?<![\w.'-])" + re.escape(alias) + r"\." + re.escape(by) + r"(?![\w.])", "c." + known[by], text)
        text = re.sub(r"(?<![\w.'-])([\w'₀-₉-]+)\.([\w'-]+)((?:\.[\w'₀-₉-]+)*)", one, text)
        own = self.labels.get(self.full, ([], []))[0]
        if len(own) > 1:
            whole = "(" + ", ".join("c.requires." + l for l in own) + ")"
            for alias in re.findall(r"let ([\w'-]+) = " + re.escape(whole) + r" in", text):
                text = re.sub(r"[ \t]*let " + re.escape(alias) + " = " + re.escape(whole) + r" in\n?", "", text)
                text = re.sub(r"(?<![\w.'-])" + re.escape(alias) + r"\.(\d)", lambda m: "c.requires." + own[int(m[1])], text)
                text = re.sub(r"(?<![\w.'-])" + re.escape(alias) + r"(?![\w'.-])", whole, text)
        # a test of `!b` says b ≡ false or b ≡ true
        text = re.sub(r"\(not-(?:true|false) (?:\([^()]*\)|\S+) (c\.if-not-[\w-]+\.(?:true|false))\)", r"\1", text)
        text = re.sub(r"not-(?:true|false) (?:\([^()]*\)|\S+) (c\.if-not-[\w-]+\.(?:true|false))", r"\1", text)
        text = re.sub(r"record \{ sfits = c\.[\w-]+\.(?:given|type_inv)[.\d]* \}", "search rules", text)
        return re.sub(r"simp length-map at (c\.well_formed[.\d]*)", r"\1", text)

    def body(self, text, bound):
        # `let P : tie.PLACE inv μ = search rules in`
        out = []
        for line in text.split("\n"):
            m = re.match(r"\s*let ([\w'-]+) : tie\.([\w'-]+)[^=]*= search rules in\s*$", line)
            if m:
                bound.add(m[1])
                out.append((m[1], m[2], line))
                continue
            out.append(line)
        lines = [l for l in out if isinstance(l, str)]
        lets = [l for l in out if not isinstance(l, str)]
        text = "\n".join(lines)
        for m in list(re.finditer(r"let ([\w'-]+) : tie\.([\w'-]+)[^=\n]*= search rules in ", text)):
            bound.add(m[1])
            lets.append((m[1], m[2], m[0]))
        text = re.sub(r"let ([\w'-]+) : tie\.([\w'-]+)[^=\n]*= search rules in ", "", text)
        text = self.fields(text, bound)
        # an arm on a call's result
        def arm(m):
            if m[2] not in self.told:
                return m[0]
            return m[1] + "c." + m[2] + ".ensures" + m[3]

        text = re.sub(r"(\()sym \(?c\.([\w-]+)\.is\)? ∙ c\.[\w-]+\.ensures(\))", arm, text)
        text = re.sub(r"((?<![\w]))sym \(?c\.([\w-]+)\.is\)? ∙ c\.[\w-]+\.ensures((?![\w.]))", arm, text)
        # places that are still named as a whole
        keep = []
        for ident, place, line in lets:
            if re.search(r"(?<![\w.'-])" + re.escape(ident) + r"(?![\w'-])", text):
                by = self.places.get(norm(place), (place, place))[1]
                keep.append(f"    let {ident} : {by} = search rules in")
                self.used.add(by)
        return "\n".join(keep + [text]) if keep else text


def split_top(text):
    """The parts of (a, b, ..) at the top, or None."""
    text = text.strip()
    if not (text.startswith("(") and text.endswith(")")):
        return None
    depth, parts, now = 0, [], ""
    for i, ch in enumerate(text):
        if ch in "([{":
            depth += 1
            if depth == 1:
                continue
        if ch in ")]}":
            depth -= 1
            if depth == 0:
                if i != len(text) - 1:
                    return None
                parts.append(now)
                continue
        if ch == "," and depth == 1:
            parts.append(now)
            now = ""
            continue
        now += ch
    return [p.strip() for p in parts] if len(parts) > 1 else None


TRIVIAL = re.compile(r"^(?:\s*let [\w'-]+ : tie\.[^\n]*= search rules in\n)*\s*(?:search rules|omega arith|refl)\s*$")


def turn(crate, name, data, labels):
    path = f"crates/{crate}/proofs/{name}/Proof.antt"
    head, blocks = blocks_of(read(path))
    t = Turn(crate, name, data, labels)
    mod = name.replace("/", ".")
    uses = [l for l in head if l.startswith("use ") and not re.search(r"\.Statement\.\{|\.Tie as tie$", l)]
    note = [l for l in head if l.startswith("--")]
    invariants, answers, others, needs = [], [], [], []
    loops = data["loops"]
    n_inv = {}
    for b in blocks:
        comments, nm, ty, rest = typed(b)
        if nm is None:
            others.append((comments, None, "", b))
            continue
        ty = ty.strip()
        if nm.endswith("-spec") or nm.endswith("_spec"):
            continue
        m = re.match(r"tie\.(invariant|decreases|InvT|MeasureT)-([\w-]+)$", ty)
        if m:
            kind = "invariant" if m[1].startswith("i") or m[1] == "InvT" else "decreases"
            invariants.append((comments, nm, kind, m[2], rest))
            continue
        m = re.match(r"tie\.Need-([\w'-]+)", ty)
        if m:
            needs.append((comments, nm, m[1], rest))
            continue
        others.append((comments, nm, ty, b))
    # ── invariants ──
    inv_out = []
    for comments, nm, kind, loop, rest in invariants:
        index = next((i for i, (l, _) in enumerate(loops) if norm(l[0]) == norm(loop)), None)
        if index is None:
            if loops or "recursion" not in data:
                inv_out.append("-- LOOK: no loop " + loop + "\n" + "\n".join("-- " + l for l in rest))
                continue
        (oldl, newl), variables = loops[index]
        changed = data["changed"][index] if index < len(data["changed"]) else [True] * len(variables)
        unf, text = peeled("\n".join(rest))
        lhs, _, bodytext = text.partition("=")
        params = lhs.split()[1:]
        want = ["initial." + v if ch else v for v, ch in zip(variables, changed)] + [v for v, ch in zip(variables, changed) if ch]
        if len(params) != len(want):
            # outer loops' variables come first
            inv_out.append(f"-- LOOK: parameters {params} for {want}")
        table = {p: "l." + w for p, w in zip(params, want)}
        for k in list(table):
            if k == "_":
                del table[k]
        # a parameter in front of a dot
        bodytext = re.sub(r"(?<![^\s(){}\[\];,@\"«»])(" + WORD + r")(?!\s*=[^=]*[;}])", lambda m: table.get(m[1], m[1]), bodytext)
        new = f"{kind}-{newl}"
        inv_out.append("\n".join(comments + [f"abbrev pub {new} : goal.{new}"]) + "\n" + unf + f"{new} l ={bodytext}")
    # ── answers ──
    old = [norm(n[2]) for n in needs]
    new = [norm(o) for o, _ in data["needs"]]
    pairs = {}
    for k, label in enumerate(old):
        if old.count(label) == 1 and new.count(label) == 1:
            pairs[k] = data["needs"][new.index(label)][1]
    for tag, a0, a1, b0, b1 in difflib.SequenceMatcher(None, old, new, autojunk=False).get_opcodes():
        if tag == "equal" or (tag == "replace" and a1 - a0 == b1 - b0):
            for k in range(a1 - a0):
                if data["needs"][b0 + k][1] not in pairs.values():
                    pairs.setdefault(a0 + k, data["needs"][b0 + k][1])
    ans_out = []
    helpers = {}
    left = []
    same = set()
    for it in others:
        comments, nm, ty, bl = it
        _, _, hty, hrest = typed(bl)
        hunf, hdef = peeled("\n".join(hrest))
        m = re.match(r"\s*(?:\((?:[\w'-]+) : )?tie\.([\w'-]+)(?: [\w'-]+)*\)? →\s*(.*)$", hty, re.S) if nm else None
        head = re.match(re.escape(nm) + r"((?: [^\s=()]+)+) =(.*)$", hdef, re.S) if m else None
        if not m or not head or re.search(r"(?m)^" + re.escape(nm) + r" ", head[2]):
            left.append(it)
            continue
        args = head[1].split()
        if re.match(r"tie\.", m[2].strip()):
            same.add(nm)
            continue
        binder = re.match(r"\s*\(([\w'-]+) :", hty)
        hbody, htype = head[2].strip("\n"), m[2].strip()
        ident = args[0]
        hbody = t.body(hbody, {ident, "c"})
        htype = re.sub(r"let [\w'-]+ : tie\.[^=]*= search rules in\s*", "", htype)
        bound = {ident, "c"} | ({binder[1]} if binder else set())
        bound |= set(re.findall(r"let ([\w'-]+) : tie\.", m[2]))
        htype = t.fields(htype, bound)
        if ident != "c":
            hbody = words(hbody, {ident: "c"})
        lam = "".join(f"λ {x}. " for x in args[1:])
        helpers[nm] = [htype, lam, hbody, hunf, comments]
    others = left

    def applied(text, idents):
        """The helpers that a text applies to a place, which are its own lets then."""
        used = []
        for nm in same:
            text = re.sub(r"\(" + re.escape(nm) + r" \(?([\w'-]+)\)?\)", r"\1", text)
        for nm in helpers:
            pat = r"(?<![\w.'-])" + re.escape(nm) + r" (?:\(([\w'-]+)\)|([\w'-]+))(?![\w'.-])"
            hit = [m for m in re.finditer(pat, text) if (m[1] or m[2]) in idents]
            if hit:
                used.append(nm)
                text = re.sub(pat, lambda m: nm if (m[1] or m[2]) in idents else m[0], text)
                text = re.sub(r"\(" + re.escape(nm) + r"\)", nm, text)
        return text, used

    order = list(helpers)
    for nm in order:
        h = helpers[nm]
        h[0], u0 = applied(h[0], {"c"})
        h[2], u1 = applied(h[2], {"c"})
        h[0] = t.fields(h[0], {"c"})
        h[2] = t.fields(h[2], {"c"})
        h.append(set(u0 + u1))
    for k, (comments, nm, label, rest) in enumerate(needs):
        unf, text = peeled("\n".join(rest))
        lhs, _, bodytext = text.partition("=")
        if TRIVIAL.match(bodytext) and not unf:
            continue
        params = lhs.split()[1:]
        bound = {params[0]} if params else {"c"}
        goal = pairs.get(k)
        bodytext, used = applied(bodytext, bound | set(re.findall(r"let ([\w'-]+) : tie\.", bodytext)))
        btext = t.body(bodytext.strip("\n"), bound)
        todo = set(used)
        while any(helpers[u][5] - todo for u in todo):
            todo |= set().union(*(helpers[u][5] for u in todo))
        if todo:
            lets = ""
            for u in order:
                if u in todo:
                    hty, lam, hb, hunf, _ = helpers[u][:5]
                    unf = unf + "".join(l + "\n" for l in hunf.split("\n") if l and l + "\n" not in unf)
                    one = hb.strip()
                    lets += f"    let {u} : {hty} =\n      {lam}{one} in\n" if "\n" in one or lam else f"    let {u} : {hty} = {one} in\n"
            btext = lets + ("    " + btext.strip() if "\n" not in btext.strip("\n") else btext.strip("\n"))
        look = ""
        if goal is None:
            look = f"-- LOOK: no goal for {label}\n"
            goal = label
            if norm(label).startswith(("enum-told",)):
                continue
        lab = labels.get(t.full, ([], []))[1]
        if goal.startswith("returns") and len(lab) > 1:
            btext = clauses(btext, lab, clause_type(t.full))
        if goal.endswith("-requires") or re.search(r"-requires(-\d+)?$", goal):
            step = norm(re.sub(r"-requires.*", "", data_old(data, goal)))
            callee = t.callee.get(step)
            labs = labels.get(callee, ([], []))[0] if callee else []
            if len(labs) > 1:
                btext = clauses(btext, labs)
        entry = "\n".join(comments) + ("\n" if comments else "") + look + f"pub {goal} : goal.{goal}\n{unf}{goal} c =" + ("\n" if "\n" in btext else "") + btext
        ans_out.append(entry)
    helper = []
    shared, shared_names = [], []
    for comments, nm, ty, b in others:
        text = "\n".join(b)
        if nm and "tie." not in text and re.search(r"(?<![\w.'-])" + re.escape(nm) + r"(?![\w'-])", "\n".join(inv_out)):
            shared_names.append(nm)
            k = len(comments)
            shared.append("\n".join(b[:k] + [b[k] if "pub " in b[k] else (re.sub(r"^(abbrev|unfoldable) ", r"\1 pub ", b[k]) if re.match(r"abbrev|unfoldable", b[k]) else "pub " + b[k])] + b[k + 1:]))
            continue
        if "tie." in text:
            binders = set(re.findall(r"\(([\w'-]+) : tie\.", text))
            def place(m):
                by = t.places.get(norm(m[1]), (m[1], m[1]))[1]
                t.used.add(by)
                return by

            text = re.sub(r"tie\.([\w'-]+)((?: (?:invariant|decreases)-[\w'-]+)*)", place, text)
            lets = re.findall(r"let ([\w'-]+) : [\w'-]+ = search rules in", text)
            text = t.fields(text, binders | {"c"} | set(lets))
            for ident in set(lets):
                if not re.search(r"(?<![\w.'-])" + re.escape(ident) + r"(?![\w'-])", re.sub(r"let " + re.escape(ident) + r" : [^\n]*", "", text)):
                    text = re.sub(r"\n\s*let " + re.escape(ident) + r" : [\w'-]+ = search rules in", "", text)
            text = "-- LOOK\n" + text
        helper.append(text)
    folder = os.path.dirname(path)
    kept = f"target/turned/{crate}/{name}"
    os.makedirs(kept, exist_ok=True)
    os.replace(path, kept + "/Proof.antt")
    wrote = []
    if inv_out:
        text = "\n".join(note + [u for u in uses] + [f"use Rattle.{crate}.proofs.{mod}.Given as goal", ""]) + "\n" + "\n\n".join(shared + inv_out) + "\n"
        with open(folder + "/Invariants.antt", "w") as f:
            f.write(text)
        wrote.append("Invariants")
    if ans_out:
        whole = "\n".join(helper + ans_out)
        if "let both : " in whole:
            uses = uses + missing_uses(crate, name, uses, re.findall(r"let both : (.*) =$", whole, re.M))
        places = sorted(p for p in t.used if re.search(r"(?<![\w.'-])" + re.escape(p) + r"(?![\w'-])", whole))
        from_goals = [f"use Rattle.{crate}.proofs.{mod}.Goals.{{{', '.join(places)}}}"] if places else []
        text = "\n".join((note if not inv_out else []) + uses + [f"use Rattle.{crate}.proofs.{mod}.Goals as goal"] + from_goals + ([f"use Rattle.{crate}.proofs.{mod}.Invariants.{{{', '.join(shared_names)}}}"] if shared_names else []) + [""]) + "\n" + "\n\n".join(helper + ans_out) + "\n"
        with open(folder + "/Answers.antt", "w") as f:
            f.write(text)
        wrote.append("Answers")
    if not wrote and not os.listdir(folder):
        os.rmdir(folder)
    print(name, wrote, "LOOK" if "LOOK" in "".join(ans_out + inv_out + helper) else "")


def data_old(data, goal):
    for o, n in data["needs"]:
        if n == goal:
            return o
    return goal


def clauses(btext, lab, types=()):
    """The last term, a tuple of as many parts as there are clauses, as a record."""
    lines = btext.split("\n")
    # the final term starts after the last `in` at the end of a line
    k = len(lines)
    while k > 0 and not re.search(r"\bin\s*$", lines[k - 1]):
        k -= 1
    final = "\n".join(lines[k:])
    parts = split_top(final)
    if parts and len(parts) == len(lab):
        rec = "    record {\n" + "".join(f"      {l} = {p};\n" for l, p in zip(lab, parts)) + "    }"
        return "\n".join(lines[:k] + [rec])
    if len(types) == len(lab):
        lead = lines[:k]
        both = " × ".join(f"({ty})" for ty in types)
        rec = " ".join(f"{l} = both.{i};" for i, l in enumerate(lab))
        return "\n".join(lead + [f"    let both : {both} =", "      " + final.strip(), f"    in record {{ {rec} }}"])
    return btext + "\n    -- LOOK: clauses " + " ".join(lab)


def main(argv):
    crate = argv[0]
    names = names_of(crate)
    labels = labels_of_sources()
    slices_of_sources()
    clauses_of_sources()
    for key, data in sorted(names.items()):
        m = re.match(r"Rattle-\w+-proofs\.(.*)\.Lts$", key)
        if not m:
            continue
        name = m[1].replace(".", "/")
        if len(argv) > 1 and name not in argv[1:]:
            continue
        if os.path.exists(f"crates/{crate}/proofs/{name}/Proof.antt"):
            turn(crate, name, data, labels)
    for folder, _, fs in os.walk(f"crates/{crate}/proofs"):
        if "Proof.antt" in fs:
            print("left:", folder)


if __name__ == "__main__":
    main(sys.argv[1:])
