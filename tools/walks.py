#!/usr/bin/env python3
"""Turns the walks of an older Rattle, proofs/F/Proof.antt, into today's Invariants.antt and Answers.antt.

usage: tools/walks.py CRATE NAMES     NAMES: the names.json that 'rt check --generated FOLDER --old-names' writes in the crate's folder

An answer that only calls 'search rules' or 'omega arith' goes: the check finds it. A place of the walk is the record 'c' itself, whose
fields are flat now: 'c.before.before.loop.invariant' becomes 'c.loop-i.invariant'. What it could not turn it says on lines 'left:'.
"""
import json
import os
import re
import subprocess
import sys

W = r"[\w'₀₁₂₃₄₅₆₇₈₉-]"
LANDED = "deb329c72eb5f601dc0b97601c7553c22ea74c93"
TRIVIAL = {"search rules", "omega arith", "search (rules)", "(search rules)", "(omega arith)"}


def same(name):
    name = re.sub(r"_lem$", "", re.sub(r"(?<![A-Za-z])Is(?=[A-Z])", "", name)).lower()
    name = name.replace("_", "-").replace("loop-holds", "loop-init").replace("loop-again", "loop-preserved")
    return name


class Fn:
    def __init__(self, data):
        self.d = data
        self.at = {same(p[0]): i for i, p in enumerate(data["places"])}
        self.renamed = {a: b for a, b in data.get("args", [])}

    def parent(self, i):
        p = self.d["places"][i][1]
        return None if p is None else self.at[same(p)]

    def up(self, i, k):
        for _ in range(k):
            i = self.parent(i)
            if i is None:
                return None
        return i

    def field(self, var, place, fields, root):
        """The flat path of the fields behind a place."""
        fields = [FIELDS.get(f, f) if k else f for k, f in enumerate(fields)]
        fields[0] = {"pre": "requires", "good": "well_formed"}.get(fields[0], fields[0])
        fields = ["type_inv" if f == "type-inv" else f for f in fields]
        first, rest = fields[0], fields[1:]
        if rest and (same(first).startswith("loop") or re.match(r"if\d+$", first)):
            rest = [{"inv": "invariant", "taken": "true", "left": "false"}.get(rest[0], rest[0])] + rest[1:]
            fields = [first] + rest
        if first in ("args", "requires", "ranges", "utf8", "well_formed", "type_inv"):
            path = fields
            for old, new in self.renamed.items():
                o = old.replace(" ", "").strip(".").split(".")
                n = new.replace(" ", "").strip(".").split(".")
                if path[: len(o)] == o:
                    path = n + path[len(o) :]
                    break
            return ".".join([var] + path)
        # the step of this place or of one above it, or else of one between it and the goal
        for i in self.chain(place) + self.chain(root):
            step = self.d["places"][i][2]
            if same(step[0]) == same(first):
                names = self.d["params"].get(self.d["places"][i][3])
                if rest and rest[0] == "ok":
                    rest = ["type_inv"] + rest[1:]
                if step[1].startswith("wrapping_") and rest == ["ensures"]:
                    rest = ["ensures", "value"]
                if rest and rest[0] == "new" and names:
                    k = 1
                    while k < len(rest) and rest[k] == "1":
                        k += 1
                    if k < len(rest) and rest[k] == "0" and k - 1 < len(names):
                        rest = ["new", names[k - 1]] + rest[k + 1 :]
                arm = self.d["arms"][i]
                if arm:
                    for new, old, path in sorted(arm[2], key=lambda a: -len(a[2])):
                        if same(old) == same(first) and rest[: len(path)] == path and (path or not new.endswith("-own")):
                            return ".".join([var, arm[0], new] + rest[len(path) :])
                    for new, old, path in arm[2]:
                        if same(old) == same(first) and not path:
                            return ".".join([var, new] + rest)
                return ".".join([var, step[1]] + rest)
        return None

    def chain(self, i):
        out = []
        while i is not None:
            out.append(i)
            i = self.parent(i)
        return out

    def in_arm(self, place, fields, root):
        """Is this a step that an arm holds in parts, at a path that no part has?"""
        for i in self.chain(place) + self.chain(root):
            if same(self.d["places"][i][2][0]) == same(fields[0]):
                arm = self.d["arms"][i]
                return bool(arm) and not any(same(o) == same(fields[0]) and p and fields[1 : 1 + len(p)] == p for _, o, p in arm[2])
        return False


def own_fields():
    said = subprocess.run(["git", "grep", "-hoP", r"^ *pub [\w'-]+ :", LANDED, "--", "crates"], capture_output=True, text=True).stdout
    names = {line.split()[1] for line in said.split("\n") if line.strip()}
    snake = lambda n: re.sub(r"(?<=[a-z0-9])[A-Z]", lambda m: "_" + m[0].lower(), n).replace("-", "_")
    return {n: snake(n) for n in names if snake(n) != n}


FIELDS = own_fields() | {"is-valid": "is_valid_lem"}


def blocks(text):
    """Top-level declarations with the comments above them."""
    out, cur = [], []
    for line in text.split("\n"):
        head = re.match(rf"(?:pub |abbrev |unfoldable |data |record )*({W}+)(?: \{{[^{{}}]*\}})* :(?= |$)", line)
        if (head or line.startswith("use ") or (line.startswith("--") and not (cur and cur[-1].startswith("--")))) and cur:
            if not (cur and all(c.startswith("--") for c in cur)):
                out.append(cur)
                cur = []
        cur.append(line)
    if cur:
        out.append(cur)
    res = []
    for b in out:
        while b and not b[-1].strip():
            b.pop()
        if b:
            res.append(b)
    return res


def arguments(text):
    """The arguments of tie.spec: names and parenthesised terms."""
    out, depth, cur = [], 0, ""
    for ch in text:
        if ch == "(":
            depth += 1
        if ch == ")":
            depth -= 1
            if depth < 0:
                break
        if ch.isspace() and depth == 0:
            if cur:
                out.append(cur)
                cur = ""
        else:
            cur += ch
    if cur:
        out.append(cur)
    return out


def convert(crate, folder, data, say):
    fn = Fn(data)
    path = os.path.join(folder, "Proof.antt")
    text = open(path, encoding="utf-8").read()
    name = re.sub(rf".*crates/{crate}/proofs/", "", folder).replace("/", ".")
    mod = f"Rattle.{crate}.proofs.{name}"
    uses, decls = [], []
    for b in blocks(text):
        (uses if b[0].startswith("use ") else decls).append(b)
    uses = [l for b in uses for l in b if l.startswith("use ")]
    uses = [u for u in uses if ".Statement" not in u and not u.endswith(" as tie")]
    m = re.search(r"tie\.close\s+\(tie\.spec\b(.*)\)\s*$", text, re.S)
    if not m:
        m = re.search(r"tie\.close\s+tie\.spec\s*$", text)
        args = [] if m else None
    else:
        args = arguments(m[1])
    if args is None:
        say(f"left: {path}: no tie.spec")
        return
    needs, asked = data["needs"], data["asked_at"]
    loops = data["loops"]
    extra = len(args) - len(needs)
    if extra < 0 or extra > 2 * len(loops):
        say(f"look: {path}: {len(args)} arguments, {len(needs)} goals, {len(loops)} loops")
    # declarations
    inv, ans, helpers, funs = [], {}, [], {}
    names = {}
    for b in decls:
        code = [l for l in b if not l.startswith("--")]
        comment = [l for l in b if l.startswith("--")]
        if not code:
            continue
        head = re.match(rf"(?:pub |abbrev |unfoldable |data |record )*({W}+)(?: \{{[^{{}}]*\}})* :(?= |$)(.*)", code[0])
        if not head:
            say(f"left: {path}: {code[0]}")
            continue
        n = head[1]
        body = "\n".join(code)
        if re.search(r"tie\.close", body):
            continue
        t = re.match(rf"[^:]*: tie\.(invariant|decreases)[-_]({W}+)\s*$", code[0])
        if t:
            inv.append((n, t[1], t[2], code[1:], comment))
        elif re.match(rf"[^:]*: tie\.Need-", code[0]):
            ans[n] = (code, comment)
        else:
            helpers.append([n, body, comment])
    invnames = [i[0] for i in inv]
    strip = rf"(?:\s+(?:{'|'.join(map(re.escape, invnames))}))*" if invnames else ""

    used_places = set()

    def places(t):
        def one(m):
            i = fn.at.get(same(m[1]))
            if i is None:
                say(f"left: {path}: place {m[1]}")
                return m[0]
            used_places.add(data["places_by_name"][i])
            return data["places_by_name"][i]

        return re.sub(rf"tie\.((?!Need){W}+){strip}", one, t)

    # functions from a place to one above it
    kept = []
    for n, body, comment in helpers:
        while True:
            m = re.search(rf"let ({W}+) = ({W}+(?:\.before)*) in\s*", body)
            if not m or not re.search(r": tie\.[^\n]* → tie\.", body):
                break
            body = body[: m.start()] + re.sub(rf"(?<![\w.'-]){re.escape(m[1])}(?![\w'-])", m[2], body[m.end() :])
        m = re.match(rf"(?:abbrev |pub )*{re.escape(n)} : tie\.({W}+){strip} → tie\.({W}+){strip}\s*\n{re.escape(n)} (\w+) = \3((?:\.before)+)\s*$", body)
        if m:
            funs[n] = m[4]
            continue
        m = re.match(rf"(?:abbrev |pub )*{re.escape(n)} : tie\.({W}+){strip} → tie\.({W}+){strip}\s*\n{re.escape(n)} (\w+) =\s+(.*)$", body, re.S)
        if m:
            e = macro(m[4].strip(), funs)
            e = re.sub(r"^(\w+) (\w+(?:\.before)*)$", lambda q: q[2] + funs[q[1]] if q[1] in funs else q[0], e)
            if re.match(rf"{m[3]}(\.before)+$", e):
                funs[n] = e[len(m[3]) :]
                continue
        kept.append([n, body, comment])
    helpers = kept

    helperplace = {}
    for n, body, comment in helpers:
        m = re.search(rf"\(({W}+) : tie\.({W}+)", body)
        if m and same(m[2]) in fn.at:
            helperplace[n] = fn.at[same(m[2])]

    def flatten(t, env, ctx, here):
        t = macro(t, funs)
        t = re.sub(r"(?<![\w.])(" + "|".join(map(re.escape, funs)) + r") (\w+(?:\.before)*)(?= in\b)", lambda q: q[2] + funs[q[1]], t) if funs else t
        # names of places
        while True:
            hit = None
            for m in re.finditer(rf"let ({W}+) = ({W}+)((?:\.before)*) in\s*", t):
                if m[2] in env:
                    hit = m
                    break
            if not hit:
                break
            alias, root, befores = hit[1], hit[2], hit[3]
            pre = t[: hit.start()]
            post = re.sub(rf"(?<![\w.'-])(?<!let ){re.escape(alias)}(?![\w'-])(?! :)", root + befores, t[hit.end() :])
            t = pre + post
            t = macro(t, funs)
        # names of what an arm holds in parts
        while True:
            hit = None
            for m in re.finditer(rf"let ({W}+) = ({W}+)((?:\.before)*)((?:\.(?!before\b){W}+)+) in\s*", t):
                if m[2] in env:
                    q = fn.up(env[m[2]], m[3].count(".before"))
                    if fn.in_arm(env[m[2]] if q is None else q, m[4].strip(".").split("."), env[m[2]]):
                        hit = m
                        break
            if not hit:
                break
            post = re.sub(rf"(?<![\w.'-])(?<!let ){re.escape(hit[1])}(?![\w'-])(?! :)", hit[2] + hit[3] + hit[4], t[hit.end() :])
            t = t[: hit.start()] + post
        t = re.sub(rf"not-(?:true|false) (?:_|{W}+(?:\.{W}+)*) ({W}+(?:\.{W}+)*\.(?:true|false|taken|left))(?![\w.])", r"\1", t)
        # what a test of '!r' says is said of r now
        path_ = rf"{W}+(?:\.{W}+)+"
        t = re.sub(rf"(?<![(\w])test_(?:held|failed) (?:\{{[^{{}}]*\}} )?({path_}) ({path_})(?=[,)\n])", r"sym \1 ∙ \2", t)
        t = re.sub(rf"test_(?:held|failed) (?:\{{[^{{}}]*\}} )?({path_}) ({path_})", r"sym \1 ∙ \2", t)
        t = re.sub(rf"test_(?:held|failed) (?:\{{[^{{}}]*\}} )?refl ({path_})", r"\1", t)
        # lemmas over a place
        for h, q in helperplace.items():
            new = data["places_by_name"][q]

            def call(m):
                if m[2] not in env:
                    return m[0]
                if here == q:
                    return f"{h} {m[2]}"
                return f"{h} (goal.at.{ctx} {m[2]}).{new}"

            t = re.sub(rf"(?<![\w.'-])({re.escape(h)}) ({W}+)((?:\.before)*)(?![\w.'-])", call, t)
        # let s = c.before.args in
        argset = {}
        for m in re.finditer(rf"let ({W}+) = ({W}+)((?:\.before)*)\.args in", t):
            argset[m[1]] = True
        for s in argset:
            for old, new in fn.renamed.items():
                if old.startswith(".args"):
                    o, nn = old.replace(" ", "")[6:], new.replace(" ", "")[6:]
                    t = re.sub(rf"(?<![\w.'-]){s}\.{re.escape(o)}(?![\w'-])", f"{s}.{nn}", t)

        def one(m):
            var, befores, fields = m[1], m[2] or "", m[3] or ""
            if var not in env:
                return re.sub(rf"(?<=\.){W}+", lambda q: FIELDS.get(q[0], q[0]), m[0]) if m[1].islower() else m[0]
            k = befores.count(".before")
            if not fields:
                return m[0]
            p = fn.up(env[var], k)
            if p is None:
                p = env[var]
            new = fn.field(var, p, fields.strip(".").split("."), env[var])
            if new is None:
                say(f"left: {path}: {m[0]} at {data['places'][p][0]}")
                return m[0]
            return new

        t = re.sub(rf"(?<=\)\.){W}+", lambda q: FIELDS.get(q[0], q[0]), t)
        return re.sub(rf"(?<![\w.'-])({W}+)((?:\.before)*)((?:\.(?!before\b){W}+)*)", one, t)

    # invariants
    out = []
    loopof = {same(l[0][0]): (l, data["changed"][i]) for i, l in enumerate(loops)}
    used = set()
    for n, kind, loop, code, comment in inv:
        l = loopof.get(same(loop))
        if not l:
            say(f"left: {path}: loop {loop}")
            continue
        (old, new), vars_ = l[0][0], l[0][1]
        changed = l[1]
        body = "\n".join(code)
        m = re.match(rf"{re.escape(n)}((?: {W}+)*) =(.*)$", body, re.S)
        if not m:
            say(f"left: {path}: {n}")
            continue
        ps = m[1].split()
        rest = m[2]
        cur = [v for v, c in zip(vars_, changed) if c]
        want = len(vars_) + len(cur)
        if len(ps) != want:
            say(f"left: {path}: {n} has {len(ps)} parameters, {want} wanted")
        sub = {}
        for p, v, c in zip(ps, vars_, changed):
            sub[p] = f"l.initial.{v}" if c else f"l.{v}"
        for p, v in zip(ps[len(vars_) :], cur):
            sub[p] = f"l.{v}"
        sub.pop("_", None)
        bound = set(re.findall(rf"λ ((?:{W}+ )*{W}+)\.", rest)) | set(re.findall(rf"\(({W}+) :", rest))
        bound = {x for y in bound for x in y.split()}
        if bound & set(sub):
            say(f"look: {path}: {n} binds {bound & set(sub)}")
        rest = re.sub(rf"(?<![\w.'-])({W}+)(?![\w'-])", lambda q: sub.get(q[1], q[1]), rest)
        g = f"{kind}-{new}"
        out.append("\n".join(comment + [f"abbrev pub {g} : goal.{g}", f"{g} l ={rest}"]))
    invtext = "\n\n".join(out)
    words = lambda t: set(re.findall(rf"{W}+", t))
    # helpers that invariants use
    shared = []
    need = words(invtext)
    grown = True
    while grown:
        grown = False
        for h in helpers:
            if h[0] in need and h not in shared and "tie." not in h[1]:
                shared.append(h)
                need |= words(h[1])
                grown = True
    pubbed = []
    for h in [h for h in helpers if h in shared]:
        body = h[1]
        if not re.match(r"(abbrev |unfoldable )*pub ", body):
            body = re.sub(r"^((?:abbrev |unfoldable )?)", r"\1pub ", body, count=1)
        pubbed.append("\n".join(h[2] + [body]))
    if out:
        with open(os.path.join(folder, "Invariants.antt"), "w", encoding="utf-8") as f:
            f.write("\n".join(uses + [f"use {mod}.Given as goal"]) + "\n\n" + "\n\n".join(pubbed + out) + "\n")
    # answers
    res = []
    goalnames = [n[1] for n in needs]
    tail = args[extra:] if extra >= 0 else args
    where = {}
    byname = {same(n[0]): i for i, n in enumerate(needs)}
    positional = 0 <= extra <= 2 * len(loops)
    items = []
    for k, a in enumerate(tail):
        items.append((k if positional else None, a))
    if not positional:
        items = []
        for n, (code, comment) in ans.items():
            old = re.search(rf"tie\.Need-({W}+)", code[0])[1]
            items.append((byname.get(same(old)), n))
    first = {}
    for k, a in items:
        if k is None or k >= len(needs):
            say(f"left: {path}: no goal for {a[:60]}")
            continue
        g = goalnames[k]
        place = fn.at.get(same(asked[k][0]))
        if a in ans:
            code, comment = ans[a]
            if a in first:
                res.append((k, f"pub {g} : goal.{g}\n{g} c = {first[a]} c"))
                continue
            first[a] = g
            body = "\n".join(code[1:])
            lines = []
            unf = [l for l in code[1:] if l.startswith("unfolding ")]
            clause = "\n".join(l for l in code[1:] if not l.startswith("unfolding "))
            m = re.match(rf"{re.escape(a)}((?: [^=\n]+?)?) =(.*)$", clause, re.S)
            if not m:
                say(f"left: {path}: answer {a}")
                continue
            heads = re.sub(r" κs\b", "", m[1])
            pats = m[1].split()
            env = {pats[0]: place} if pats else {}
            t = flatten(m[2], env, g, place)
            if t.strip() in TRIVIAL and not unf:
                continue
            if "in_default-own" in t:
                t = " grind (arith, nat_tests)"
            res.append((k, "\n".join(comment + [f"pub {g} : goal.{g}"] + unf + [f"{g}{heads} ={t}"])))
        elif a.startswith("("):
            m = re.match(rf"\(λ ({W}+)((?: {W}+)*)\.\s*(.*)\)$", a, re.S)
            if not m:
                say(f"left: {path}: {a[:60]}")
                continue
            t = flatten(m[3], {m[1]: place}, g, place)
            if t.strip() in TRIVIAL:
                continue
            res.append((k, f"pub {g} : goal.{g}\n{g} {m[1]}{re.sub(' κs', '', m[2])} = {t}"))
        else:
            helper = [h for h in helpers if h[0] == a]
            res.append((k, f"pub {g} : goal.{g}\n{g} c = {a} c"))
    # the other helpers
    hs = []
    for n, body, comment in helpers:
        if any(n == s[0] for s in shared):
            continue
        env = {}
        for m in re.finditer(rf"\(({W}+(?: {W}+)*) : tie\.({W}+)", body):
            i = fn.at.get(same(m[2]))
            for v in m[1].split():
                if i is not None:
                    env[v] = i
        q = helperplace.get(n)
        ctx = data["places_by_name"][q] if q is not None else ""
        m = re.search(rf"^{re.escape(n)}(?! :)(?= )", body, re.M)
        cut = m.start() if m else len(body)
        done = flatten(body[:cut], env, ctx, q) + flatten(body[cut:], env, ctx, q)
        hs.append("\n".join(comment + [places(done)]))
    text = "\n\n".join(hs + [t for _, t in res])
    text = places(text)
    if res or hs:
        w = words(text)
        lines = list(uses)
        mine = [s[0] for s in shared if s[0] in w]
        if mine:
            lines.append(f"use {mod}.Invariants.{{{', '.join(mine)}}}")
        with open(os.path.join(folder, "Answers.antt"), "w", encoding="utf-8") as f:
            if "nat_tests" in text:
                lines.append("use Rattle.std.proofs.Common.{arith}")
                lines.append("use Rattle.std.proofs.lemmas.Bool.Decides.{nat_tests}")
                lines = [l for l in lines if not re.search(r"native.Mathlib.Omega.\{arith\}", l)]
            if "sym " in text and not re.search(r"[{ ,]sym[,}]", "\n".join(lines)):
                lines.append("use Rattle.std.proofs.Common.{sym}")
            if "∙" in text and "◌∙◌" not in "\n".join(lines):
                lines.append("use Rattle.std.proofs.Common.{◌∙◌}")
            lines.append(f"use {mod}.Goals as goal")
            if used_places:
                lines.append(f"use {mod}.Goals.{{{', '.join(sorted(used_places))}}}")
            f.write("\n".join(lines) + "\n\n" + text + "\n")
    os.remove(path)
    if "tie." in text:
        say(f"look: {path}: tie. is left")


def macro(t, funs):
    if not funs:
        return t
    pat = re.compile(r"\((" + "|".join(map(re.escape, funs)) + r") (" + W + r"+(?:\.before)*)\)")
    while True:
        n = pat.sub(lambda q: q[2] + funs[q[1]], t)
        if n == t:
            return t
        t = n


def main():
    crate, names = sys.argv[1], sys.argv[2]
    data = json.load(open(names, encoding="utf-8"))
    pre = f"Rattle-{crate}-proofs."
    for key, d in sorted(data.items()):
        if not key.startswith(pre) or not key.endswith(".Lts"):
            continue
        fn = key[len(pre) : -4].replace(".", "/")
        folder = f"crates/{crate}/proofs/{fn}"
        if os.path.exists(folder + "/Proof.antt"):
            convert(crate, folder, d, print)


main()
