#!/usr/bin/env python3
"""Turns a function's Proof.antt of the older Rattle into Invariants.antt and Answers.antt.

usage: tools/port_proofs.py NAMES.json CRATE [FUNCTION-FOLDER ..]

NAMES.json is what `rt check --generated DIR --old-names` writes in the crate's folder: the old name and the new one of each goal, step and
field. An old proof hands one term for each need to `tie.spec`; each that is not found by search alone becomes an answer. An old path goes up
by `.before`; a new one names its step. A lemma over the code's places becomes a `let` of the answers that use it.
"""

import json
import os
import re
import sys

W = r"[^\s(){}.;,@\"«»\[\]\\]+"
TOKEN = re.compile(W)
SEARCHED = re.compile(r"^\(λ c( κs| _)?\. (search rules|tt)\)$")


def blocks(text):
    """The declarations of a file: [comment, name, signature, unfolding, [clauses]], and its use lines."""
    uses, out, comment = [], [], []
    lines = text.split("\n")
    i = 0
    chunks = []
    for line in lines:
        if line.startswith((" ", "\t", "}", ")")) and chunks:
            chunks[-1] += "\n" + line
        else:
            chunks.append(line)
    for c in chunks:
        if c.startswith("use "):
            uses.append(c)
        elif c.startswith("--"):
            comment.append(c)
        elif not c.strip():
            continue
        elif c.startswith("unfolding "):
            out[-1][3].append(c)
        elif not c.strip():
            continue
        else:
            m = re.match(r"((?:abbrev |pub |unfoldable )*)(" + W + r")((?: *\{[^}]*\}| *\([^)]*\))*) *:\s", c)
            if m and not re.match(r"^(?:abbrev |pub )*" + W + r" [^:]*=", c):
                out.append([comment, m.group(2), c[m.end() :], [], [], m.group(1), m.group(3)])
                comment = []
            elif out:
                out[-1][4].append(c)
            else:
                print("not read:", c[:80])
    return uses, out


def atoms(text):
    """The atoms of an application: names, paths and what stands in brackets."""
    out, depth, cur = [], 0, ""
    for ch in text:
        if ch in "([{":
            depth += 1
        if ch in ")]}":
            depth -= 1
        if depth == 0 and ch.isspace():
            if cur:
                out.append(cur)
            cur = ""
        else:
            cur += ch
    if cur:
        out.append(cur)
    return out


def plain(s):
    return s.replace("-", "_").replace("overflow_", "")


class Turn:
    def __init__(self, of, at=None):
        """The names of a function's steps; those that lead to a goal's place come first."""
        self.of = of
        self.steps, self.fields, self.callee = {}, {}, {}
        self.arms, self.typed = {}, {}
        all_places = of["places"]
        index = {}
        for k, it in enumerate(all_places):
            index.setdefault(it[0], k)
        chain, seen = [], set()
        while at in index and index[at] not in seen:
            chain.append(index[at])
            seen.add(index[at])
            at = all_places[index[at]][1]
        for k in chain + [k for k in range(len(all_places)) if k not in seen]:
            it = all_places[k]
            old, new = it[2]
            if old:
                if plain(old) not in self.steps:
                    self.steps[plain(old)] = new
                    self.callee[new] = it[3]
                for a, b in it[4] if len(it) > 4 and it[4] else []:
                    self.fields.setdefault(new, {})[a] = b
            arm = of["arms"][k] if k < len(of["arms"]) else None
            if arm:
                for new, old, path in arm[2]:
                    self.arms.setdefault(plain(old), []).append((tuple(path), arm[0], new))
            for var, step in of["typed"][k] if k < len(of["typed"]) else []:
                self.typed.setdefault(plain(step), var)
        self.args = [(a.strip(), b.strip()) for a, b in of["args"]]

    def path(self, base, fields):
        """A path of the older Rattle, as today's."""
        f = [x for x in fields if x != "before"]
        if base is None:
            return f
        out = f
        if f:
            p = plain(f[0])
            if p in self.typed and len(f) > 1 and f[1] == "given":
                return ["type_inv", self.typed[p]] + f[2:]
            if p in self.arms:
                for path, arm, new in self.arms[p]:
                    if path and tuple(f[1 : 1 + len(path)]) == path:
                        return [arm] + ([new] if new else []) + f[1 + len(path) :]
                for path, arm, new in self.arms[p]:
                    if not path and arm == self.steps.get(p):
                        return [arm, new] + f[1:]
            if p not in self.steps:
                for q in (re.sub(r"_lem$", "", p), p.lower(), re.sub(r"_lem$", "", p).lower()):
                    if q in self.steps:
                        p = q
                        break
            if p not in self.steps and re.sub(r"\d+$", "", p) in self.steps:
                p = re.sub(r"\d+$", "", p)
            if p in self.steps:
                new = self.steps[p]
                rest = f[1:]
                if rest and rest[0] == "new" and len(rest) > 1 and rest[1].isdigit():
                    params = self.of["params"].get(self.callee.get(new)) or []
                    if int(rest[1]) < len(params):
                        rest = ["new", params[int(rest[1])]] + rest[2:]
                if rest and rest[0] in self.fields.get(new, {}):
                    rest = [self.fields[new][rest[0]]] + rest[1:]
                out = [new] + rest
            elif f[0] in ("args", "ranges") and len(f) > 1:
                for a, b in self.args:
                    if a == f".{f[0]} .{f[1]}":
                        out = [f[0], b.split(".")[-1].strip()] + f[2:]
        fix = {"pre": "requires", "inv": "invariant", "good": "well_formed", "well-formed": "well_formed", "taken": "true", "left": "false"}
        return [fix.get(x, x) for x in out]

    def text(self, t):
        """All paths in a term."""

        # every place's record is c now
        t = re.sub(r"\.before\b", "", t)
        while True:
            m = re.search(r"let (" + W + r") = c in\s*", t)
            if not m:
                break
            t = t[: m.start()] + re.sub(r"(?<![\w.'-])" + re.escape(m.group(1)) + r"(?![\w'₀-])", "c", t[m.end() :])
        of_args = set(re.findall(r"let (" + W + r") = c\.args in", t))

        def one(m):
            base, fields = m.group(1), [x for x in m.group(2).split(".") if x]
            new = fields
            if base == "c":
                new = self.path(base, fields)
            elif base in of_args:
                for a, b in self.args:
                    if a == f".args .{fields[0]}":
                        new = [b.split(".")[-1].strip()] + fields[1:]
            fix = {"pre": "requires", "inv": "invariant", "good": "well_formed", "well-formed": "well_formed"}
            new = [fix.get(x, x) if base == "c" else x for x in new]
            return ".".join([base] + new)

        t = re.sub(r"(?<![\w.'])([A-Za-z_][^\s(){}.;,@\"«»\[\]\\]*|\))((?:\." + W + r")+)", one, t)
        # the plain fact of a test on `!f`
        t = re.sub(r"not-(?:true|false) _\s+(c\.if-not-[^\s().,;]+)\.(true|false)(?:-raw)?(?![\w-])", r"\1.\2", t)
        return t


def turn(folder, names, crate, key):
    path = os.path.join(folder, "Proof.antt")
    text = open(path, encoding="utf-8").read()
    of = names.get(key)
    if of is None:
        print("no names for", key)
        return
    uses, decls = blocks(text)
    head = text.split("\nuse ")[0] if text.startswith("--") else ""
    for d in decls:
        if "\n".join(d[0]) == head:
            d[0] = []
    t = Turn(of)
    spec = [d for d in decls if re.search(r"[_-]spec$", d[1])]
    if not spec or "tie.spec" not in "\n".join(spec[0][4]):
        print("left as it is:", path)
        return
    spec = spec[0]
    body = "\n".join(spec[4])
    m = re.search(r"\(tie\.spec\b(.*)\)\s*$", body, flags=re.S)
    args = atoms(m.group(1).strip()) if m else []
    loops = of["loops"]
    invs = args[: 2 * len(loops)]
    args = args[2 * len(loops) :]
    needs = [n[1] for n in of["needs"]]
    by_name = {d[1]: d for d in decls if d is not spec}
    answers, taken, helpers = [], {}, {}
    said = []
    if len(args) == len(needs):
        pairs = list(zip(args, needs))
    else:
        said.append(f"{len(args)} terms for {len(needs)} goals")
        # by the names of the needs
        old = {}
        for a, b in of["needs"]:
            old.setdefault(plain(a), b)
        pairs = []
        for a in args:
            d = by_name.get(a)
            mm = d and re.match(r"tie\.Need-(" + W + ")", d[2].strip())
            if mm:
                pairs.append((a, old.get(plain(mm.group(1)), "UNKNOWN-" + mm.group(1))))
            elif not SEARCHED.match(a):
                pairs.append((a, "UNKNOWN"))
    for name, d in by_name.items():
        if name in invs:
            continue
        if not re.match(r"tie\.Need-", d[2].strip()):
            helpers[name] = d
    # ---- helpers
    ident, lets, own = set(), {}, []
    over = lambda d: "tie." in d[2] or "tie." in d[6]
    for name, d in helpers.items():
        if not over(d):
            own.append(d)
            continue
        clause = d[4][0] if d[4] else ""
        mm = re.match(re.escape(name) + r" (" + W + r")((?: " + W + r")*?) *=\s*(.*)$", clause, flags=re.S)
        if not mm or len(d[4]) > 1:
            said.append("helper " + name)
            own.append(d)
            continue
        c, more, b = mm.group(1), mm.group(2).split(), mm.group(3)
        lets[name] = (d, c, more, b)
    changed = True
    while changed:
        changed = False
        for name, (d, c, more, b) in list(lets.items()):
            if name in ident:
                continue
            flat = re.sub(r"\.before\b", "", b).strip()
            for i in ident:
                flat = re.sub(r"\(?\b" + re.escape(i) + r" " + re.escape(c) + r"\)?", c, flat)
            if flat == c and not more:
                ident.add(name)
                changed = True

    def rebase(s, c="c"):
        """The term with its place's variable as c, and helpers called without a place."""
        if c != "c":
            s = re.sub(r"(?<![\w.'-])" + re.escape(c) + r"(?![\w'₀-])", "c", s)
        arg = r"(?:\((?:[^()]|\([^()]*\))*\)|" + W + r"(?:\." + W + r")*)"
        for _ in range(6):
            before = s
            for i in ident:
                s = re.sub(r"\((?:" + re.escape(i) + r") (" + arg + r")\)", r"\1", s)
                s = re.sub(r"(?<![\w.'-])" + re.escape(i) + r" (" + arg + r")", r"\1", s)
            s = re.sub(r"\((" + W + r"(?:\.before)*)\)(?=\.)", r"\1", s)
            if s == before:
                break
        for n in lets:
            if n not in ident:
                s = re.sub(r"\((?:" + re.escape(n) + r") " + arg + r"\)", "§" + n + "§", s)
                s = re.sub(r"(?<![\w.'§-])" + re.escape(n) + r" " + arg, "§" + n + "§", s)
        return s.replace("§", "")

    def let_of(name, t):
        d, c, more, b = lets[name]
        sig = d[2].strip()
        # the first binder is the place
        mm = re.match(r"\((" + W + r") : tie\.[^)]*\)\s*(.*)$", sig, flags=re.S)
        if not mm:
            mm = re.match(r"(tie)\." + W + r"(?: [^→]*)?(→.*)$", sig, flags=re.S)
        if not mm:
            said.append("helper's type " + name)
            return "-- let " + name + "\n"
        ty = mm.group(2).lstrip()
        if ty.startswith("→"):
            ty = ty[1:].lstrip()
        ty = t.text(rebase(ty, mm.group(1)))
        b2 = t.text(rebase(b, c))
        if more:
            b2 = "λ " + " ".join(more) + ". " + b2
        return f"let {name} : {ty.strip()} =\n    {b2.strip()} in"

    def with_lets(b, t):
        need = []
        seen = set()

        def visit(s):
            for n in lets:
                if n in ident or n in seen:
                    continue
                if re.search(r"(?<![\w.'-])" + re.escape(n) + r"(?![\w'-])", s):
                    seen.add(n)
                    visit(lets[n][3] + " " + lets[n][0][2])
                    need.append(n)

        visit(b)
        return "".join("\n    " + let_of(n, t) for n in need)

    at_of = dict(zip(needs, [x[0] for x in of["asked_at"]]))
    for a, need in pairs:
        t = Turn(of, at_of.get(need))
        d = by_name.get(a)
        if d is not None:
            clause = "\n".join(d[4])
            mm = re.match(re.escape(a) + r"((?: " + W + r")*?) *=(?!=)\s?(.*)$", clause, flags=re.S)
            if not mm:
                said.append("clause of " + a)
                continue
            params, b, unf = mm.group(1).split(), mm.group(2), d[3]
            taken[a] = need
            comment = d[0]
        elif SEARCHED.match(a):
            continue
        else:
            mm = re.match(r"^\(λ ((?:" + W + r" ?)+)\. (.*)\)$", a, flags=re.S)
            if not mm:
                said.append("term " + a[:40])
                continue
            params, b, unf, comment = mm.group(1).split(), mm.group(2), spec[3], []
        c = params[0] if params else "c"
        pre = with_lets(b, t)
        b = t.text(rebase(b, c))
        b = b.strip("\n")
        if pre:
            b = pre + "\n    " + b.strip()
        elif "\n" in b and not b.startswith("\n"):
            b = " " + b.strip() if not b.startswith("    ") else "\n" + b
        else:
            b = " " + b.strip()
        lines = [*comment, f"pub {need} : goal.{need}", *unf, f"{need} c ={b}"]
        answers.append("\n".join(lines))
    # ---- invariants
    inv = []
    for k, (names2, variables) in enumerate(loops):
        changed2 = of["changed"][k]
        order = [(v, f"l.initial.{v}" if ch else f"l.{v}") for v, ch in zip(variables, changed2)]
        order += [(v, f"l.{v}") for v, ch in zip(variables, changed2) if ch]
        for j, word in ((0, "invariant"), (1, "decreases")):
            a = invs[2 * k + j] if 2 * k + j < len(invs) else None
            d = by_name.get(a)
            if d is None:
                said.append(f"{word} {a}")
                continue
            clause = "\n".join(d[4])
            mm = re.match(re.escape(a) + r"((?: " + W + r")*?) *=(?!=)\s?(.*)$", clause, flags=re.S)
            params, b = mm.group(1).split(), mm.group(2)
            if len(params) != len(order):
                said.append(f"{word}: {len(params)} variables for {len(order)}")
            sub = {p: o[1] for p, o in zip(params, order)}
            b = re.sub(r"(?<![\w.'₀-])(" + W + r")", lambda m: sub.get(m.group(1), m.group(1)), b)
            new = names2[1]
            if word == "invariant" and b.strip() == "Unit {0}":
                continue
            b = b if b.startswith("\n") or b.startswith("    ") else " " + b.strip()
            if b.startswith("    "):
                b = "\n" + b
            inv.append("\n".join([*d[0], f"abbrev pub {word}-{new} : goal.{word}-{new}", f"{word}-{new} l ={b.rstrip()}"]))
    keep = [u for u in uses if not re.search(r"\.(Statement|Tie|Lts)\b", u)]
    base = key.replace("Rattle-" + crate + "-proofs.", "Rattle." + crate + ".proofs.").rsplit(".Lts", 1)[0]
    if inv:
        with open(os.path.join(folder, "Invariants.antt"), "w", encoding="utf-8") as f:
            f.write("\n".join([head, *keep, f"use {base}.Given as goal", "", "\n\n".join(inv), ""]).lstrip("\n"))
    if answers or own:
        txt = "\n\n".join(answers)
        mine = []
        for d in own:
            mine.append("\n".join([*d[0], f"{d[5]}{d[1]}{d[6]} : {d[2].strip()}", *d[3], *d[4]]))
        with open(os.path.join(folder, "Answers.antt"), "w", encoding="utf-8") as f:
            f.write("\n".join([head, *keep, f"use {base}.Goals as goal", "", "\n\n".join(mine + answers), ""]).lstrip("\n"))
    os.remove(path)
    if said:
        print(path + ":", "; ".join(said))


def main():
    names = json.load(open(sys.argv[1], encoding="utf-8"))
    crate = os.path.basename(os.path.normpath(sys.argv[2]))
    root = os.path.join(sys.argv[2], "proofs")
    only = sys.argv[3:]
    for folder, _, fs in sorted(os.walk(root)):
        if "Proof.antt" in fs:
            rel = os.path.relpath(folder, root).replace("/", ".")
            if only and rel not in only:
                continue
            turn(folder, names, crate, f"Rattle-{crate}-proofs.{rel}.Lts")


main()
