#!/usr/bin/env python3
"""Turns proofs/F/Proof.antt, which names the places of an older kit, into Invariants.antt and Answers.antt.

usage: answers.py NAMES.json CRATE_FOLDER [FUNCTION..]

NAMES.json is what `rt check --generated DIR --old-names` writes in the crate's folder: each goal, step and place under its old and its new name.
A path back through the steps (`c.before.before.if1.taken`) becomes the fact by its step's name (`c.if-a-b.true`). What a local lemma says of a place is
put into a `let` where another place cites it. Each line that is printed but for the names of the files written is a spot to look at; a Proof.antt
that cannot be read stays as it is.
"""
import json
import os
import re
import sys

def norm(s):
    s = s.replace("-", "_")
    s = re.sub(r"_lem$", "", s)
    s = re.sub(r"_(\d+)$", r"\1", s)
    return s.lower()

TOK = re.compile(r"(\s+|[()\[\]{};,]|--[^\n]*|[^\s()\[\]{};,]+)")
SUBST = {"taken": "true", "left": "false", "inv": "invariant"}

class Fn:
    def __init__(self, entry):
        self.e = entry
        self.pl = entry["places"]
        self.newname = entry["places_by_name"]
        self.idx = {}
        for i, p in enumerate(self.pl):
            self.idx.setdefault(norm(p[0]), i)
        self.parent = []
        byold = {p[0]: i for i, p in enumerate(self.pl)}
        for p in self.pl:
            self.parent.append(byold.get(p[1]) if p[1] is not None else None)
        self.bynew = {n: i for i, n in enumerate(self.newname)}
    def chain(self, i):
        out = []
        while i is not None:
            out.append(i); i = self.parent[i]
        return out
    def place(self, old):
        return self.idx.get(norm(old))
    def step(self, root, f):
        """new step name for old step f seen from place root"""
        nf = norm(f)
        if root is not None:
            for i in self.chain(root):
                if norm(self.pl[i][2][0]) == nf and self.pl[i][2][0]:
                    return self.pl[i][2][1], i
        for alt in (re.sub(r"^is_?", "", nf), "is_" + nf, re.sub(r"^is_?", "is_", nf)):
            if root is not None and alt != nf:
                for i in self.chain(root):
                    if norm(self.pl[i][2][0]) == alt and self.pl[i][2][0]: return self.pl[i][2][1], i
        cands = {(p[2][1], i) for i, p in enumerate(self.pl) if p[2][0] and norm(p[2][0]) == nf}
        if len({c[0] for c in cands}) == 1:
            return sorted(cands)[0]
        if cands:
            return ("?" + "|".join(sorted({c[0] for c in cands})), None)
        return None, None

class Node:
    pass

def parse(text):
    toks = TOK.findall(text)
    pos = 0
    def seq(close):
        nonlocal pos
        out = []
        ws = ""
        while pos < len(toks):
            t = toks[pos]
            if t.isspace() or t.startswith("--"):
                ws += t; pos += 1; continue
            if t == close:
                pos += 1
                return out, ws
            if t in "([{":
                pos += 1
                inner, tail = seq({"(": ")", "[": "]", "{": "}"}[t])
                n = ["g", ws, t, inner, tail, ""]
                ws = ""
                # trailing fields
                if pos < len(toks) and toks[pos].startswith(".") and len(toks[pos]) > 1:
                    n[5] = toks[pos]; pos += 1
                out.append(n)
                continue
            if t in ")]}":
                pos += 1
                out.append(["w", ws, t]); ws = ""; continue
            out.append(["w", ws, t]); ws = ""; pos += 1
        return out, ws
    return seq(None)

def show(nodes, tail=""):
    s = ""
    for n in nodes:
        if n[0] == "w": s += n[1] + n[2]
        else:
            close = {"(": ")", "[": "]", "{": "}"}[n[2]]
            s += n[1] + n[2] + show(n[3], n[4]) + close + n[5]
    return s + tail

class Conv:
    def __init__(self, fn, name):
        self.fn = fn; self.name = name; self.flags = []
        self.placefun = set()      # functions from place to place
        self.helper = {}           # name -> list of place idx for leading explicit params (None if not a place)
        self.rename = {}           # names of answers
        self.steps = {}            # local names of steps
        self.arms = {}; self.joinfields = {}
        self.alias = {}            # local names of records of clauses
        self.raw = False; self.in_type = False
        self.lets = {}; self.unfolded = set(); self.decls = {}; self.answers = set(); self.direct = set(); self.inlined = set()
    # env: dict var -> root var ; roots: dict root var -> place idx
    def fields(self, root, fields):
        """fields after place: list of names"""
        fs = [f for f in fields if f != "before"]
        if not fs: return None
        f = fs[0]; rest = fs[1:]
        place = self.roots.get(root); at = None
        if f in ("args",): out = ["args"]
        elif f in ("requires", "pre"): out = ["requires"]
        elif f == "good": out = ["ranges"]
        elif f == "well-formed": out = ["well_formed"]
        elif f in ("well_formed", "ranges", "lifetimes", "type_inv"): out = [f]
        else:
            new, at = self.fn.step(place, f)
            if new is None:
                self.flags.append(f"no step {f}")
                out = [f]
            else:
                if new.startswith("?"): self.flags.append(f"step {f}: {new}")
                out = [new]
                arm = self.fn.e["arms"][at] if at is not None and at < len(self.fn.e["arms"]) else None
                if arm:
                    done = False
                    best = None
                    for fld, old, path in arm[2]:
                        if norm(old) == norm(f) and list(path) == rest[:len(path)] and (path or fld.endswith("-own")):
                            if best is None or len(path) > len(best[1]): best = (fld, path)
                    if best:
                        out = [arm[0], best[0]]; rest = rest[len(best[1]):]
                        done = True
                if norm(f).startswith("shared_slice_known") or norm(f).startswith("mut_slice_known"):
                    # (x.shared_slice_known.given i).fits
                    typed = [t[0] for t in self.fn.e["typed"][at]] if at is not None else []
                    pass
        rest = [SUBST.get(x, x) for x in rest[:1]] + rest[1:]
        if at is not None and rest:
            ren = dict(map(tuple, self.fn.pl[at][4]))
            rest = [ren.get(rest[0], rest[0])] + rest[1:]
            cl = self.fn.e["clauses"][at] if at < len(self.fn.e["clauses"]) else None
            if rest[0] == "ensures" and cl: rest = ["ensures"] + self.tuple(rest[1:], cl["fields"])
        if at is not None and rest and rest[0] == "new" and len(rest) > 1 and rest[1] in ("0", "1"):
            k = 1
            while k < len(rest) and rest[k] == "1": k += 1
            ps = self.fn.e["params"].get(self.fn.pl[at][3] or "")
            if ps and k < len(rest) and rest[k] == "0" and k - 1 < len(ps): rest = ["new", ps[k - 1]] + rest[k + 1:]
        if out == ["requires"] and self.fn.e["pre"]:
            rest = self.tuple(rest, self.fn.e["pre"]["fields"])
        return out + rest
    def tuple(self, rest, names):
        k = 0
        while k < len(rest) and rest[k] == "1" and k < len(names) - 1: k += 1
        if k < len(rest) and rest[k] == "0" and k < len(names) - 1: return [names[k]] + rest[k+1:]
        if k == len(names) - 1 and k > 0: return [names[k]] + rest[k:]
        return rest
    def clauses_of(self, path):
        """clause names of a path root.requires or root.step.ensures"""
        if path.count(".") >= 1:
            if path.endswith(".requires") and path.count(".") == 1 and self.fn.e["pre"]: return self.fn.e["pre"]["fields"]
            m = re.match(r"[^.]+\.([^.]+)\.ensures$", path)
            if m:
                for i, q in enumerate(self.fn.pl):
                    if q[2][1] == m[1] and i < len(self.fn.e["clauses"]) and self.fn.e["clauses"][i] and len(self.fn.e["clauses"][i]["fields"]) > 1: return self.fn.e["clauses"][i]["fields"]
        return None
    def word(self, w, env):
        """returns ('place', root) or ('text', s)"""
        parts = w.split(".")
        if parts[0] in self.arms and len(parts) > 1: return ("text", self.armword(parts))
        if parts[0] in self.steps and parts[0] not in env:
            root, st = self.steps[parts[0]]
            return ("text", self.whole(root + "." + ".".join(self.fields(root, (st if isinstance(st, list) else [st]) + parts[1:]))))
        if parts[0] in self.alias and len(parts) > 1:
            return ("text", ".".join([parts[0]] + self.tuple(parts[1:], self.alias[parts[0]])))
        if parts[0] in env and all(parts):
            root = env[parts[0]]
            fs = self.fields(root, parts[1:])
            if fs is None: return ("place", root)
            return ("text", self.whole(root + "." + ".".join(fs)))
        if w in self.alias: return ("text", "(" + ", ".join(f"{w}.{x}" for x in self.alias[w]) + ")")
        return ("text", w)
    def whole(self, path):
        cl = None if self.raw else self.clauses_of(path)
        return "(" + ", ".join(f"{path}.{x}" for x in cl) + ")" if cl and len(cl) > 1 else path
    def plain(self, root, p):
        """whether the record at p is reached from root by .before alone"""
        q = self.roots.get(root)
        if q is None or p is None: return True
        e = self.fn.e
        ch = self.fn.chain(q)
        if p not in ch: return False
        path = ch[:ch.index(p) + 1]
        return not any(e["arms"][i] for i in path) and not e["typed"][p] and not e["typed"][q]
    def inline(self, h, root):
        """puts what helper h says at the place of root into a let"""
        if (h, root) in self.lets and not self.in_type: return True
        d = self.decls.get(h)
        if d is None or h in self.answers or len(d["defs"]) != 1 or len(self.helper[h]) != 1:
            self.flags.append(f"{h} at another place"); return False
        m = re.match(r"\s*(?:→\s*)?(?:\((\S+) : tie\.[^()]*\)|tie\.[^→]*)\s*(?:→\s*)?([\s\S]*)", d["type"])
        md = re.match(r"(\S+)((?: +(?:\([^()]*\)|[^\s=])+)*) =([\s\S]*)", d["defs"][0])
        if not m or not md: self.flags.append(f"{h} at another place"); return False
        params = md[2].split()
        saved = self.alias; self.alias = {}; saveds = self.steps; self.steps = {}
        was = self.in_type; self.in_type = True
        nodes, tail = parse(m[2]); ty = show(self.seq(nodes, {m[1]: root} if m[1] else {}), tail).strip()
        self.in_type = was
        nodes, tail = parse(md[3]); bd = show(self.seq(nodes, {params[0]: root}), tail).strip()
        self.alias = saved; self.steps = saveds
        if len(params) > 1: bd = "λ " + " ".join(params[1:]) + ". " + bd
        self.unfolded |= set(d["unfolding"].replace("unfolding", " ").split())
        self.inlined.add((h, root))
        if self.in_type:
            self.direct_text = bd
            return True
        if re.match(r"let\b", ty): ty = "(" + ty + ")"
        self.lets[(h, root)] = f"let {h} : {ty} =\n    {bd} in\n    "
        self.inlined.add((h, root))
        self.unfolded |= set(d["unfolding"].replace("unfolding", " ").split())
        return True
    def up(self, root, to):
        k = 0; i = self.roots.get(root)
        while i is not None and i != to:
            i = self.fn.parent[i]; k += 1
        if i is None:
            self.flags.append(f"{root} is not below {self.fn.newname[to] if to is not None else to}")
            return root
        return root + ".before" * k
    def branches(self, scrut, group, env):
        if scrut[0] != "w" or not scrut[2].endswith(".branch"): return None
        parts = scrut[2].split(".")
        if parts[0] not in env: return None
        fs = [x for x in parts[1:-1] if x != "before"]
        if len(fs) != 1: self.flags.append("branch " + scrut[2]); return None
        root = env[parts[0]]; st = norm(fs[0])
        joined = [i for i, q in enumerate(self.fn.pl) if norm(q[2][0]) == st and q[0].startswith("Joined") and not q[0].endswith("unread")]
        if len(joined) != 1: self.flags.append("branch " + scrut[2]); return None
        j = joined[0]; par = self.fn.parent[j]; new = self.fn.pl[j][2][1]
        def run(kind):
            start = [i for i, q in enumerate(self.fn.pl) if q[0].startswith(kind) and self.fn.parent[i] == par and q[2][1] == new]
            if len(start) != 1: return None
            L = [start[0]]
            while True:
                ch = [i for i in range(len(self.fn.pl)) if self.fn.parent[i] == L[-1] and not self.fn.pl[i][0].endswith("unread")]
                if len(ch) > 1:
                    el = [i for i in ch if self.fn.pl[i][0].startswith("Else")]
                    jo = [i for i in ch if self.fn.pl[i][0].startswith("Joined")]
                    ch = jo if len(jo) == 1 else el
                    if len(ch) == 1 and not jo: self.plus[kind] = self.plus.get(kind, "") + "+else-" + self.fn.pl[ch[0]][2][1][3:]
                if len(ch) != 1: break
                L.append(ch[0])
            return L
        self.plus = {}
        runs = {"inl": run("Then"), "inr": run("Else")}
        names = {"inl": "goal.then-" + new[3:] + self.plus.get("Then", ""), "inr": "goal.else-" + new[3:] + self.plus.get("Else", "")}
        nodes = group[3]; out = []; i = 0
        fields = self.joinfields.get(st, [])
        while i < len(nodes):
            n = nodes[i]
            if n[0] == "w" and n[2] in names and i + 2 < len(nodes):
                L = runs[n[2]]; w = nodes[i+1][2]
                k = i + 3; body = []
                while k < len(nodes) and not (nodes[k][0] == "w" and nodes[k][2] == "|"): body.append(nodes[k]); k += 1
                self.arms[w] = (L, fields)
                body = self.seq(body, env)
                del self.arms[w]
                out += [["w", n[1], names[n[2]]], nodes[i+1], nodes[i+2]] + body
                i = k; continue
            out.append(n); i += 1
        return [["w", scrut[1], f"{root}.{new}.branch"], ["g", group[1], "[", out, group[4], group[5]]]
    def armword(self, parts):
        L, fields = self.arms[parts[0]]
        if L is None or len(parts) < 2 or not parts[1].isdigit(): self.flags.append("arm " + ".".join(parts)); return ".".join(parts)
        k = int(parts[1]); rest = [SUBST.get(x, x) for x in parts[2:3]] + parts[3:]
        if k < len(L):
            at = L[k]; ren = dict(map(tuple, self.fn.pl[at][4]))
            if rest:
                rest = [ren.get(rest[0], rest[0])] + rest[1:]
                cl = self.fn.e["clauses"][at] if at < len(self.fn.e["clauses"]) else None
                if rest[0] == "ensures" and cl: rest = ["ensures"] + self.tuple(rest[1:], cl["fields"])
            return ".".join([parts[0], self.fn.pl[at][2][1]] + rest)
        k -= len(L)
        if k < len(fields): return ".".join([parts[0], fields[k] + "-is"] + rest)
        self.flags.append("arm " + ".".join(parts) + f" of {[self.fn.pl[x][2][1] for x in L]} {fields}")
        return ".".join(parts)
    def is_place(self, nodes, env):
        """does the sequence reduce to one place? returns root"""
        if not nodes: return None
        if len(nodes) == 1:
            n = nodes[0]
            if n[0] == "w":
                r = self.word(n[2], env)
                return r[1] if r[0] == "place" else None
            if n[2] == "(":
                r = self.is_place(n[3], env)
                if r is not None and all(f in ("", "before") for f in n[5].split(".")): return r
            return None
        if nodes[0][0] == "w" and nodes[0][2] in self.placefun and len(nodes) == 2:
            return self.is_place(nodes[1:], env)
        return None
    def seq(self, nodes, env):
        env = dict(env)
        out = []
        i = 0
        while i < len(nodes):
            n = nodes[i]
            if n[0] == "w" and n[2] == "let" and i + 2 < len(nodes) and nodes[i+1][0] == "w":
                # find = and in
                j = i + 1; eq = None
                while j < len(nodes) and not (nodes[j][0] == "w" and nodes[j][2] == "in"):
                    if nodes[j][0] == "w" and nodes[j][2] == "=" and eq is None: eq = j
                    j += 1
                if eq is not None and j < len(nodes):
                    name = nodes[i+1][2]
                    rhs = nodes[eq+1:j]
                    r = self.is_place(rhs, env) if eq == i + 2 else None
                    if r is not None:
                        env[name] = r
                        # drop; keep whitespace of let for the next node
                        if j + 1 < len(nodes):
                            nodes[j+1][1] = n[1]
                        i = j + 1
                        continue
                    if eq == i + 2 and len(rhs) == 1 and rhs[0][0] == "w":
                        pr = rhs[0][2].split(".")
                        if pr[0] in env:
                            fs0 = [x for x in pr[1:] if x != "before"]
                            if len(fs0) == 2 and fs0[1] == "given":
                                self.steps[name] = (env[pr[0]], fs0); env.pop(name, None)
                                if j + 1 < len(nodes): nodes[j+1][1] = n[1]
                                i = j + 1
                                continue
                            if len(fs0) == 1 and fs0[0] not in ("args", "requires", "pre", "ranges", "type_inv", "lifetimes", "well_formed"):
                                self.steps[name] = (env[pr[0]], fs0[0]); env.pop(name, None)
                                if j + 1 < len(nodes): nodes[j+1][1] = n[1]
                                i = j + 1
                                continue
                    # a let of something else
                    head = self.seq(nodes[i+1:eq], env) if eq > i + 2 else [nodes[i+1]]
                    self.raw = len(rhs) == 1
                    body = self.seq(rhs, env)
                    self.raw = False
                    env.pop(name, None)
                    cl = self.clauses_of(show(body).strip()) if eq == i + 2 else None
                    if cl: self.alias[name] = cl
                    out += [n] + head + [nodes[eq]] + body + [nodes[j]]
                    i = j + 1
                    continue
            if n[0] == "w" and n[2] == "elim" and i + 2 < len(nodes) and nodes[i+2][0] == "g" and nodes[i+2][2] == "[":
                got = self.branches(nodes[i+1], nodes[i+2], env)
                if got is not None:
                    out += [n] + got; i += 3
                    continue
            if n[0] == "w" and (n[2] == "λ"):
                j = i + 1
                while j < len(nodes) and not (nodes[j][0] == "w" and nodes[j][2].endswith(".")):
                    if nodes[j][0] == "w": env.pop(nodes[j][2], None)
                    j += 1
                if j < len(nodes): env.pop(nodes[j][2][:-1], None)
                out += nodes[i:j+1]; i = j + 1
                continue
            if n[0] == "w" and n[2] in self.placefun and i + 1 < len(nodes):
                r = self.is_place(nodes[i:i+2], env)
                if r is not None:
                    out.append(["w", n[1], r]); i += 2; continue
            if n[0] == "w" and n[2].split(".")[0] in self.helper and "." not in n[2]:
                out.append(["w", n[1], self.rename.get(n[2], n[2])]); i += 1
                for p in self.helper[n[2]]:
                    if i >= len(nodes): break
                    if p is not None:
                        r = self.is_place([nodes[i]], env)
                        if r is None:
                            self.flags.append(f"argument of {n[2]}"); out += self.seq([nodes[i]], env); i += 1; continue
                        if self.roots.get(r) == p: self.direct.add(n[2])
                        else:
                            if not self.plain(r, p) and self.inline(n[2], r):
                                if self.in_type: out[-1][2] = "(" + self.direct_text + ")"
                                i += 1
                                # a call alone in brackets stays as it is
                                break
                        out.append(["w", nodes[i][1], self.up(r, p)])
                    else:
                        out += self.seq([nodes[i]], env)
                    i += 1
                continue
            if n[0] == "w":
                k, s = self.word(n[2], env)
                out.append(["w", n[1], s]); i += 1; continue
            # group
            r = self.is_place(n[3], env) if n[2] == "(" else None
            if r is not None:
                fs = self.fields(r, [f for f in n[5].split(".") if f])
                out.append(["w", n[1], r if fs is None else self.whole(r + "." + ".".join(fs))])
                i += 1; continue
            inner = self.seq(n[3], env)
            out.append(["g", n[1], n[2], inner, n[4], n[5]])
            i += 1
        return out

def split_decls(text):
    """top-level chunks"""
    chunks = []; cur = []
    for line in text.split("\n"):
        if line and not line[0].isspace():
            if cur: chunks.append("\n".join(cur))
            cur = [line]
        else:
            cur.append(line)
    if cur: chunks.append("\n".join(cur))
    return chunks

def convert(text, entry, path, crate, modpath):
    if any("kept" in l[1] for l in entry["loops"]):
        text = re.sub(r"\.(if\d*|loop\d*)\.auto(?![\w-])", r".\1.kept", text)
    fn = Fn(entry); cv = Conv(fn, path)
    chunks = split_decls(text.rstrip("\n"))
    uses = []; comments = []; decls = []
    order = []
    pending = []
    for ch in chunks:
        if ch.startswith("use "):
            uses.append(ch.strip()); continue
        if ch.startswith("--"):
            pending.append(ch.rstrip()); continue
        m = re.match(r"((?:pub |abbrev |unfoldable )*)([^\s(){}.;,:]+) :(?!:)([\s\S]*)", ch)
        if m:
            decls.append({"name": m[2], "mods": m[1], "type": m[3].strip("\n"), "unfolding": "", "defs": [], "comment": pending, "gap": bool(decls)})
            pending = []
            continue
        if ch.startswith("unfolding "):
            decls[-1]["unfolding"] += ch.rstrip() + "\n"; continue
        if decls:
            decls[-1]["defs"].append(ch.rstrip()); decls[-1]["late"] = pending; 
            if pending: comments += pending; pending = []
            continue
        raise ValueError("chunk " + ch[:60])
    if not decls: raise ValueError("no declarations")
    spec = decls[-1]
    if "tie.close" not in spec["defs"][0]: raise ValueError("no tie.close")
    decls = decls[:-1]
    # leading comment of the file
    filecomment = []
    lead = re.match(r"((?:--[^\n]*\n)*)", text)[1].rstrip()
    for d in decls + [spec]:
        d["comment"] = [c for c in d["comment"] if c not in lead.split("\n")]
    # spec args
    nodes, _ = parse(spec["defs"][0].split("=", 1)[1])
    # find group beginning with tie.spec
    def find(ns):
        for n in ns:
            if n[0] == "g":
                if n[3] and n[3][0][0] == "w" and n[3][0][2] == "tie.spec": return n[3]
                r = find(n[3])
                if r: return r
    args = find(nodes)
    if args is None: raise ValueError("no tie.spec")
    args = args[1:]
    names = {d["name"]: d for d in decls}
    inv = [d for d in decls if re.match(r"\s*tie\.(invariant|decreases)", d["type"])]
    invnames = {d["name"] for d in inv}
    while args and args[0][0] == "w" and args[0][2] in invnames: args = args[1:]
    needs = entry["needs"]; at = entry["asked_at"]
    # old name of each named answer
    needof = {}
    for d in decls:
        m = re.match(r"\s*tie\.Need-(\S+)", d["type"])
        if m: needof[d["name"]] = m[1]
    def nn(x):
        x = re.sub(r"^(overflow|nonzero)[-_]", "", x)
        return re.sub(r"_lem(?=\d|$|_)", "", x.replace("-", "_"))
    oldneeds = [nn(n[0]) for n in needs]
    # align
    pairs = {}
    if len(args) == len(needs):
        for i, a in enumerate(args): pairs[i] = a
        for i, a in pairs.items():
            if a[0] == "w" and a[2] in needof and nn(needof[a[2]]) != oldneeds[i]:
                cv.flags.append(f"need {i} is {oldneeds[i]}, the answer says {needof[a[2]]}")
    else:
        cv.flags.append(f"{len(args)} arguments, {len(needs)} needs: {[n[0] for n in needs]}")
        # by anchors
        pos = []
        last = -1
        for a in args:
            j = None
            if a[0] == "w" and a[2] in needof and nn(needof[a[2]]) in oldneeds:
                j = oldneeds.index(nn(needof[a[2]]))
            pos.append(j)
        # fill between anchors where counts agree
        i = 0; n = len(args)
        anchors = [(-1, -1)] + [(i, p) for i, p in enumerate(pos) if p is not None] + [(n, len(needs))]
        for (i0, p0), (i1, p1) in zip(anchors, anchors[1:]):
            if i0 >= 0: pairs[p0] = args[i0]
            if i1 - i0 == p1 - p0:
                for k in range(1, i1 - i0): pairs[p0 + k] = args[i0 + k]
            else:
                for k in range(1, i1 - i0):
                    if "search rules" not in show([args[i0 + k]]): cv.flags.append("unplaced: " + show([args[i0 + k]]).strip())
    # place functions and helpers
    def placeof(t):
        m = re.match(r"\s*\(?(?:c : |\w+ : )?tie\.([^\s()]+)", t)
        return m[1] if m else None
    for d in decls:
        if d["name"] in invnames or d["name"] in needof: continue
        t = d["type"].strip()
        m = re.match(r"tie\.(\S+)(?: +[^\s→]+)* → tie\.(\S+)(?: +[^\s→]+)*$", " ".join(t.split()))
        if m:
            cv.placefun.add(d["name"]); continue
        # helper: leading params
        ps = []
        rest = " ".join(t.split())
        while True:
            m = re.match(r"(?:\((\S+) : tie\.(\S+?)((?: [^()→]+)*)\)|tie\.(\S+?)((?: [^()→]+?)*)(?= *→)) *(?:→ *)?", rest)
            if not m: 
                break
            p = m[2] or m[4]
            i = fn.place(p)
            if i is None: cv.flags.append(f"no place {p}")
            ps.append(i); rest = rest[m.end():]
        if ps: cv.helper[d["name"]] = ps
    taken = {}
    for i, a in pairs.items():
        if a[0] == "w" and a[2] in names: taken.setdefault(a[2], []).append(i)
    for nm, ii in taken.items():
        cv.helper.setdefault(nm, [fn.bynew.get(at[ii[0]][1])])
        if nm in needof or True: cv.rename[nm] = needs[ii[0]][1] if nm in needof else nm
    for nm in needof:
        if nm not in taken:
            j = oldneeds.index(nn(needof[nm])) if nn(needof[nm]) in oldneeds else None
            if j is None: cv.flags.append(f"need {needof[nm]} is gone"); continue
            taken[nm] = [j]; cv.helper[nm] = [fn.bynew.get(at[j][1])]; cv.rename[nm] = needs[j][1]
    loopvars = [v for l in entry["loops"] for v in l[1]]
    for m in re.finditer(r"\.(if\d*|match\d*)\.([a-z]\w*)", text):
        if m[2] not in ("branch", "true", "false", "taken", "left", "auto", "rest", "fact") and not m[2].startswith("keys"):
            l = cv.joinfields.setdefault(norm(m[1]), [])
            if m[2] not in l: l.append(m[2])
    chg = [v for l, ch in zip(entry["loops"], entry["changed"]) for v, c in zip(l[1], ch) if c]
    for q in entry["places"]:
        if q[0].startswith("Joined") and not cv.joinfields.get(norm(q[2][0])) and "kept" in chg: cv.joinfields[norm(q[2][0])] = ["kept"]
    for l in cv.joinfields.values(): l.sort(key=lambda v: loopvars.index(v) if v in loopvars else 99)
    used_places = set()
    cv.decls = names; cv.answers = set(needof)
    def unfolding(d):
        u = (d["unfolding"].replace("unfolding", " ").split() if d else [])
        u += sorted(cv.unfolded - set(u))
        return "unfolding " + " ".join(u) + "\n" if u else ""
    def strip_types(t):
        for nm in sorted(invnames, key=len, reverse=True):
            t = re.sub(r"(tie\.[^\s()]+(?: [^\s()→]+)*?) " + re.escape(nm) + r"(?![\w-])", r"\1", t)
        return t
    def newtype(t, root=None):
        def rep(m):
            i = fn.place(m[1])
            if i is None: return "goal.?" + m[1]
            used_places.add(fn.newname[i]); return fn.newname[i]
        for _ in range(4): t = strip_types(t)
        return re.sub(r"tie\.([^\s()]+)", rep, t)
    def typed(m):
        for i, q in enumerate(fn.pl):
            if q[2][1] == m[2] and fn.e["typed"][i]:
                for nm, st in fn.e["typed"][i]:
                    if norm(st) == norm(q[0][len("After-"):]): return f"{m[1]}.type_inv.{nm}"
        return m[0]
    def body(d, roots, textdef):
        """one defining equation: name params = body"""
        cv.roots = roots; cv.alias = {}; cv.steps = {}; cv.lets = {}; cv.unfolded = set()
        nodes, tail = parse(textdef)
        b = show(cv.seq(nodes, {r: r for r in roots}), tail)
        if cv.lets: b = "\n    " + "".join(cv.lets.values()) + b.strip()
        b = re.sub(r"(?<=[\s(])\(([\w'-]+)\)(?=[\s.)])", r"\1", b)
        b = re.sub(r"\b(?:not-true|not-false) _ ([^\s()]+\.(?:true|false))-raw(?![\w-])", r"\1", b)
        b = re.sub(r"\(([^\s()]+\.(?:true|false))\)", r"\1", b)
        b = re.sub(r"(c)\.((?:shared|mut)_slice_known[\w-]*)\.given(?![\w-])", typed, b)
        return b
    answers = []
    for d in decls:
        if d["name"] in invnames or d["name"] in cv.placefun: continue
        comment = "".join(c + "\n" for c in d["comment"])
        if d["name"] in needof:
            for i in taken.get(d["name"], []):
                new = needs[i][1]
                root = fn.bynew.get(at[i][1])
                defs = []
                for t in d["defs"]:
                    m = re.match(r"\S+((?: +[^\s=]+)*) =([\s\S]*)", t)
                    params = m[1].split()
                    c = params[0] if params else None
                    if c and m[2].strip() != "":
                        b = body(d, {c: root}, m[2])
                    else: b = m[2]
                    ps = [p for p in params if p != "κs"]
                    if ps and len(ps) == 1 and re.fullmatch(r"\s*search rules\s*", b) and not d["unfolding"]: b = None
                    if b is not None: defs.append(f"{new} {' '.join(ps)} ={b}".replace("  =", " ="))
                if defs:
                    answers.append((i, comment + f"pub {new} : goal.{new}\n{unfolding(d)}" + "\n".join(defs)))
        else:
            ps = cv.helper.get(d["name"], [])
            t = d["type"]
            # names of the place params in the type
            roots = {}
            m = re.findall(r"\((\S+) : tie\.(\S+?)[\s)]", t)
            for nm, p in m: roots[nm] = fn.place(p)
            # rewrite the part after the params
            tt = t
            cv.roots = roots
            head = ""
            mm = re.match(r"((?:\s*\(\S+ : tie\.[^()]*\))+)([\s\S]*)", tt)
            if mm:
                cv.alias = {}; cv.in_type = True
                nodes, tail = parse(mm[2])
                tt = newtype(mm[1]) + newtype(show(cv.seq(nodes, {r: r for r in roots}), tail))
            else: tt = newtype(tt)
            cv.in_type = False
            defs = []
            for x in d["defs"]:
                m = re.match(r"(\S+)((?: +(?:\([^()]*\)|[^\s=])+)*) =([\s\S]*)", x)
                if not m: raise ValueError("definition " + x[:80])
                params = m[2].split()
                r = {}
                for p, pl in zip(params, ps): r[p] = pl
                b = body(d, r, m[3]) if r else show(cv_seq_plain(cv, m[3]))
                defs.append(f"{m[1]}{m[2]} ={b}")
            answers.append((-1, comment + f"{d['mods']}{d['name']} :{tt}\n{unfolding(d)}" + "\n".join(defs)))
    for i in sorted(pairs):
        a = pairs[i]
        if a[0] == "w":
            if a[2] in needof: continue
            if a[2] in names:
                new = needs[i][1]
                answers.append((i, f"pub {new} : goal.{new}\n{new} c = {a[2]} c"))
                continue
            cv.flags.append("argument " + a[2]); continue
        s = show(a[3], "")
        m = re.match(r"\s*λ ([^.]*)\.([\s\S]*)", s)
        if not m:
            cv.flags.append("argument " + s[:60]); continue
        params = [p for p in m[1].split()]
        b = m[2].strip()
        if b == "search rules": continue
        root = fn.bynew.get(at[i][1])
        b = body(None, {params[0]: root}, " " + m[2].strip())
        new = needs[i][1]
        line = f"{new} {' '.join(q for q in params if q != 'κs')} ={b}"
        answers.append((i, f"pub {new} : goal.{new}\n{unfolding(None)}{line}"))
    answers = [(i, as_record(t, needs, i, entry, ENSURES.get(path.split(".")[-1]))) for i, t in answers]
    out_inv = []
    loops = {norm(l[0][0]): l for l in entry["loops"]}
    li = list(entry["loops"])
    for d in inv:
        m = re.match(r"\s*tie\.(invariant|decreases)-(\S+)", d["type"])
        kind, lp = m[1], m[2]
        entryl = loops.get(norm(lp)) 
        if entryl is None:
            cv.flags.append(f"no loop {lp}"); continue
        k = li.index(entryl)
        vars_ = entryl[1]; changed = entry["changed"][k]
        new = f"{kind}-{entryl[0][1]}"
        m = re.match(r"\S+((?: +[^\s=]+)*) =([\s\S]*)", d["defs"][0])
        params = m[1].split(); b = m[2]
        ini = [p for p in params if p.endswith("₀")]
        sub = {}
        chg = [v for v, c in zip(vars_, changed) if c]
        bypos = len(params) == len(vars_) + len(chg)
        if bypos:
            seqv = [("l.initial." + v if c else "l." + v) for v, c in zip(vars_, changed)] + ["l." + v for v in chg]
            for p, q in zip(params, seqv): sub[p] = q
        else:
            cv.flags.append(f"loop {lp}: parameters {params}, variables {vars_} {changed}")
            for p in params:
                base = p.rstrip("₀")
                sub[p] = ("l.initial." + base) if p.endswith("₀") else "l." + base
        def rep(nodes):
            o = []
            for q, n in enumerate(nodes):
                if n[0] == "w":
                    parts = n[2].split(".")
                    field = q + 1 < len(nodes) and nodes[q + 1][0] == "w" and nodes[q + 1][2] == "="
                    if parts[0] in sub and not field: o.append(["w", n[1], ".".join([sub[parts[0]]] + parts[1:])])
                    else: o.append(n)
                else: o.append(["g", n[1], n[2], rep(n[3]), n[4], n[5]])
            return o
        ns, tail = parse(b)
        if any(n[0] == "w" and n[2] in ("λ",) for n in ns): cv.flags.append(f"a λ in {new}: see that it binds no parameter's name")
        out_inv.append("".join(c + "\n" for c in d["comment"]) + f"abbrev pub {new} : goal.{new}\n{d['unfolding']}{new} l ={show(rep(ns), tail)}")
    def used(nm): return nm in cv.direct or any(re.search(r"(?<![\w'-])" + re.escape(nm) + r"(?![\w'-])", t.split("\n", 1)[1] if t.startswith(("pub ", "abbrev ", nm)) else t) for i, t in answers if not re.match(r"(?:--[^\n]*\n)*(?:abbrev |pub )*" + re.escape(nm) + " :", t)) and nm not in {h for h, _ in cv.inlined}
    answers = [(i, t) for i, t in answers if i >= 0 or used(re.match(r"(?:--[^\n]*\n)*(?:abbrev |pub |unfoldable )*(\S+) :", t)[1])]
    keep = [u for u in uses if not re.search(r"\.(Statement\.\{statement\}|Tie as tie)$", u)]
    res = {}
    # helpers first, in their order, then the answers by need
    hs = [a for a in answers if a[0] < 0]; ans = sorted([a for a in answers if a[0] >= 0], key=lambda a: a[0])
    # helpers that cite answers stand after them: keep the source's order where one does
    names_ans = {cv.rename[n] for n in taken if n in cv.rename}
    if answers:
        seqd = hs + ans
        if any(any(re.search(r"(?<![\w-])" + re.escape(n) + r"(?![\w-])", h[1].split("\n", 1)[1] if "\n" in h[1] else "") for n in names_ans) for h in hs):
            seqd = answers
        def nm(t): return re.match(r"(?:--[^\n]*\n)*(?:abbrev |pub |unfoldable )*(\S+) :", t)[1]
        items = [(nm(a[1]), a[1]) for a in seqd]
        allnames = {n for n, _ in items}
        deps = {n: {w for w in re.findall(r"[^\s(){}.;,@\"«»:`|\[\]]+", t.split("\n", 1)[1] if "\n" in t else "")} & allnames - {n} for n, t in items}
        done = []; seen = set(); byname = dict(items)
        def visit(n, stack=()):
            if n in seen or n in stack: return
            for m in [x for x, _ in items if x in deps[n]]: visit(m, stack + (n,))
            seen.add(n); done.append(byname[n])
        for n, _ in items: visit(n)
        text_a = "\n\n".join(done)
        res["Answers.antt"] = (lead + "\n" if lead else "") + "\n".join(keep) + f"\nuse {modpath}.Goals as goal\n" + (f"use {modpath}.Goals.{{{', '.join(sorted(used_places))}}}\n" if used_places else "") + "\n" + text_a + "\n"
    if out_inv:
        res["Invariants.antt"] = ("" if answers else (lead + "\n" if lead else "")) + "\n".join(keep) + f"\nuse {modpath}.Given as goal\n\n" + "\n\n".join(out_inv) + "\n"
    return res, cv.flags

ENSURES = {}

def as_record(text, needs, i, entry, own):
    """the last tuple of an answer as a record with the clauses' names"""
    if i < 0: return text
    name = needs[i][1]
    names = None
    for k, v in entry["asked"].items():
        if k == re.sub(r"-\d+$", "", needs[i][0]): names = v
    if names is None and needs[i][0].endswith("requires") is False and re.match(r"returns", needs[i][1]): names = own
    if not names or len(names) < 2: return text
    nodes, tail = parse(text)
    # the start of the final expression
    k = None
    for j, n in enumerate(nodes):
        if n[0] == "w" and n[2] in ("in", "="): 
            if n[2] == "in" or k is None or nodes[k - 1][2] == "=": k = j + 1
    if k is None: return text
    # a definition "x = e" inside a let is not the final one: the last "in" is; with no let the "=" after the name is
    ins = [j for j, n in enumerate(nodes) if n[0] == "w" and n[2] == "in"]
    eqs = [j for j, n in enumerate(nodes) if n[0] == "w" and n[2] == "="]
    k = (ins[-1] if ins else eqs[0]) + 1
    final = nodes[k:]
    if not final or any(n[0] == "w" and n[2] in ("λ", "elim", "record", "search", "omega", "absurd") for n in final[:1]): return text
    def spread(ns, left):
        if left == 1: return [show(ns).strip()]
        if len(ns) == 1 and ns[0][0] == "g" and ns[0][2] == "(" and not ns[0][5]:
            parts = [[]]
            for n in ns[0][3]:
                if n[0] == "w" and n[2] == ",": parts.append([])
                else: parts[-1].append(n)
            if len(parts) > 1 and not parts[-1]: parts.pop()
            if len(parts) == 1: return spread(parts[0], left)
            if len(parts) <= left:
                return [show(q).strip() for q in parts[:-1]] + spread(parts[-1], left - len(parts) + 1)
        t = show(ns).strip()
        if not (len(ns) == 1): t = "(" + t + ")"
        return [t + ".1" * j + (".0" if j < left - 1 else "") for j in range(left)]
    ws = final[0][1]
    if len(final) > 1:
        if final[-1][0] == "g" and final[-1][2] == "(" and not final[-1][5] and any(n[0] == "w" and n[2] == "," for n in final[-1][3]) and final[0][2] in ("rw", "simp"):
            vals = spread(final[-1:], len(names))
            return show(nodes[:-1]) + final[-1][1] + "(record { " + "; ".join(f"{a} = {b}" for a, b in zip(names, vals)) + " })" + tail
        if final[0][2] in ("rw", "simp", "cc"): return text
    vals = spread(final, len(names))
    return show(nodes[:k]) + (ws or " ") + "record { " + "; ".join(f"{a} = {b}" for a, b in zip(names, vals)) + " }" + tail

def cv_seq_plain(cv, text):
    nodes, tail = parse(text)
    cv.roots = {}
    return cv.seq(nodes, {}) + ([["w", tail, ""]] if tail else [])

def prune(text):
    """drops imports that the text does not use"""
    lines = text.split("\n")
    head = [l for l in lines if l.startswith("use ")]
    rest = "\n".join(l for l in lines if not l.startswith("use "))
    words = set(re.findall(r"[^\s(){}.;,@\"«»:`|\[\]]+", rest))
    out = []
    for l in lines:
        m = re.match(r"use (\S+)\.\{(.*)\}$", l)
        if m:
            ns = [n.strip() for n in m[2].split(",")]
            used = []
            for n in ns:
                sym = n.strip("◌")
                if n == "[]":
                    if "[]" in rest: used.append(n)
                elif n.startswith("◌") or n.endswith("◌"):
                    if sym in words or any(sym in w for w in words): used.append(n)
                elif n.split(" as ")[-1] in words: used.append(n)
            if used: out.append(f"use {m[1]}.{{{', '.join(used)}}}")
            continue
        out.append(l)
    return "\n".join(out)

def main(argv):
    names = json.load(open(argv[0])); crate = argv[1]; only = argv[2:]
    for f in os.listdir(os.path.join(crate, "src")):
        t = open(os.path.join(crate, "src", f)).read()
        for m in re.finditer(r"\bfn (\w+)\b", t):
            seg = t[m.end():]
            seg = seg[:seg.find("\n{")] if "\n{" in seg else seg
            nm = re.findall(r"^\s+ensures (\w+) \{", seg, re.M)
            if len(nm) > 1: ENSURES[m[1]] = nm
    cname = os.path.basename(os.path.abspath(crate))
    for folder, dirs, fs in os.walk(os.path.join(crate, "proofs")):
        if "Proof.antt" not in fs: continue
        rel = os.path.relpath(folder, os.path.join(crate, "proofs")).replace("/", ".")
        f = os.path.basename(folder)
        if only and f not in only: continue
        key = f"Rattle-{cname}-proofs.{rel}.Lts"
        if key not in names:
            key2 = [k for k in names if k.replace("-", ".") == f"Rattle.{cname}.proofs.{rel}.Lts"]
            if not key2: print(f"{rel}: no names"); continue
            key = key2[0]
        p = os.path.join(folder, "Proof.antt")
        text = open(p).read()
        try:
            res, flags = convert(text, names[key], rel, crate, f"Rattle.{cname}.proofs.{rel}")
        except Exception as e:
            print(f"{rel}: left, {type(e).__name__} {e}")
            if os.environ.get("TRACE"): raise
            continue
        for fl in flags: print(f"{rel}: {fl}")
        for k, v in res.items():
            open(os.path.join(folder, k), "w").write(prune(v))
        os.remove(p)
        print(f"{rel}: {', '.join(res) or 'nothing needed'}")

main(sys.argv[1:])
