#!/usr/bin/env python3
"""Turns a crate's proofs of the older form (Proof.antt over Tie) into Invariants.antt and Answers.antt.

usage: tools/convert.py CRATE NAMES.json        at the top of the repository, after port.py and respell.py, lower crates proved

NAMES.json is what `rt check --generated DIR --old-names` writes for the crate. A goal, a loop and a step of the code get today's names; a
path of `before`s is looked up in the chain of places of its goal; helpers over a place of the code are put into the answers that call
them, as lets; answers that only search are left out. It prints what it could not place ('no step', 'no goal', LEFT in the file), and leaves
walks of the machine's code (without Tie) as they are. What joins two branches (`⊎_elim .. branch`) is turned by hand: the check prints the
`elim` to write.
"""
import glob, json, os, re, sys

def canon(s):
    return re.sub(r"_lem$", "", s).replace("-", "_")

def need_canon(s):
    return canon(re.sub(r"^slice[-_]bounds[-_]", "part-", re.sub(r"^overflow-", "", s)))

class Fn:
    def __init__(self, key, d):
        m = re.match(r"Rattle-(\w+)-proofs\.(.*)\.Lts(?:-(.*))?$", key)
        self.crate, path, self.cycle = m.groups()
        self.key = key
        self.parts = path.split(".")
        self.d = d
        self.needs = {}
        for i, (o, n) in enumerate(d["needs"]):
            self.needs.setdefault(need_canon(o), (n, i))
        self.by_place = {p[0]: i for i, p in enumerate(d["places"])}

    def chain(self, i):
        """The places from that of need i up to the start."""
        at = self.d["asked_at"][i][0]
        out = []
        while at is not None:
            out.append(self.by_place[at])
            at = self.d["places"][self.by_place[at]][1]
        return out

    def chain_of(self, place):
        out, at = [], place
        while at is not None:
            out.append(self.by_place[at])
            at = self.d["places"][self.by_place[at]][1]
        return out

    def path(self, chain, k, name, rest, log):
        """What c, k times before, then name and rest, is now."""
        if name == "args":
            r = ".args" + "".join("." + x for x in rest)
            for o, n in self.d["args"]:
                o, n = o.replace(" ", ""), n.replace(" ", "")
                if r == o or r.startswith(o + "."):
                    r = n + r[len(o):]
            return "c" + r
        if name == "requires" and self.cycle and rest and rest[0] in "01":
            return "c." + ".".join(["requires"] + rest[1:]) if rest[0] == "1" else "c.decreases" + "".join("." + x for x in rest[1:])
        if canon(name) == "well_formed":
            return "c." + ".".join(["well_formed"] + rest)
        if name in ("requires", "ranges", "lifetimes", "type_inv"):
            return "c." + ".".join([name] + rest)
        near = sorted((i for i in range(len(chain)) if canon(self.d["places"][chain[i]][2][0]) == canon(name)), key=lambda i: (abs(i - k), i < k))
        if near:
            return self.step(chain[near[0]], rest, chain, log)
        log.append(f"no step {name} at {k} of {[self.d['places'][x][2][0] for x in chain]}")
        return "c." + ".".join([name] + rest)

    def step(self, place, rest, chain, log):
        old, new = self.d["places"][place][2]
        callee = self.d["places"][place][3]
        for q in chain:
            a = self.d["arms"][q]
            if a:
                for newf, oldstep, pth in a[2]:
                    if oldstep == old and rest[: len(pth)] == pth and pth:
                        return "c." + ".".join([a[0], newf] + rest[len(pth):])
        for o, nw in self.d["places"][place][4]:
            if rest and rest[0] == o and o != "fact":
                rest = [nw] + rest[1:]
                break
        if rest and rest[0] in ("new", "auto"):
            n, i = 0, 1
            while i < len(rest) and rest[i] == "1":
                n, i = n + 1, i + 1
            if i < len(rest) and rest[i] == "0" and callee in self.d["params"]:
                ps = self.d["params"][callee]
                if n < len(ps):
                    return "c." + ".".join([new, rest[0], ps[n]] + rest[i + 1:])
            log.append(f"{old}.{'.'.join(rest)} of {callee}")
        return "c." + ".".join([new] + rest)

UNF = {}
WORDS = r"[A-Za-z_][\w'₀-₉]*(?:-[\w'₀-₉]+)*"

def turn_paths(text, fn, chain, var, log):
    def sub(m):
        befores = m.group(1).count(".before")
        name = m.group(2)
        rest = [x for x in (m.group(3) or "").split(".") if x]
        return fn.path(chain, befores, name, rest, log)
    rx = re.compile(r"(?<![\w.'-])" + re.escape(var) + r"((?:\.before)*)\.(?!before\b)(" + WORDS + r")((?:\.(?:" + WORDS + r"|\d+))*)")
    return rx.sub(sub, text)

def blocks(text):
    out, cur = [], []
    for line in text.split("\n"):
        if line.strip() == "" and cur and not any(l.strip() == "" for l in cur[-1:]):
            out.append("\n".join(cur)); cur = []
        elif line.strip() != "":
            cur.append(line)
    if cur:
        out.append("\n".join(cur))
    # an indented block goes with the one before, unless it is in a module
    merged = []
    for b in out:
        if b.startswith(" ") and merged and not merged[-1].startswith("module _ (t"):
            merged[-1] += "\n\n" + b
        else:
            merged.append(b)
    return merged

def dedent_module(text):
    """module _ (t : ℕ) where .. with its body, put at the left."""
    lines, out, inside = text.split("\n"), [], False
    for l in lines:
        if re.match(r"module _ \(t : [^)]*\) where", l):
            inside = True
            continue
        if inside and l and not l.startswith(" "):
            inside = False
        out.append(l[2:] if inside and l.startswith("  ") else l)
    return "\n".join(out)

SKIP_USE = re.compile(r"^use \S*(\.Tie(\.|\b)|\.Statement\b|\.Lts|\.Reads\b|\.Kinds as|PlainCycle|\.proofs\.\S*\.\{statement\}|borrow\.Fn\.Kinds)")

def convert(folder, fns, log):
    """fns: of a cycle several, by name; else one."""
    p = os.path.join(folder, "Proof.antt")
    raw = open(p).read()
    for g in fns.values():
        for o, n in g.d["args"]:
            if o.startswith(".args ") and n.startswith(".args "):
                raw = re.sub(r"\." + re.escape(o[6:].lstrip(".")) + r"(?![\w'-])", "." + n[6:].lstrip("."), raw)
    cyc = os.path.basename(folder).startswith("+")
    text = dedent_module(raw)
    bl = blocks(text)
    header, uses, inv, answers, helpers, ctx_helpers = [], [], [], [], [], {}
    for b in bl:
        if b.startswith("--") or b.startswith("use "):
            for l in b.split("\n"):
                if l.startswith("use "):
                    uses.append(l)
                elif l.startswith("--"):
                    header.append(l)
                else:
                    uses[-1] += "\n" + l
    body = [b for b in bl if not (b.startswith("--") or b.startswith("use "))]
    # comments that stand over a declaration
    for b in bl:
        if b.startswith("--"):
            ls = b.split("\n")
            k = 0
            while k < len(ls) and ls[k].startswith("--"):
                k += 1
            if k < len(ls) and not ls[k].startswith("use "):
                body.append(b)
                for l in ls:
                    if l in header: header.remove(l)
                    if l in uses: uses.remove(l)
    order = [b for b in bl if b in body]
    def which(typ):
        """The function of a declaration's type."""
        if not cyc:
            return next(iter(fns.values()))
        for n, f in fns.items():
            if re.search(r"\b" + re.escape(n.replace("_", "-")) + r"-lts\b", typ) or re.search(r"\b" + re.escape(n) + r"-lts\b", typ):
                return f
        return None
    # goals that have no name of theirs now: those between the same neighbours
    asks = []
    for b in order:
        ls = [l for l in b.split("\n") if not l.startswith("--")]
        t = ls and re.match(r"(?:pub )?[^\s:]+\s*:\s*(?:tie|lts|[\w'-]*-lts)\.Need-([^\s()]+)", ls[0])
        if t:
            f = which(ls[0][ls[0].index(":") + 1:])
            asks.append((f, t.group(1), b))
    lost = {}
    for f in set(a[0] for a in asks if a[0]):
        mine = [(o, b) for g, o, b in asks if g is f]
        at = [f.needs[need_canon(o)][1] if need_canon(o) in f.needs else None for o, b in mine]
        taken = set(x for x in at if x is not None)
        for i, (o, b) in enumerate(mine):
            if at[i] is not None or b.rstrip().endswith("= search rules"):
                continue
            lo = max([x for x in at[:i] if x is not None], default=-1)
            hi = min([x for x in at[i + 1:] if x is not None], default=len(f.d["needs"]))
            free = [x for x in range(lo + 1, hi) if x not in taken]
            kind = need_canon(o).split("_")[0]
            same = [x for x in free if need_canon(f.d["needs"][x][0]).split("_")[0] == kind] or free
            if same:
                at[i] = same[0]
                taken.add(same[0])
                lost[(id(f), o)] = same[0]
                log.append(f"{folder}: {o} taken for {f.d['needs'][same[0]]}")
    for b in order:
        lead = []
        ls = b.split("\n")
        while ls and ls[0].startswith("--"):
            lead.append(ls.pop(0))
        b2 = "\n".join(ls)
        m = re.match(r"(abbrev |unfoldable )?(pub )?([^\s:]+)\s*:\s*(.*)", b2, re.S)
        if not m:
            helpers.append(b); continue
        mark, _, name, rest = m.groups()
        typ = ls[0][ls[0].index(":") + 1:]
        # the loops
        t = re.search(r"(?:tie|lts|-lts)\.(invariant|decreases)-(loop\d*)\s*$", ls[0])
        if t:
            f = which(typ)
            loops = {canon(x[0][0]): (x[0][1], x[1], f.d["changed"][i]) for i, x in enumerate(f.d["loops"])}
            if canon(t.group(2)) not in loops:
                log.append(f"{folder}: no loop {t.group(2)}"); continue
            new, vars_, changed = loops[canon(t.group(2))]
            dm = re.match(re.escape(name) + r"((?:\s+[^\s=]+)*)\s*=\s*(.*)", "\n".join(ls[1:]), re.S)
            args, expr = dm.group(1).split(), dm.group(2)
            want = len(vars_) + sum(changed)
            if len(args) > want:
                args = [x for x in args if x in vars_ or not re.fullmatch(r"t\d+", x)]
            if len(args) != want:
                log.append(f"{folder}: {name} has {len(args)} of {want} arguments: {args} {vars_} {changed}")
            subst = {}
            tokens = set(re.findall(r"(?<![\w.'-])[A-Za-z]\w*", expr)) - set(args)
            L = next(x for x in ("l", "now", "live", "here") if x not in tokens)
            for a, v, ch in zip(args, vars_, changed):
                subst[a] = L + ".initial." + v if ch else L + "." + v
            for a, v in zip(args[len(vars_):], [v for v, ch in zip(vars_, changed) if ch]):
                subst[a] = L + "." + v
            subst.pop("_", None)
            if subst:
                rx = re.compile(r"(?<![\w.'₀-₉-])(" + "|".join(sorted(map(re.escape, subst), key=len, reverse=True)) + r")(?![\w'₀-₉]|-\w)")
                binders = set(re.findall(r"λ ([^.]*)\.", expr) and " ".join(re.findall(r"λ ([^.]*)\.", expr)).split())
                for x in binders & set(subst):
                    log.append(f"{folder}: {name} binds {x} again")
                    subst.pop(x)
                expr = rx.sub(lambda mm: subst.get(mm.group(1), mm.group(1)), expr)
            inv.append((f, t.group(1) + "-" + new, (L, expr), lead))
            continue
        if cyc and name.startswith("μ-"):
            f = [x for n, x in fns.items() if canon(n) == canon(name[2:])]
            expr = b2.split("=", 1)[1].strip()
            inv.append((f[0] if f else None, "MEASURE", expr, lead)); continue
        if re.search(r": \S*lts\.Claims", ls[0]) or cyc and re.search(r": (ℕ → In |ℕ → \S*-lts\.Claims|In )", ls[0]):
            continue
        if re.match(r"(abbrev )?(pub )?\S*[-_]spec$", name) or name.endswith("-spec") or name.endswith("_spec"):
            continue
        t = re.match(r"\s*(?:tie|lts|[\w'-]*-lts)\.Need-([^\s()]+)", typ)
        if t:
            f = which(typ)
            k = need_canon(t.group(1))
            if f is not None and k not in f.needs and (id(f), t.group(1)) in lost:
                i = lost[(id(f), t.group(1))]
                f.needs[k] = (f.d["needs"][i][1], i)
            if f is None or k not in f.needs:
                if b.rstrip().endswith("= search rules"):
                    continue
                log.append(f"{folder}: no goal {t.group(1)}"); answers.append((None, name, b, lead)); continue
            new, i = f.needs[k]
            unf = [l for l in ls[1:] if l.startswith("unfolding ")]
            rest_ls = [l for l in ls[1:] if not l.startswith("unfolding ")]
            dm = re.match(re.escape(name) + r"((?:\s+[^\s=]+)*)\s*=\s*(.*)", "\n".join(rest_ls), re.S)
            args, expr = dm.group(1).split(), dm.group(2)
            answers.append((f, new, (i, args, expr, unf), lead))
            continue
        t = re.match(r"\s*\((c|w) : (?:tie|lts|[\w'-]*-lts)\.([A-Za-z][\w'-]*)[^)]*\)\s*(→)?\s*(.*)", typ)
        if t and re.search(r"(tie|lts)\.", typ):
            full = "\n".join(ls)
            sig, defn = full.split("\n" + name, 1)
            sig = sig[sig.index(":") + 1:].strip()
            um = re.search(r"\nunfolding ([^\n]*)", sig)
            UNF[name] = um.group(1).split() if um else []
            sig = re.sub(r"\nunfolding [^\n]*", "", sig)
            depth = 0
            for z, ch in enumerate(sig):
                depth += (ch == "(") - (ch == ")")
                if depth == 0:
                    break
            sig = re.sub(r"^\s*→\s*", "", sig[z + 1:])
            dm = re.match(r"((?:\s+(?:\{[^}]*\}|[^\s=]+))*)\s*=\s*(.*)", defn, re.S)
            f = which(typ)
            place = next((q for q in (f.by_place if f else {}) if canon(q) == canon(t.group(2))), None)
            ctx_helpers[name] = (t.group(1), sig, [t.group(1)] + dm.group(1).split()[1:], dm.group(2), place)
            continue
        helpers.append(b)
    # write
    uses2 = [u for u in uses if not SKIP_USE.match(u)]
    mod = ".".join(["Rattle", next(iter(fns.values())).crate, "proofs"] + next(iter(fns.values())).parts)
    head = "\n".join(header)
    multi = len(fns) > 1
    if inv:
        t = (head + "\n" if head else "") + "\n".join(uses2 + [f"use {mod}.Given as goal"]) + "\n"
        for f, n, e, lead in inv:
            if n == "MEASURE":
                fname = f.cycle
                def am(m):
                    k = m.group(1).count(".1")
                    ps = None
                    for q, v in f.d["params"].items():
                        if q.split("::")[-1] == fname: ps = v
                    if ps is None:
                        for g in fns.values():
                            for q, v in g.d["params"].items():
                                if q.split("::")[-1] == fname: ps = v
                    if ps is None or k >= len(ps):
                        log.append(f"{folder}: no parameters of {fname}"); return m.group(0)
                    return "l." + ps[k]
                e2 = re.sub(r"(?<![\w.])a((?:\.1)*)\.0", am, e)
                t += f"\nabbrev pub decreases-{fname} : goal.decreases-{fname}\ndecreases-{fname} l = {e2}\n"
            else:
                nm = re.sub(r"^(invariant|decreases)-", lambda m: m.group(0) + f.d["stem"], n)
                t += "\n" + "".join(l + "\n" for l in lead) + f"abbrev pub {nm} : goal.{nm}\n{nm} {e[0]} = {e[1]}\n"
        open(os.path.join(folder, "Invariants.antt"), "w").write(t)
    ans = []
    for f, n, x, lead in answers:
        if f is None:
            if x.rstrip().endswith("= search rules"):
                continue
            ans.append("-- LEFT\n" + "\n".join("-- " + l for l in x.split("\n"))); continue
        i, args, expr, unf = x
        if expr.strip() == "search rules" and not unf:
            continue
        var = args[0] if args else "c"
        expr = given_lets(expr)
        if cyc:
            expr = requires_lets(expr)
        extra = [x for x in args[1:] if x != "κs"]
        chain = f.chain(i)
        lg = []
        more = []
        lets = inline(expr, f, chain, var, ctx_helpers, lg)
        e = turn_paths(expr, f, chain, var, lg) if var != "_" else expr
        e = drop_ctx(e, ctx_helpers, var)
        for h in ctx_helpers:
            e = re.sub(r"\(" + re.escape(h) + r"\)", h, e)
        for l in lg:
            log.append(f"{folder}: {n}: {l}")
        a = " ".join((["t"] if cyc else []) + ["c"] + extra)
        n = f.d["stem"] + n
        e = re.sub(r"\(?\bnot-(true|false) (?:_|[\w.'-]+|\([^()]*\)) (c\.[\w.-]*)-raw\b(\)?)", lambda m: m.group(2) if not (m.group(0).startswith("(") and m.group(3)) and not m.group(0).startswith("(") and not m.group(3) else (m.group(2) if m.group(0).startswith("(") and m.group(3) else m.group(0)), e)
        for h in ctx_helpers:
            if any(l.startswith(f"let {h} :") for l in lets):
                more += [u for u in UNF.get(h, []) if u not in more]
        if more:
            have = " ".join(unf).replace("unfolding ", "").split()
            unf = ["unfolding " + " ".join(have + [u for u in more if u not in have])]
        if re.search(r"(?<![\w.'-])κs(?![\w'-])", e):
            log.append(f"{folder}: {n} names κs")
        ans.append("".join(l + "\n" for l in lead) + f"pub {n} : goal.{n}\n" + "".join(u + "\n" for u in unf) + f"{n} {a} =" + ("".join("\n    " + l for l in lets) + "\n    " + e if lets else (" " + e if not e.startswith("\n") else e)) + "\n")
    if ans or helpers:
        t = (head + "\n" if head else "") + "\n".join(uses2 + [f"use {mod}.Goals as goal"]) + "\n\n"
        t += "\n".join(h + "\n" for h in helpers) + ("\n" if helpers else "") + "\n".join(ans)
        open(os.path.join(folder, "Answers.antt"), "w").write(t)
    os.remove(p)

def requires_lets(expr):
    while True:
        m = re.search(r"let (\w+) = (c(?:\.before)*\.requires) in\s*", expr)
        if not m:
            return expr
        rest = re.sub(r"(?<![\w.'-])" + m.group(1) + r"(?![\w'-])", m.group(2), expr[m.end():])
        expr = expr[:m.start()] + rest

def given_lets(expr):
    """What a let names of an arm or of an earlier place, written out."""
    while True:
        m = re.search(r"let (\w+) = (c(?:\.before)+) in\s*", expr)
        if not m:
            break
        rest = re.sub(r"(?<![\w.'-])" + m.group(1) + r"(?![\w'-])", m.group(2), expr[m.end():])
        expr = expr[:m.start()] + rest
    while True:
        m = re.search(r"let (\w+) = (\w+(?:\.before)*\.[\w-]+\.given) in\s*", expr)
        if not m:
            return expr
        n, path = m.groups()
        rest = expr[m.end():]
        rest = re.sub(r"(?<![\w.'-])" + n + r"\.(?=\d)", path + ".", rest)
        if re.search(r"(?<![\w.'-])" + n + r"(?![\w'-])", rest):
            return expr
        expr = expr[:m.start()] + rest

def ctx_uses(expr, helpers, var):
    """(helper, befores) pairs that the text calls."""
    out = []
    for h in helpers:
        for m in re.finditer(r"(?<![\w.'-])" + re.escape(h) + r" \(?" + re.escape(var) + r"((?:\.before)*)\)?(?![\w.'-])", expr):
            out.append((h, m.group(1).count(".before")))
    return sorted(set(out))

def local(h, k):
    return h + ("" if k == 0 else f"_{k}")

def implicits(sig):
    """The names of a type's leading implicit binders."""
    out, rest = [], sig.strip()
    while rest.startswith("{"):
        end = rest.index("}")
        out += rest[1:end].split(":")[0].split()
        rest = rest[end + 1:].strip()
    return out

def paren(sig, imp):
    rest, out = sig.strip(), ""
    while rest.startswith("{"):
        end = rest.index("}")
        out += "(" + rest[1:end] + ") "
        rest = rest[end + 1:].strip()
    return out + rest

def drop_ctx(e, helpers, var):
    for h in helpers:
        e = re.sub(r"(?<![\w.'-])" + re.escape(h) + r" (\(" + re.escape(var) + r"(?:\.before)*\)|" + re.escape(var) + r"(?:\.before)*)(?![\w.'-])", lambda m: h + " _" * len(implicits(helpers[h][1])), e)
    return e

def inline(expr, f, chain, var, helpers, log, depth=0):
    lets, seen = [], set()
    def visit(e, base, v):
        for h, k in ctx_uses(e, helpers, v):
            hv, sig, args, body, place = helpers[h]
            at = base + k
            visit(sig, at, hv)
            visit(body, at, hv)
            if h in seen: continue
            seen.add(h)
            sub = f.chain_of(place) if place else chain[at:]
            lg = []
            s2 = drop_ctx(turn_paths(sig, f, sub, hv, lg), helpers, hv)
            b2 = drop_ctx(turn_paths(requires_lets(given_lets(body)) if f.cycle else given_lets(body), f, sub, hv, lg), helpers, hv)
            log.extend(lg)
            s2 = " ".join(s2.split("\n")) if "\n" in s2 else s2
            imp = implicits(sig)
            s2 = paren(s2, imp)
            named = dict(re.findall(r"\{(\w+) = (\w+)\}", " ".join(args)))
            plain = " ".join(args[1:])
            for i, x in enumerate(re.findall(r"\{(\w+)\}", plain)):
                if i < len(imp):
                    named.setdefault(imp[i], x)
            plain = re.sub(r"\{\w+( = \w+)?\}", "", plain).split()
            extra = [named.get(x, x) for x in imp] + plain
            b2 = given_lets(b2)
            if f.cycle:
                b2 = requires_lets(b2)
            if extra:
                b2 = "λ " + " ".join(extra) + ". " + b2
            lets.append(f"let {h} : {' '.join(s2.split())} = {' '.join(b2.split())} in")
    visit(expr, 0, var)
    return lets

def main():
    crate, names = sys.argv[1:3]
    j = json.load(open(names))
    log = []
    groups = {}
    for k, d in j.items():
        if not re.match(r"Rattle-\w+-proofs\..*\.Lts", k):
            continue
        f = Fn(k, d)
        groups.setdefault(os.path.join("crates", crate, "proofs", *f.parts), {})[f.cycle or f.parts[-1]] = f
    done = set()
    for folder, fns in sorted(groups.items()):
        if os.path.exists(os.path.join(folder, "Proof.antt")):
            txt = open(os.path.join(folder, "Proof.antt")).read()
            if ".Tie" not in txt and "Lts" not in txt:
                log.append(f"{folder}: by hand, left as it is"); continue
            convert(folder, fns, log)
            done.add(folder)
    for p in glob.glob(f"crates/{crate}/proofs/**/Proof.antt", recursive=True):
        log.append(f"{p}: left")
    print("\n".join(log))
    print(f"convert: {len(done)} folders")

main()
