#!/usr/bin/env python3
"""Turns proofs that walk the code by hand (Proof.antt) into Invariants.antt and Answers.antt.

usage: python3 tools/answers.py CRATE OLD NAMES      at the top of the repository
    CRATE   the crate's name
    OLD     a folder with crates/CRATE/proofs/F/Proof.antt as they were
    NAMES   names.json, written by `rt check --generated DIR --old-names` in the crate, with the old proofs moved aside

A need becomes the goal of its new name, a step the step of its new name, without the chain of `.before`; a place of a tuple the parameter
that stands there. Answers that only call the search are left out. What it cannot place is left as it is and listed: the check says the rest.
"""
import json
import os
import re
import sys

PATH = re.compile(r"(?<![\w.'₀-₉-])([A-Za-z_][\w']*)((?:\.[A-Za-z0-9_'+-]+)+)")
START = {"args", "requires", "ranges", "well_formed", "well-formed", "utf8"}
said = []
lemmas = {}  # a local lemma and the place that it speaks of


def norm(s):
    s = s.replace("_", "-")
    return re.sub(r"(?<=[a-z])-(\d+)$", r"\1", s)


def clauses():
    """function -> the names of its ensures, in order, where they have names"""
    import glob
    out = {}
    for path in glob.glob("crates/*/src/**/*.rt", recursive=True):
        crate = path.split("/")[1]
        stem = path.split("/src/")[1][:-3]
        mods = [] if stem in ("lib", "main") else stem.split("/")
        fn, typ = None, None
        for line in open(path, encoding="utf-8"):
            m = re.match(r"impl (\w+)", line)
            if m:
                typ = m.group(1)
            if re.match(r"}", line):
                typ = None
            m = re.match(r"\s*(?:pub )?(?:extern \"C\" )?fn (\w+)", line)
            if m:
                fn = "::".join([crate] + mods + ([typ] if typ else []) + [m.group(1)])
            m = re.match(r"\s*ensures (\w+) {", line)
            if m and fn:
                out.setdefault(fn, []).append(m.group(1))
    return out


NAMED = {}


class Fn:
    def __init__(self, entry):
        self.e = entry
        self.places = entry["places"]
        self.byname = {}
        for i, p in enumerate(self.places):
            self.byname.setdefault(norm(p[0]), i)
        self.parent = [self.byname.get(norm(p[1])) if p[1] else None for p in self.places]
        self.needs = {}
        for i, (o, n) in enumerate(entry["needs"]):
            self.needs[norm(o)] = (n, i)
        self.loops = {norm(l[0][0]): (l[0][1], l[1], entry["changed"][i]) for i, l in enumerate(entry["loops"])}

    def chain(self, i):
        out = []
        while i is not None:
            out.append(i)
            i = self.parent[i]
        return out

    def need(self, name):
        n = norm(re.sub(r"^(overflow|nonzero)-", "", name))
        hit = self.needs.get(n) or self.needs.get(norm(name))
        m = re.match(r"slice-bounds-([\w-]+?)-end(-\d+)?$", name)
        if hit is None and m:
            for i, (_, new) in enumerate(self.e["needs"]):
                if new == f"slice_bounds-{m.group(1).replace('-', '_')}-end{m.group(2) or ''}":
                    return new, i
        return hit

    def up(self, i, k):
        for _ in range(k):
            if i is None:
                return None
            i = self.parent[i]
        return i

    def positional(self, callee, rest):
        """auto.1.1.0 or new.1.0: by the parameter's name"""
        params = self.e["params"].get(callee)
        if not params:
            return rest
        k = 0
        j = 1
        while j < len(rest) and rest[j] == "1":
            k += 1
            j += 1
        if j < len(rest) and rest[j] == "0":
            j += 1
        if k < len(params):
            return [rest[0], params[k]] + rest[j:]
        return rest

    def step(self, place, rest, view=True):
        """the new path of a step and its fields, seen from a place, or None; without the view of a goal an arm's two steps stand apart"""
        f = norm(rest[0])
        for i in self.chain(place) if view else []:
            arm = self.e["arms"][i]
            if not arm:
                continue
            for field, old, fields in sorted(arm[2], key=lambda x: -len(x[2])):
                if norm(old) == f and rest[1:1 + len(fields)] == fields and (fields or rest[1:]):
                    return [arm[0], field] + rest[1 + len(fields):]
        for i in self.chain(place):
            p = self.places[i]
            if norm(p[2][0]) == f:
                fields = rest[1:]
                if not view and self.e["arms"][i] and self.e["arms"][i][1] == 1:
                    return [p[2][1] + "-1"] + fields
                if fields:
                    for o, n in p[4] or []:
                        if fields[0] == o:
                            fields = [n] + fields[1:]
                            break
                    fields = [{"type-inv": "type_inv"}.get(fields[0], fields[0])] + fields[1:]
                    if fields[0] == "ensures" and len(fields) > 1 and fields[1].isdigit() and p[3] in NAMED and int(fields[1]) < len(NAMED[p[3]]):
                        fields = ["ensures", NAMED[p[3]][int(fields[1])]] + fields[2:]
                    if fields[0] in ("auto", "new") and p[3]:
                        fields = self.positional(p[3], fields)
                return [p[2][1]] + fields
        return None


def tokens_sub(text, table):
    def one(m):
        return table.get(m.group(0), m.group(0))
    return re.sub(r"(?<![\w.'₀-₉-])[A-Za-z_μκ][\w'₀-₉]*(?:-[\w'₀-₉]+)*", one, text)


def translate(fn, text, env, view=False):
    """env: variable -> ('place', index, root) or ('step', place index, [rest])"""
    env = dict(env)
    # aliases of places and steps
    for _ in range(6):
        again = False
        for m in re.finditer(r"let ([A-Za-z_][\w']*) = ([A-Za-z_][\w']*)((?:\.[A-Za-z0-9_'+-]+)*) in\b", text):
            var, root, fields = m.group(1), m.group(2), [x for x in m.group(3).split(".") if x]
            if var in env or root not in env or env[root][0] != "place":
                continue
            k = 0
            while k < len(fields) and fields[k] == "before":
                k += 1
            at = fn.up(env[root][1], k)
            if k == len(fields):
                env[var] = ("place", at if at is not None else env[root][1], env[root][2])
                again = True
            elif len(fields) == k + 1 and fields[k] not in START:
                env[var] = ("step", env[root][1], fields[k])
                again = True
        if not again:
            break
    for var, v in list(env.items()):
        bare = re.sub(r"let " + re.escape(var) + r" =", "", text)
        if v[0] == "place" and v[2] != var and not re.search(r"(?<![\w.'-])" + re.escape(var) + r"(?![\w.'₀-₉-])", bare):
            text = re.sub(r"let " + re.escape(var) + r" = [A-Za-z_][\w']*(?:\.before)* in[ \n]?\s*", lambda m: "", text)

    def one(m):
        root, fields = m.group(1), m.group(2).split(".")[1:]
        if root not in env:
            return m.group(0)
        v = env[root]
        if v[0] == "step":
            r = fn.step(v[1], [v[2]] + fields, view)
            if r is None:
                return m.group(0)
            plain = fn.step(v[1], [v[2]], view)
            if plain and r[0] == plain[0]:
                return root + "." + ".".join(r[1:]) if len(r) > 1 else root
            return "c." + ".".join(r)
        k = 0
        while k < len(fields) and fields[k] == "before":
            k += 1
        rest = fields[k:]
        name = v[2]
        if not rest:
            return m.group(0)
        if rest[0] in START:
            return name + "." + ".".join([rest[0].replace("-", "_")] + rest[1:])
        at = fn.up(v[1], k)
        r = fn.step(at, rest, view) if at is not None else None
        if r is None:
            r = fn.step(v[1], rest, view)
        if r is None:
            said.append(f"step {m.group(0)}")
            return name + "." + ".".join(rest)
        return name + "." + ".".join(r)

    text = PATH.sub(one, text)

    def handed(m):
        lemma, root = m.group(1), m.group(2)
        if lemma not in lemmas or root not in env or env[root][0] != "place":
            return m.group(0)
        top = env[root][2]
        chain = fn.chain(env[top][1] if top in env else env[root][1])
        if lemmas[lemma] not in chain:
            said.append(f"no way from here to the place of {lemma}")
            return m.group(0)
        n = chain.index(lemmas[lemma])
        seen = env[top][1] if top in env else env[root][1]
        if view and n:  # a goal in an arm is seen with its last two places as one; after a struct's fields one place further
            n += -1 if fn.e["arms"][seen] else 1 if fn.places[seen][0].startswith("After-struct_told") else 0
        return f"{lemma} {env[root][2]}" + ".before" * n
    text = re.sub(r"(?<![\w.'-])([A-Za-z_][\w'-]*) ([A-Za-z_]\w*)(?:\.before)*(?![\w.'-])", handed, text)
    for var, v in env.items():
        if v[0] == "place" and v[2] != var:
            let = r"let " + re.escape(var) + r" = [A-Za-z_][\w']*(?:\.before)* in[ \n]?\s*"
            bare = re.sub(let, "", text)
            if not re.search(r"(?<![\w.'-])" + re.escape(var) + r"(?![\w'₀-₉-])", bare):
                text = bare
    # `true` of a negated test is the fact itself now
    for kind in ("true", "false"):
        fact = r"not-" + kind + r" _ ((?:\w+)\.[\w'-]+)\." + kind + "-raw"
        text = re.sub(r"\(" + fact + r"\)", r"\1." + kind, text)
        text = re.sub(fact, r"\1." + kind, text)
    return text


def fix_parens(s):
    return s


def blocks(text):
    out, cur = [], []
    for line in text.split("\n"):
        if line and not line[0].isspace() and not line.startswith(")"):
            if cur and not (cur[-1].startswith("--") or is_sig_of(cur, line)):
                out.append(cur)
                cur = []
        cur.append(line)
    if cur:
        out.append(cur)
    return out


def is_sig_of(cur, line):
    """whether line goes on with the declaration in cur: an unfolding line or a clause of the same name"""
    sig = next((c for c in cur if c and not c.startswith("--")), None)
    if sig is None:
        return True
    m = re.match(r"(?:(?:pub|abbrev|unfoldable) )*(\S+)(?: \S+)* :", sig)
    if not m:
        return False
    name = m.group(1)
    return line.startswith("unfolding") or line.split(" ")[0] == name


def convert(crate, rel, text, fn, root):
    mod = rel.replace("/", ".")
    head, uses, decls = [], [], []
    for b in blocks(text):
        first = next((x for x in b if x and not x.startswith("--")), "")
        if first.startswith("use "):
            u = "\n".join(x for x in b if x.strip())
            if re.search(r"\.(Statement|Tie)\b", u) and f"proofs.{mod}." in u:
                continue
            uses.append(u)
        elif not first:
            head += b
        else:
            decls.append(b)
    if uses and uses[0].startswith("--"):
        lines = uses[0].split("\n")
        head = [x for x in lines if x.startswith("--")]
        uses[0] = "\n".join(x for x in lines if not x.startswith("--"))
    lemmas.clear()
    for b in decls:
        t = "\n".join(b)
        m = re.search(r"^(?:abbrev )?([\w'-]+) : (?:\(\w+ : )?tie\.((?!Need|Inv|inv|dec)[\w-]+)", t, re.M)
        if m and norm(m.group(2)) in fn.byname:
            lemmas[m.group(1)] = fn.byname[norm(m.group(2))]
    inv, ans, lts, turned, idle = [], [], set(), {}, set()
    for b in decls:
        t = "\n".join(b).rstrip()
        if re.search(r"tie\.close", t):
            continue
        m = re.search(r"^(?:abbrev )?(invariant|decreases)-([\w-]+) : tie\.(invariant|decreases)-([\w-]+)", t, re.M)
        if m:
            kind, loop = m.group(1), m.group(2)
            l = fn.loops.get(norm(loop))
            if not l:
                said.append(f"loop {loop}")
                continue
            new, names, changed = l
            c = re.search(r"^" + re.escape(kind + "-" + loop) + r"((?: \S+)*?) =[ ]?(.*)", t, re.M | re.S)
            ps = c.group(1).split()
            table = {}
            cur = [n for n, ch in zip(names, changed) if ch]
            if len(ps) != len(names) + len(cur):
                said.append(f"params of {kind}-{loop}: {ps} {names} {changed}")
            for p, n, ch in zip(ps, names, changed):
                table[p] = f"l.initial.{n}" if ch else f"l.{n}"
            for p, n in zip(ps[len(names):], cur):
                table[p] = f"l.{n}"
            table.pop("_", None)
            body = tokens_sub(c.group(2), table)
            unf = re.search(r"^unfolding .*$", t, re.M)
            inv.append(f"abbrev pub {kind}-{new} : goal.{kind}-{new}\n" + (unf.group(0) + "\n" if unf else "") + f"{kind}-{new} l ={'' if body.startswith(chr(10)) else ' '}{body}")
            continue
        m = re.search(r"^(\S+) :(.*?)tie\.Need-([\w-]+)[^\n]*$", t, re.M)
        if m and re.match(r"^\s*$", m.group(2)):
            local, old = m.group(1), m.group(3)
            hit = fn.need(old)
            body = re.search(r"^" + re.escape(local) + r"((?: \S+)*?) =[ ]?(.*)", t, re.M | re.S)
            if not body:
                said.append(f"no clause {local}")
                continue
            if hit is None:
                if body.group(2).strip() != "search rules":
                    said.append(f"settled or gone: {old}")
                continue
            new, idx = hit
            if new.startswith("shape_of-"):
                continue
            turned[local] = new
            if body.group(2).strip() == "search rules":
                idle.add(new)
            ps = [p for p in body.group(1).split() if p != "κs"]
            var = ps[-1] if ps else "c"
            place = fn.byname.get(norm(fn.e["asked_at"][idx][0]))
            b2 = translate(fn, body.group(2), {var: ("place", place, var)}, True)
            note = "\n".join(x for x in b if x.startswith("--"))
            unf = re.search(r"^unfolding .*$", t, re.M)
            ans.append(((note + "\n" if note else "") + f"pub {new} : goal.{new}\n" + (unf.group(0) + "\n" if unf else "") + f"{new} {' '.join(ps)} =" + ("" if b2.startswith("\n") else " "), b2))
            continue
        # a local lemma
        env = {}
        def typed(mm):
            i = fn.byname.get(norm(mm.group(1)))
            if i is None:
                said.append(f"place {mm.group(1)}")
                return mm.group(0)
            lts.add(True)
            claims = " tie.the-claims" if fn.e["params"] else ""
            old = f"lts.{fn.places[i][0]}{claims} reads.Pre reads.Post"
            return old if mm.start() and t[mm.start() - 2] == ":" and t[mm.end():mm.end() + 1] == ")" else f"({old})"
        place = r"tie\.((?!Need)[\w-]+)(?: invariant-[\w-]+| decreases-[\w-]+)*"
        found = [fn.byname.get(norm(x)) for x in re.findall(place, t)]
        for mm in re.finditer(r"\((\w+) : " + place + r"\)", t):
            i = fn.byname.get(norm(mm.group(2)))
            if i is not None:
                env[mm.group(1)] = ("place", i, mm.group(1))
        t2 = re.sub(place, typed, t)
        cl = re.search(r"^([\w'-]+)((?: \w+)*) =", t2, re.M)
        if found and found[0] is not None and cl:
            vs = cl.group(2).split()
            if vs and vs[0] not in env:
                env[vs[0]] = ("place", found[0], vs[0])
        if env:
            t2 = translate(fn, t2, env)
        ans.append(("", t2))
    ans = [h + tokens_sub(x, turned) for h, x in ans]
    for name in idle:
        mine = f"pub {name} : goal.{name}\n"
        others = [x for x in ans if mine not in x]
        if not any(re.search(r"(?<![\w.'-])" + re.escape(name) + r"(?![\w'-])", x) for x in others):
            ans = others
    folder = os.path.join(root, "crates", crate, "proofs", rel)
    usetext = "\n".join(u for u in uses if u.strip())
    os.makedirs(folder, exist_ok=True)
    more = ""
    if lts:
        more = f"use Rattle.{crate}.proofs.{mod}.Lts as lts\nuse Rattle.{crate}.proofs.{mod}.Tie as tie\nuse Rattle.{crate}.proofs.{mod}.Reads as reads\n"
    if inv:
        open(os.path.join(folder, "Invariants.antt"), "w").write((f"{usetext}\n" if usetext else "") + f"use Rattle.{crate}.proofs.{mod}.Given as goal\n\n" + "\n\n".join(inv) + "\n")
    if ans:
        open(os.path.join(folder, "Answers.antt"), "w").write(("\n".join(head) + "\n" if head else "") + (f"{usetext}\n" if usetext else "") + more + f"use Rattle.{crate}.proofs.{mod}.Goals as goal\n\n" + "\n\n".join(ans) + "\n")


def cycle(crate, rel, text, fns, root):
    """the answers of functions that call one another; their local lemmas are left to be restated by hand"""
    mod = rel.replace("/", ".")
    uses, ans = [], []
    turned = {}
    for b in blocks(text):
        t = "\n".join(b).rstrip()
        first = next((x for x in b if x and not x.startswith("--")), "")
        if first.startswith("use "):
            u = "\n".join(x for x in b if x.strip() and not x.startswith("--"))
            if not re.search(r"\.(Reads|Kinds|Tie|Lts-\w+)\b|borrow\.Fn|\{statement\}", u):
                uses.append(u)
            continue
        m = re.search(r"^([\w'-]+) : \(t : ℕ\) → ([\w-]+)-lts\.Need-([\w-]+)", t, re.M)
        if m:
            local, member, old = m.groups()
            fn = next((f for k, f in fns.items() if norm(k) == norm(member)), None)
            name = next((k for k in fns if norm(k) == norm(member)), None)
            hit = fn.need(old) if fn else None
            body = re.search(r"^" + re.escape(local) + r"((?: \S+)*?) =[ ]?(.*)", t, re.M | re.S)
            if hit is None or body is None:
                said.append(f"settled or gone: {member} {old}")
                continue
            if body.group(2).strip() == "search rules":
                continue
            new, idx = hit
            if new.startswith("shape_of-"):
                continue
            full = f"{name}-{new}"
            turned[local] = full
            place = fn.byname.get(norm(fn.e["asked_at"][idx][0]))
            b2 = translate(fn, body.group(2), {"c": ("place", place, "c")}, True)
            b2 = b2.replace("c.requires.0", "c.decreases").replace("c.requires.1", "c.requires")
            ans.append((f"pub {full} : goal.{full}\n{full} t c =" + ("" if b2.startswith("\n") else " "), b2))
            continue
        m = re.search(r"\(c : ([\w-]+)-lts\.([\w-]+)", t)
        if m:
            fn = next((f for k, f in fns.items() if norm(k) == norm(m.group(1))), None)
            i = fn.byname.get(norm(m.group(2))) if fn else None
            if i is not None:
                t = translate(fn, t, {"c": ("place", i, "c")}, True)
        if re.search(r"(close|spec\b)", t) and "statement" in t or t.startswith("abbrev") and "Lts" not in t:
            continue
        ans.append(("", t))
    ans = [h + tokens_sub(x, turned) for h, x in ans]
    folder = os.path.join(root, "crates", crate, "proofs", rel)
    os.makedirs(folder, exist_ok=True)
    open(os.path.join(folder, "Answers.antt"), "w").write("\n".join(uses) + f"\nuse Rattle.{crate}.proofs.{mod}.Goals as goal\n\n" + "\n\n".join(ans) + "\n")


def main():
    crate, old, names = sys.argv[1:4]
    data = json.load(open(names))
    NAMED.update(clauses())
    base = os.path.join(old, "crates", crate, "proofs")
    for folder, _, fs in sorted(os.walk(base)):
        if "Proof.antt" not in fs:
            continue
        rel = os.path.relpath(folder, base)
        key = f"Rattle-{crate}-proofs.{rel.replace('/', '.')}.Lts"
        members = {k[len(key) + 1:]: Fn(v) for k, v in data.items() if k.startswith(key + "-")}
        if members:
            del said[:]
            cycle(crate, rel, open(os.path.join(folder, "Proof.antt"), encoding="utf-8").read(), members, ".")
            print(f"{rel}: a cycle; " + "; ".join(said))
            continue
        if key not in data:
            print(f"{rel}: no names ({key})")
            continue
        del said[:]
        convert(crate, rel, open(os.path.join(folder, "Proof.antt"), encoding="utf-8").read(), Fn(data[key]), ".")
        if said:
            print(f"{rel}: " + "; ".join(said))


if __name__ == "__main__":
    main()
