#!/usr/bin/env python3
"""Turns proofs of functions from the old form (one Proof.antt that ends in tie.close) to Answers.antt and Invariants.antt.

usage: convert_proofs.py [--only WORD] [--keep-search]      in a crate's folder; runs `rt check --generated DIR --old-names` for the names
       convert_proofs.py --names FILE ...                   with that names.json
Says for each function what it could not turn ('left:').
"""
import json, os, re, subprocess, sys, tempfile

SIG = re.compile(r"^(?:abbrev )?(?:unfoldable )?(?:pub )?([^\s:(){}]+) :(?:\s|$)")
TOK = re.compile(r"[^\s(){}\[\],;.@\"«»]+")


def norm(s):
    s = s.replace("-", "_").replace("·", "").lower()
    return s[:-4] if s.endswith("_lem") else s


def normneed(s):
    s = re.sub(r"^(overflow|cast)[-_]", "", s) if s.startswith("overflow") else s
    return norm(s)


def blocks(text):
    """Comments/uses at the head, then the declarations, each with its own leading comments."""
    lines = text.split("\n")
    out, cur, pend = [], None, []
    head = []
    for line in lines:
        if line and not line[0].isspace():
            if line.startswith("--"):
                pend.append(line)
                continue
            if line.startswith("use ") or line.startswith("pub use "):
                head += pend + [line]
                pend = []
                cur = None
                continue
            m = SIG.match(line)
            if m or re.match(r"(pub )?(data|record|ruleset|module|mutual)\b", line) or re.match(r"(abbrev |unfoldable )?(pub )?(data|record)\b", line):
                cur = {"name": m.group(1) if m else None, "lines": pend + [line], "sig": line, "pre": list(pend)}
                pend = []
                out.append(cur)
                continue
            if cur is None:
                cur = {"name": None, "lines": pend + [line], "sig": line, "pre": list(pend)}
                out.append(cur)
                pend = []
            else:
                cur["lines"] += pend + [line]
                pend = []
        else:
            if pend and line == "":
                head += pend if cur is None else []
                if cur is not None:
                    cur["lines"] += pend
                pend = []
            if cur is not None:
                cur["lines"].append(line)
            elif line:
                head.append(line)
    for b in out:
        while b["lines"] and b["lines"][-1] == "":
            b["lines"].pop()
    return head, out


class Fn:
    def __init__(self, d):
        self.d = d
        self.place = {}
        self.arms = {}
        for p, arm in zip(d["places"], d.get("arms") or [None] * len(d["places"])):
            self.place[p[0]] = (p[1], p[2][0], p[2][1])
            if arm:
                self.arms[p[0]] = arm

    def arm(self, place, step, rest):
        """The arm's field that stands for STEP.rest, with what of rest is left."""
        best = None
        while place in self.place:
            if place in self.arms:
                name, _, fields = self.arms[place]
                for new, old, path in fields:
                    if norm(old) == norm(step) and [norm(x) for x in rest[: len(path)]] == [norm(x) for x in path] and path:
                        if best is None or len(path) > best[2]:
                            best = (name, new, len(path))
            place = self.place[place][0]
        return best

    def chain(self, place):
        seen = []
        while place in self.place:
            parent, old, new = self.place[place]
            seen.append((old, new))
            place = parent
        return seen


START = {"args": "args", "requires": "requires", "fits": "ranges", "ranges": "ranges", "lifetimes": "lifetimes", "well_formed": "well_formed", "type_inv": "type_inv", "utf8": "utf8"}


def rewrite_paths(body, fn, place, left, var="c"):
    chain = fn.chain(place)

    def sub(m):
        ups = m.group(1).count(".before")
        step = m.group(2)
        if step in START:
            return f"{var}.{START[step]}{m.group(3)}"
        rest = m.group(3).split(".")[1:]
        arm = fn.arm(place, step, rest)
        if arm:
            tail = "".join("." + x for x in rest[arm[2]:])
            return f"{var}.{arm[0]}.{arm[1]}{tail}"
        for old, new in chain:
            if norm(old) == norm(step):
                return f"{var}.{new}{m.group(3)}"
        for old, new in chain:
            if norm(new) == norm(step):
                return f"{var}.{new}{m.group(3)}"
        left.append(f"no step {step} from {place}: {[o for o, n in chain]}")
        return m.group(0)

    return re.sub(rf"(?<![\w.'-]){var}((?:\.before)*)\.([^\s.(){{}}\[\],;]+)((?:\.[^\s.(){{}}\[\],;]+)*)", sub, body)


def inline_lets(body):
    """let l = c.before.before in  -> gone, l.x -> c.before.before.x"""
    while True:
        m = re.search(r"let (\S+) = ((?:c)(?:\.before)*) in\s*", body)
        if not m:
            return body
        name, path = m.group(1), m.group(2)
        rest = body[m.end():]
        rest = re.sub(rf"(?<![\w.'-]){re.escape(name)}(?=\.)", path, rest)
        rest = re.sub(rf"(?<![\w.'-]){re.escape(name)}(?![\w'-])", path, rest)
        body = body[:m.start()] + rest


def convert(path, crate, names, keep_search):
    folder = os.path.dirname(path)
    rel = os.path.relpath(folder, "proofs")
    key = f"Rattle-{crate}-proofs.{rel.replace('/', '.')}.Lts"
    if key not in names:
        return [f"no names for {key}"]
    fn = Fn(names[key])
    text = open(path, encoding="utf-8").read()
    if "tie.close" not in text:
        return ["no tie.close"]
    head, decls = blocks(text)
    left = []
    spec = decls[-1]
    whole = "\n".join(spec["lines"])
    m = re.search(r"tie\.spec\s*(.*)", whole, re.S)
    if not m:
        return ["no tie.spec"]
    args = [t for t in re.findall(r"[^\s()]+", m.group(1))]
    byname = {b["name"]: b for b in decls if b["name"]}
    needs = []
    invs = []
    for a in args:
        b = byname.get(a)
        if b is None:
            left.append(f"argument {a} is not declared here")
            needs.append((a, None))
            continue
        sig = " ".join(l.strip() for l in b["lines"])
        mm = re.search(r":\s*tie\.(Need-|invariant-|decreases-|measure-|ghost-)([^\s]+)", sig)
        if mm and mm.group(1) == "Need-":
            needs.append((a, mm.group(2)))
        elif mm:
            invs.append((a, mm.group(1) + mm.group(2)))
        elif re.search(r":\s*tie\.", sig):
            invs.append((a, re.search(r":\s*tie\.([^\s]+)", sig).group(1)))
        else:
            left.append(f"argument {a}: {sig[:80]}")
            needs.append((a, None))
    new = fn.d["needs"]
    asked = fn.d["asked_at"]
    mapping = {}
    used = set()
    newidx = {}
    for i, (o, n) in enumerate(new):
        newidx.setdefault(normneed(o), i)
    ok_by_position = len(needs) == len(new)
    for k, (a, old) in enumerate(needs):
        i = None
        if old is not None and normneed(old) in newidx:
            i = newidx[normneed(old)]
        elif ok_by_position:
            i = k
        if i is None:
            b = byname.get(a)
            flat = " ".join(" ".join(b["lines"]).split()) if b else ""
            if old and re.match(r"(enum[-_]told|struct[-_]told|slice[-_]known|shared[-_]slice)", old) and flat.endswith("= search rules"):
                continue
            left.append(f"need {old} ({a}) has no new name")
            continue
        mapping[a] = i
    renames = {a: new[i][1] for a, i in mapping.items()}
    # invariants
    loops = fn.d["loops"]
    changed = fn.d["changed"]
    inv_out, ans_out, uses = [], [], []
    imports_goal = set()
    for line in head:
        if re.search(r"\.Statement\.\{statement\}|\.Tie as tie|\.Tie\.\{", line):
            continue
        uses.append(line)
    comments = [u for u in uses if u.startswith("--")]
    uses = [u for u in uses if not u.startswith("--")]
    invnames = {a: t for a, t in invs}
    for b in decls[:-1]:
        name = b["name"]
        body = "\n".join(b["lines"])
        if name in invnames:
            t = invnames[name]
            pre = "\n".join(l for l in b["lines"] if l.startswith("--"))
            code = "\n".join(l for l in b["lines"] if not l.startswith("--"))
            mm = re.match(r"(invariant|decreases)-(.*)", t)
            kind, loop = (mm.group(1), mm.group(2)) if mm else (t, "")
            ks = [k for k, l in enumerate(loops) if norm(l[0][0]) == norm(loop)]
            clause = re.search(rf"(?m)^{re.escape(name)}(?P<params>[^=\n]*?) =(?P<body>.*)", code, re.S)
            unf = re.search(r"(?m)^unfolding .*$", code)
            if ks and clause:
                (oldl, newl), vars_ = loops[ks[0]]
                ch = changed[ks[0]]
                params = re.findall(r"\{[^}]*\}|\S+", clause.group("params"))
                params = [p for p in params]
                want = [("l.initial." if c else "l.") + v for v, c in zip(vars_, ch)] + ["l." + v for v, c in zip(vars_, ch) if c]
                if len(params) != len(want):
                    left.append(f"{name}: {len(params)} parameters {params}, today's variables {list(zip(vars_, ch))}")
                    left.append(f"  wrote a hole")
                    tbody = clause.group("body") + " -- LEFT params " + " ".join(params)
                else:
                    subst = dict(zip(params, want))
                    tbody = TOK.sub(lambda m2: subst.get(m2.group(0), m2.group(0)) if not (m2.start() and clause.group("body")[m2.start() - 1] == ".") else m2.group(0), clause.group("body"))
                gname = f"{kind}-{newl}"
                inv_out.append((pre + "\n" if pre else "") + f"abbrev pub {gname} : goal.{gname}\n" + (unf.group(0) + "\n" if unf else "") + f"{gname} l ={tbody}")
            else:
                # a recursion's measure
                left.append(f"measure or ghost by hand: {name} : {t}: {code!r}"[:300])
                inv_out.append("-- LEFT\n" + code)
            continue
        if name in mapping:
            i = mapping[name]
            goal = renames[name]
            code = "\n".join(l for l in b["lines"] if not l.startswith("--"))
            pre = "\n".join(l for l in b["lines"] if l.startswith("--"))
            clause = re.search(rf"(?m)^{re.escape(name)}(?P<params>[^=\n]*?) =(?P<body>.*)", code, re.S)
            unf = re.search(r"(?m)^unfolding .*$", code)
            if not clause:
                left.append(f"{name}: no clause")
                ans_out.append("-- LEFT\n" + code)
                continue
            bodytext = clause.group("body")
            params = clause.group("params").split()
            params = [p for p in params if not re.match(r"κs?\d*$", p)]
            flat = " ".join(bodytext.split())
            if flat in ("search rules", "omega arith", "tt") and not unf and not keep_search:
                continue
            place = asked[i][0]
            bodytext = inline_lets(bodytext)
            bodytext = rewrite_paths(bodytext, fn, place, left)
            # a test of !x says today what x says
            bodytext = re.sub(r"\(not-(?:true|false) (?:_|c\.[^\s(),]+) (c\.[^\s(),]+)\)", r"\1", bodytext)
            bodytext = re.sub(r"not-(?:true|false) (?:_|c\.[^\s(),]+) (c\.[^\s(),]+)", r"\1", bodytext)
            for a, g in renames.items():
                bodytext = re.sub(rf"(?<![\w.'-]){re.escape(a)}(?![\w'-])", g, bodytext) if a != name and re.search(rf"(?<![\w.'-]){re.escape(a)} c\b", bodytext) else bodytext
            ans_out.append((pre + "\n" if pre else "") + f"pub {goal} : goal.{goal}\n" + (unf.group(0) + "\n" if unf else "") + f"{goal} {' '.join(params)} ={bodytext}")
            continue
        if "tie." in body:
            left.append(f"helper {name} names tie")
        ans_out.append(body)
    base = f"Rattle.{crate}.proofs.{rel.replace('/', '.')}"
    if inv_out:
        whole = "\n".join(comments + uses + [f"use {base}.Given as goal", ""]) + "\n" + "\n\n".join(inv_out) + "\n"
        open(os.path.join(folder, "Invariants.antt"), "w", encoding="utf-8").write(whole)
    real = [x for x in ans_out if "goal." in x or "LEFT" in x]
    if real:
        whole = "\n".join(([] if inv_out else comments) + uses + [f"use {base}.Goals as goal", ""]) + "\n" + "\n\n".join(ans_out) + "\n"
        open(os.path.join(folder, "Answers.antt"), "w", encoding="utf-8").write(whole)
    os.remove(path)
    if not os.listdir(folder):
        os.rmdir(folder)
    return left


def main():
    argv = sys.argv[1:]
    keep = "--keep-search" in argv
    only = argv[argv.index("--only") + 1] if "--only" in argv else ""
    crate = os.path.basename(os.getcwd())
    if "--names" in argv:
        names = json.load(open(argv[argv.index("--names") + 1]))
    else:
        d = tempfile.mkdtemp()
        r = subprocess.run(["rt", "check", "--generated", d, "--old-names"], capture_output=True, text=True)
        p = os.path.join(d, "names.json")
        if not os.path.exists(p):
            print(r.stdout[-3000:], r.stderr[-2000:])
            raise SystemExit("no names.json")
        names = json.load(open(p))
    for folder, _, files in sorted(os.walk("proofs")):
        if "Proof.antt" in files and only in folder:
            path = os.path.join(folder, "Proof.antt")
            left = convert(path, crate, names, keep)
            print(folder, "ok" if not left else "")
            for l in left:
                print("   left:", l)


main()
