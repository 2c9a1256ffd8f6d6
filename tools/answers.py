#!/usr/bin/env python3
"""Turns proofs/F/Proof.antt that hand answers to `tie.spec` into Invariants.antt and Answers.antt, by names.json. usage: answers.py NAMES.json CRATE-FOLDER"""
import json, os, re, sys

ID = r"[^\s(){}.;,@\"«»\[\]|]+"
PATH = re.compile(r"(?<![^\s(){};,@\[\]|←])(%s)((?:\.%s)+)" % (ID, ID))
def norm(s):
    s = s.replace("-", "_")
    s = re.sub(r"_lem$", "", s)
    return s[:1].lower() + s[1:]



class Fn:
    def __init__(self, key, d):
        self.key, self.d = key, d
        self.places = d["places"]
        self.by = {}
        for i, p in enumerate(self.places):
            self.by.setdefault(p[0], i)
        self.parent = [self.by.get(p[1]) if p[1] else None for p in self.places]
        self.needs = d["needs"]
        # place of each need
        self.at = d["asked_at"]

    def chain(self, name):
        i = self.by.get(name)
        out = []
        while i is not None:
            out.append(i)
            i = self.parent[i]
        return out


def decls(text):
    """Top declarations: (name, signature, unfolding, body lines)."""
    out, cur = [], None
    lines = text.split("\n")
    for l in lines:
        m = re.match(r"(abbrev )?(pub )?(%s) :(?!:)(.*)" % ID, l)
        if m and not l.startswith(" "):
            cur = {"name": m[3], "sig": m[4].strip(), "body": [], "abbrev": bool(m[1]), "lead": []}
            out.append(cur)
        elif l.startswith("use "):
            out.append({"use": l})
            cur = None
        elif cur is None:
            out.append({"text": l})
        else:
            cur["body"].append(l)
    return out


def nest(fields, path):
    """Old nested pairs: field i of n at 1.1..0 ; the last at 1..1. Gives (new field, rest)."""
    n, i, rest = len(fields), 0, list(path)
    while i < n - 1:
        if not rest:
            return None
        if rest[0] == "0":
            return fields[i], rest[1:]
        if rest[0] != "1":
            return None
        rest = rest[1:]
        i += 1
    return fields[n - 1], rest


def loops_of(fn):
    return {norm(l[0][0]) for l in fn.d["loops"]}


class Turner:
    def __init__(self, fn, problems):
        self.fn, self.problems = fn, problems

    def resolve(self, place, k, fields):
        """Old path at a place: k befores, then fields. Gives the new path's words behind c, or None."""
        fn = self.fn
        chain = fn.chain(place)
        if not fields:
            return []
        F, rest = fields[0], list(fields[1:])
        f = norm(F)
        if f in ("args", "requires", "ranges", "type_inv", "utf8") or (f in ("initial",)):
            start = chain and fn.places[chain[-1]][0] == "Start"
            # type-inv of a step handled below
            if f == "args" and rest:
                rest = [norm(rest[0])] + rest[1:]
            if f == "ranges" and rest:
                rest = [norm(rest[0])] + rest[1:]
            if f == "requires" and fn.d["pre"] and rest:
                got = nest(fn.d["pre"]["fields"], rest)
                if got:
                    return ["requires", got[0]] + got[1]
            return [f if f != "type_inv" else "type_inv"] + rest
        hits = [(abs(n - k), n, i) for n, i in enumerate(chain) if norm(fn.places[i][2][0]) == f]
        if not hits:
            hits = [(abs(n - k), n, i) for n, i in enumerate(chain) if norm(fn.places[i][2][1]) == f]
        if not hits:
            self.problems.append(f"{fn.key}: no step {F} above {place}")
            return None
        hits.sort()
        i = hits[0][2]
        old, new = fn.places[i][2]
        call = fn.places[i][3]
        # an arm of a match
        for j in chain:
            arm = fn.d["arms"][j]
            if arm:
                name, _, parts = arm
                best = None
                for nf, step, pre in parts:
                    if norm(step) == norm(old) and [norm(x) for x in rest[: len(pre)]] == [norm(x) for x in pre] and not nf.endswith("-own"):
                        if best is None or len(pre) > len(best[1]):
                            best = (nf, pre)
                if best:
                    return [name, best[0]] + rest[len(best[1]):]
        for j in chain:
            for var, step in fn.d["typed"][j]:
                if norm(step) == f and rest[:1] == ["given"]:
                    return ["type_inv", var] + rest[1:]
        if call and rest[:1] == ["new"] and len(rest) > 1 and rest[1].isdigit():
            ps = fn.d["params"].get(call)
            if ps:
                rest = ["new", ps[int(rest[1])]] + rest[2:]
        cl = fn.d["clauses"][i]
        if cl and rest[:1] == ["ensures"]:
            got = nest(cl["fields"], rest[1:])
            if got and len(rest) > 1:
                rest = ["ensures", got[0]] + got[1]
        return [new] + rest

    def body(self, text, place, c="c", seen=()):
        """Turns the paths of an answer's body."""
        aliases = {c: (0, [])}
        kept = set()
        # record aliases by let
        while True:
            m = None
            for m in re.finditer(r"let (%s) = (%s)((?:\.%s)*) in\b ?\n? *" % (ID, ID, ID), text):
                name, head, tail = m[1], m[2], m[3]
                if head not in aliases:
                    continue
                fields = tail.split(".")[1:] if tail else []
                k, fs = aliases[head]
                k2, i = k, 0
                if not fs:
                    while i < len(fields) and fields[i] == "before":
                        k2 += 1
                        i += 1
                fs2 = fs + fields[i:]
                # bound again by a λ?
                after = text[m.end():]
                if re.search(r"λ[^.]*(?<![^\s(){}])%s(?![^\s(){}:.])[^.]*\." % re.escape(name), after) or re.search(r"let %s[ :]" % re.escape(name), after):
                    continue
                # `elim ... [ x w ↦` binders are left
                if fs2:
                    new = self.resolve(place, k2, fs2)
                    step = norm(fs2[0])
                    fine = step in ("args", "ranges") or (step == "requires" and (not self.fn.d["pre"] or len(fs2) > 1)) or step in loops_of(self.fn)
                    if new is not None and fine and name not in kept:
                        kept.add(name)
                        text = text[: m.start()] + "let " + name + " = " + ".".join(["c"] + new) + " in" + m[0][m[0].index(" in") + 3:] + after
                        break
                    if name in kept:
                        continue
                aliases[name] = (k2, fs2)
                text = text[: m.start()] + after
                break
            else:
                break

        def one(m):
            head, tail = m[1], m[2].split(".")[1:]
            if head not in aliases:
                return m[0]
            k, fs = aliases[head]
            i = 0
            if not fs:
                while i < len(tail) and tail[i] == "before":
                    k += 1
                    i += 1
            new = self.resolve(place, k, fs + tail[i:])
            if new is None:
                return m[0]
            return ".".join(["c"] + new)

        text = PATH.sub(one, text)
        # bare aliases
        def bare(m):
            k, fs = aliases[m[0]]
            if not fs:
                return "c"
            new = self.resolve(place, k, fs)
            return ".".join(["c"] + new) if new is not None else m[0]

        for name in aliases:
            if name != c:
                text = re.sub(r"(?<![^\s(){};,@\[\]|←])%s(?![^\s(){};,\[\]|])" % re.escape(name), bare, text)
        return text


def convert(folder, fn, problems):
    path = os.path.join(folder, "Proof.antt")
    text = open(path, encoding="utf-8").read()
    ds = decls(text)
    invs, answers, uses, others = [], [], [], []
    loops = {norm(l[0][0]): (l[0][1], l[1], fn.d["changed"][i]) for i, l in enumerate(fn.d["loops"])}
    needs = {}
    for (old, new), (po, pn) in zip(fn.needs, fn.at):
        needs[norm(old)] = (new, po)
    byorder = [(new, po) for (old, new), (po, pn) in zip(fn.needs, fn.at)]
    mine = [d for d in ds if "sig" in d and d["sig"].startswith("tie.Need-")]
    t = Turner(fn, problems)
    comment = []
    bodies = {}
    for d in ds:
        if "use" in d:
            u = d["use"]
            if re.search(r"\.(Statement|Tie)\b", u):
                continue
            uses.append(u)
            continue
        if "text" in d:
            continue
        if d["sig"].startswith("tie.invariant") or d["sig"].startswith("tie.decreases"):
            kind, lname = re.match(r"tie\.(invariant|decreases)-(\S+)", d["sig"]).groups()
            if norm(lname) not in loops:
                problems.append(f"{fn.key}: no loop {lname} in {list(loops)}")
                continue
            new, vars_, changed = loops[norm(lname)]
            b = "\n".join(d["body"]).rstrip()
            m = re.match(r"%s((?: (?!=)%s)*?) =(.*)" % (re.escape(d["name"]), ID), b, re.S)
            if not m:
                problems.append(f"{fn.key}: body of {d['name']} not read")
                continue
            names = m[1].split()
            want = [("l." + v) if not ch else ("l.initial." + v) for v, ch in zip(vars_, changed)] + ["l." + v for v, ch in zip(vars_, changed) if ch]
            if len(names) != len(want):
                problems.append(f"{fn.key}: loop {lname}: {len(names)} variables {names}, {len(want)} wanted {want}")
                others.append(d)
                continue
            body = m[2]
            for n, w in zip(names, want):
                body = re.sub(r"(?<![^\s(){};,@\[\]|←])%s(?![^\s(){};,.\[\]|])" % re.escape(n), w.replace("\\", ""), body)
            invs.append((f"{kind}-{new}", body.rstrip()))
            continue
        if d["sig"].startswith("tie.Need-"):
            label = re.match(r"tie\.Need-(\S+)", d["sig"])[1]
            n = norm(label)
            got = None
            for tryit in (n, re.sub(r"^(overflow|bounds|nonzero|offset_bounds)_", "", n), norm(d["name"])):
                if tryit in needs:
                    got = needs[tryit]
                    break
            if got is None:
                for (old, new), (po, pn) in zip(fn.needs, fn.at):
                    if norm(new) == n:
                        got = (new, po)
            if got is None and len(mine) == len(byorder):
                got = byorder[mine.index(d)]
            if got is None:
                if n in [norm(s) for s in fn.d["settled"]] or n in [re.sub(r"^\w+?_", "", norm(s)) for s in fn.d["settled"]]:
                    continue
                problems.append(f"{fn.key}: no goal for {label}")
                others.append(d)
                continue
            new, place = got
            bodies[d["name"]] = (d, new, place)
            continue
        if re.search(r"statement M|tie\.close", d["sig"] + "".join(d["body"])):
            continue
        others.append(d)
    for name, (d, new, place) in bodies.items():
        lines = d["body"]
        unf = [l for l in lines if l.startswith("unfolding ")]
        b = "\n".join(l for l in lines if not l.startswith("unfolding ")).rstrip()
        m = re.match(r"%s((?: (?!=)%s)*?) =(.*)" % (re.escape(name), ID), b, re.S)
        if not m:
            problems.append(f"{fn.key}: answer {name} not read")
            others.append(d)
            continue
        args = m[1].split()
        body = m[2]
        # calls of other answers
        for _ in range(3):
            for other, (d2, _, place2) in bodies.items():
                if other == name:
                    continue
                pat = re.compile(r"\(%s (%s(?:\.before)*)\)" % (re.escape(other), ID))
                mm = pat.search(body)
                if mm:
                    b2 = "\n".join(l for l in d2["body"] if not l.startswith("unfolding ")).rstrip()
                    m2 = re.match(r"%s (%s)(?: %s)? =(.*)" % (re.escape(other), ID, ID), b2, re.S)
                    unf += [l for l in d2["body"] if l.startswith("unfolding ")]
                    inner = re.sub(r"(?<![^\s(){};,@\[\]|←])%s(?=[\s.)])" % re.escape(m2[1]), mm[1], m2[2])
                    inner = " ".join(inner.split())
                    body = body[: mm.start()] + "(" + inner + ")" + body[mm.end():]
        turned = t.body(body, place, args[0] if args else "c")
        more = [a for a in args[1:] if a != "κs"]
        if more:
            turned = " λ " + " ".join(more) + "." + turned
        if turned.strip() == "search rules":
            continue
        answers.append((new, unf, turned.rstrip()))
    mod = os.path.relpath(folder, os.path.join(CRATE, "proofs")).replace("/", ".")
    if others:
        problems.append(f"{fn.key}: others left: {[o['name'] for o in others]}")
    head = "\n".join(uses)
    if invs:
        s = head + f"\nuse Rattle.{NAME}.proofs.{mod}.Given as goal\n"
        for n, b in invs:
            s += f"\nabbrev pub {n} : goal.{n}\n{n} l ={b}\n"
        open(os.path.join(folder, "Invariants.antt"), "w", encoding="utf-8").write(s)
    keep = [o for o in others if "sig" in o]
    if answers or keep:
        s = head + f"\nuse Rattle.{NAME}.proofs.{mod}.Goals as goal\n"
        for o in keep:
            s += f"\n{o['name']} : {o['sig']}\n" + "\n".join(o["body"]).rstrip() + "\n"
        for n, u, b in answers:
            s += f"\npub {n} : goal.{n}\n" + "".join(l + "\n" for l in dict.fromkeys(u)) + f"{n} c ={b}\n"
        open(os.path.join(folder, "Answers.antt"), "w", encoding="utf-8").write(s)
    os.remove(path)


NAMES, CRATE = sys.argv[1], sys.argv[2].rstrip("/")
NAME = os.path.basename(CRATE)
data = json.load(open(NAMES))
problems = []
for folder, dirs, names in sorted(os.walk(os.path.join(CRATE, "proofs"))):
    if "Proof.antt" not in names:
        continue
    mod = os.path.relpath(folder, os.path.join(CRATE, "proofs")).replace("/", ".")
    key = f"Rattle-{NAME}-proofs.{mod}.Lts"
    if key not in data:
        problems.append(f"{key}: not in names.json")
        continue
    convert(folder, Fn(key, data[key]), problems)
print("\n".join(problems))
