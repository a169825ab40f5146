#!/usr/bin/env python3
"""Turns proofs that walk the code (Proof.antt) into Invariants.antt and Answers.antt, by the names that the check lists.

usage: tools/answers.py CRATE [FUNCTION..]   in the repository; the crates below CRATE are proved

It runs `rt check --generated FOLDER --old-names` in the crate, writes both files beside each Proof.antt, and moves that one to
build/proofs-before/CRATE. Places that it cannot turn are marked `TODO`. Answers by
`search rules` or `omega arith` alone are left out: the check tries these itself.
"""
import json, os, re, shutil, subprocess, sys

KEEP = "build/proofs-before"
IDENT = r"[^\s(){}\[\];,.:\"|@`⌜⌝]+"


def norm(s):
    return s.replace("-", "_").lower()


def nested(names, rest):
    """A path into nested pairs as a field of a record."""
    k, j, last = 0, 0, len(names) - 1
    while j < len(rest) and rest[j] == "1" and k < last:
        k += 1
        j += 1
    if j < len(rest) and rest[j] == "0" and k < last:
        return [names[k]] + rest[j + 1 :]
    return [names[k]] + rest[j:] if k == last else rest


class Fn:
    def __init__(self, crate, path, names):
        self.crate, self.path, self.n = crate, path, names
        self.index = {p[0]: i for i, p in enumerate(names["places"])}
        self.nindex = {norm(p[0]): p[0] for p in names["places"]}
        self.byname = {}
        for old, new in zip((p[0] for p in names["places"]), names["places_by_name"]):
            self.byname[old] = new
        self.needs = {norm(o): (o, n) for o, n in names["needs"]}
        self.at = {norm(o): a[0] for (o, n), a in zip(names["needs"], names["asked_at"])} if len(names["needs"]) == len(names["asked_at"]) else {}
        self.todo = []
        self.helpers = {}
        self.chain = []
        self.negated = False
        self.arms = set()

    def parent(self, p):
        return self.n["places"][self.index[p]][1]

    def step(self, place, fields):
        """The new path of fields at a place, or at the nearest one on the way to the goal that has them, or None."""
        found = self.step_at(place, fields)
        if found or not self.chain:
            return found
        at = self.chain.index(place) if place in self.chain else 0
        for k in sorted(range(len(self.chain)), key=lambda k: (abs(k - at), k)):
            found = self.step_at(self.chain[k], fields)
            if found:
                return found
        return None

    def set_chain(self, place):
        self.chain = []
        while place is not None:
            self.chain.append(place)
            place = self.parent(place)

    def step_at(self, place, fields):
        if fields[0].endswith("_lem"):
            return self.step_at(place, [fields[0][:-4]] + fields[1:])
        fields = fields[:1] + [f.replace("-", "_") for f in fields[1:]]
        i = self.index[place]
        p = self.n["places"][i]
        f = fields[0]
        if place == "Start" and f in ("pre", "requires"):
            pre = self.n["pre"]
            return ["c", "requires"] + (nested(pre["fields"], fields[1:]) if pre and len(pre["fields"]) > 1 else fields[1:])
        if place == "Start" and f in ("args", "requires", "ranges", "type_inv", "utf8"):
            return ["c"] + fields
        arm = self.n["arms"][i]
        best = None
        if arm:
            for new, old, sub in arm[2]:
                if norm(old) == norm(f) and sub and fields[1 : 1 + len(sub)] == sub:
                    if best is None or len(sub) > best[0]:
                        best = (len(sub), ["c", arm[0], new] + fields[1 + len(sub) :])
            if best:
                return best[1]
        if norm(p[2][0]) == norm(f):
            rest = self.rest(i, p, fields[1:])
            for new, old, sub in arm[2] if arm else []:
                if norm(old) == norm(f) and not sub and f.startswith("match"):
                    return ["c", arm[0], new] + rest
            return ["c", p[2][1]] + rest
        return None

    def rest(self, i, p, rest):
        if rest[:1] == ["inv"]:
            rest = ["invariant"] + rest[1:]
        cl = self.n["clauses"][i]
        if rest[:1] == ["ensures"] and cl and len(cl["fields"]) > 1:
            return ["ensures"] + nested(cl["fields"], rest[1:])
        if rest[:1] == ["kept"]:
            rest = ["auto"] + rest[1:]
        if rest[:1] in (["new"], ["auto"]) and p[3] in self.n["params"]:
            ps = self.n["params"][p[3]]
            k, j = 0, 1
            while j < len(rest) and rest[j] == "1":
                k += 1
                j += 1
            if j < len(rest) and rest[j] == "0" and k < len(ps):
                return [rest[0], ps[k]] + rest[j + 1 :]
        return rest


class Turner:
    """Rewrites one term."""

    def __init__(self, fn, helpers):
        self.fn, self.helpers = fn, helpers
        self.lets = []  # (name, text), in order
        self.local = {}
        self.unfold = []

    def turn(self, text, env):
        out, i = [], 0
        env = dict(env)
        while i < len(text):
            m = re.compile(r"let (" + IDENT + r") = ").match(text, i)
            if m and (i == 0 or not re.match(r"[\w.'-]", text[i - 1])):
                e = self.pathexpr(text, m.end(), env)
                if e:
                    place, fields, j = e
                    k = re.compile(r"\s*in\b\s*").match(text, j)
                    if k and (place is not None):
                        env[m.group(1)] = (place, fields)
                        i = k.end()
                        continue
            e = self.pathexpr(text, i, env) if (i == 0 or not re.match(r"[\w.'-]", text[i - 1])) else None
            if e:
                place, fields, j = e
                if fields:
                    new = self.fn.step(place, fields)
                    if new is None:
                        self.fn.todo.append(f"{place}.{'.'.join(fields)}")
                        out.append("TODO-" + place + "." + ".".join(fields))
                    else:
                        path = ".".join(new)
                        if len(new) == 3 and new[1].startswith("if-not-"):
                            self.fn.negated = True
                            path = f"(ap not {path})"
                        out.append(path)
                else:
                    out.append("at" if text[i:j] == "at" else "c")
                i = j
                continue
            m = re.compile(IDENT).match(text, i)
            if m and (i == 0 or not re.match(r"[\w.'-]", text[i - 1])) and m.group(0) in self.helpers and m.group(0) not in env:
                h = self.helpers[m.group(0)]
                j = m.end()
                k = re.compile(r"\s+").match(text, j)
                e = self.atom(text, k.end(), env) if k else None
                if e and e[0] is not None and not e[1]:
                    i = e[2]
                    given = []
                    while h["abbrev"] and len(given) < len(h["rest"]):
                        a = self.argument(text, i)
                        if not a:
                            break
                        given.append(self.turn(a[0], env))
                        i = a[1]
                    out.append(self.use(m.group(0), h, e[0], given))
                    continue
            if m:
                out.append(m.group(0))
                i = m.end()
                continue
            out.append(text[i])
            i += 1
        return "".join(out)

    def argument(self, text, i):
        """The next argument after blanks: a word with its fields, or a term in parentheses with its fields."""
        k = re.compile(r"\s+").match(text, i)
        if not k:
            return None
        j = k.end()
        if j < len(text) and text[j] == "(":
            depth, e = 0, j
            while e < len(text):
                depth += text[e] in "([{"
                depth -= text[e] in ")]}"
                e += 1
                if depth == 0:
                    break
        else:
            m = re.compile(IDENT).match(text, j)
            if not m or m.group(0) in ("in", "→", "≡", "<", "≤", "×", "+", "-", "*", "∙", "↦", "λ", "∷", "++", "at", "/", "%"):
                return None
            e = m.end()
        while True:
            m = re.compile(r"\." + IDENT).match(text, e)
            if not m:
                break
            e = m.end()
        return text[j:e], e

    def use(self, name, h, place, given=()):
        """A helper at a place: an abbreviation in parentheses, or a `let` before the answer."""
        for u in h["unfold"]:
            if u not in self.unfold:
                self.unfold.append(u)
        if h["abbrev"] and not (h["body"].startswith("record") and not h["path"]):
            body = self.turn(h["body"], {h["var"]: (place, [])})
            rest = h["rest"]
            for p, g in zip(rest, given):
                g = g if re.fullmatch(r"[\w.'-]+|\(.*\)", g, re.S) else f"({g})"
                body = re.sub(IDENT, lambda m: g if m.group(0) == p and (m.start() == 0 or body[m.start() - 1] != ".") and not re.match(r" = ", body[m.end() :]) else m.group(0), body)
            rest = rest[len(given) :]
            if rest:
                return "(λ " + " ".join(rest) + ". " + body + ")"
            return "(" + body + ")"
        key = (name, place)
        if key not in self.local:
            local = name if name not in [l[0] for l in self.lets] else f"{name}_{len(self.lets)}"
            typ = self.turn(h["type"], {h["var"]: (place, [])})
            body = self.turn(h["body"], {h["var"]: (place, [])})
            if h["rest"]:
                body = "λ " + " ".join(h["rest"]) + ". " + body
            local = local if local not in [l[0] for l in self.lets] else f"{name}_{len(self.lets)}"
            self.lets.append((local, typ, body))
            self.local[key] = local
        return f"({' '.join([self.local[key], *given])})" if given else self.local[key]

    def atom(self, text, i, env):
        if i < len(text) and text[i] == "(":
            e = self.pathexpr(text, i + 1, env)
            if e and e[2] < len(text) and text[e[2]] == ")":
                return self.fields(text, e[2] + 1, e[0], list(e[1]))
            return None
        m = re.compile(IDENT).match(text, i)
        if m and m.group(0) in env:
            place, fields = env[m.group(0)]
            return self.fields(text, m.end(), place, list(fields))
        return None

    def pathexpr(self, text, i, env):
        e = self.atom(text, i, env)
        if e:
            return e
        m = re.compile(IDENT).match(text, i)
        if m and m.group(0) in self.helpers and m.group(0) not in env:
            h = self.helpers[m.group(0)]
            if h.get("path") is not None:
                k = re.compile(r"\s+").match(text, m.end())
                e = self.atom(text, k.end(), env) if k else None
                if e and not e[1]:
                    # the helper's own path, from that place
                    t = Turner(self.fn, self.helpers)
                    r = t.pathexpr(h["body"], 0, {h["var"]: (e[0], [])})
                    if r and r[2] == len(h["body"]):
                        return r[0], list(r[1]), e[2]
        return None

    def fields(self, text, i, place, fields):
        while True:
            m = re.compile(r"\.(" + IDENT + r")").match(text, i)
            if not m:
                return place, fields, i
            if m.group(1) == "before" and not fields:
                place = self.fn.parent(place) or place
            else:
                fields.append(m.group(1))
            i = m.end()


def blocks(text):
    """(comment lines, signature, unfolding, equations) of each declaration, and the use lines."""
    uses, found, comment = [], [], []
    parts = re.split(r"\n\n+", text)
    for part in parts:
        lines = part.split("\n")
        while lines and (lines[0].startswith("--") or not lines[0].strip()):
            comment.append(lines.pop(0))
        if not lines:
            continue
        if lines[0].startswith("use "):
            uses += [l for l in lines if l.startswith("use ")]
            continue
        m = re.match(r"((?:abbrev |unfoldable |pub |record |data )*)(" + IDENT + r")", lines[0])
        name = m.group(2)
        sig, unf, eq, state = [], [], [], 0
        for l in lines:
            if state == 0 and l.startswith("unfolding "):
                unf += l.split()[1:]
                state = 1
            elif state == 0 and sig and re.match(re.escape(name) + r"(\s|$)", l):
                state = 2
                eq.append(l)
            elif state == 0:
                sig.append(l)
            elif l.startswith("unfolding "):
                unf += l.split()[1:]
            else:
                state = 2
                eq.append(l)
        found.append((comment, m.group(1).split(), name, "\n".join(sig), unf, "\n".join(eq), part))
        comment = []
    return uses, found


def split_eq(name, eq):
    """Parameters and body of a one-equation definition."""
    m = re.match(re.escape(name) + r"((?:\s+(?:\{[^}]*\}|\([^=]*?\)|[^\s=(]+))*)\s*=\s*", eq)
    if not m:
        return None
    return m.group(1).split(), eq[m.end() :]


def top_tuple(body):
    """The parts of (x, (y, z)) nested to the right, if body is such a tuple."""
    b = body.strip()
    if not (b.startswith("(") and b.endswith(")")):
        return None
    depth, comma = 0, None
    for i, ch in enumerate(b):
        if ch in "([{":
            depth += 1
        elif ch in ")]}":
            depth -= 1
            if depth == 0 and i != len(b) - 1:
                return None
        elif ch == "," and depth == 1 and comma is None:
            comma = i
    if comma is None:
        return None
    first, rest = b[1:comma], b[comma + 1 : -1].strip()
    # a flat tuple has further commas at this depth
    rest = rest.rstrip(",").rstrip()
    more = top_commas(rest)
    if more:
        return [first.strip()] + more
    inner = top_tuple(rest)
    return [first.strip()] + (inner if inner else [rest])


def top_commas(text):
    depth, parts, start = 0, [], 0
    for i, ch in enumerate(text):
        if ch in "([{":
            depth += 1
        elif ch in ")]}":
            depth -= 1
        elif ch == "," and depth == 0:
            parts.append(text[start:i].strip())
            start = i + 1
    if not parts:
        return None
    last = text[start:].strip()
    return parts + ([last] if last else [])


def clauses(body, names):
    """An answer to several named clauses: a record of them."""
    lead, rest = "", body
    while True:
        m = re.match(r"(\s*let " + IDENT + r" (?::|=)[\s\S]*?\sin\s)(?=\s*(?:let|\(|record))", rest)
        if not m:
            break
        lead += m.group(1)
        rest = rest[m.end() :]
    parts = top_tuple(rest)
    k = len(names)
    if parts and len(parts) >= k:
        if len(parts) > k:
            parts = parts[: k - 1] + ["(" + ", ".join(parts[k - 1 :]) + ")"]
        lead = lead.rstrip() + "\n    " if "\n" in lead else lead
        return lead + "record { " + "; ".join(f"{n} = {p}" for n, p in zip(names, parts)) + " }"
    path = ["all" + ".1" * i + (".0" if i < k - 1 else "") for i in range(k)]
    lead = lead.rstrip() + "\n    " if "\n" in lead else lead
    return lead + f"let all = {rest} in record {{ " + "; ".join(f"{n} = {p}" for n, p in zip(names, path)) + " }"


def joins(text, fn):
    """A choice between two branches that join: an `elim` of the step's `.branch`."""
    t = Turner(fn, {})
    while True:
        m = re.search(r"⊎_elim(?=\s)", text)
        hit = None
        for m in re.finditer(r"⊎_elim(?=\s)", text):
            a = t.argument(text, m.end())
            b = t.argument(text, a[1]) if a else None
            c = t.argument(text, b[1]) if b else None
            if c and re.fullmatch(r"c\.if-\S+\.branch", c[0]) and a[0].startswith("(λ ") and b[0].startswith("(λ "):
                hit = (m, a, b, c)
        if not hit:
            return text
        m, a, b, c = hit
        step = c[0].split(".")[1]

        def arm(x, lead, word):
            mm = re.match(r"\(λ (\S+)\. ([\s\S]*)\)$", x)
            w, body = mm.group(1), mm.group(2)
            body = re.sub(re.escape(w) + r"\.0\.(taken|left|true|false)", f"{w}.{step}.{word}", body)
            body = re.sub(r", " + re.escape(w) + r"\.1(?=[,)])", "", body)
            fn.arms.add(f"{lead}-{step[3:]}")
            return f"{lead}-{step[3:]} {w} ↦ {body}"

        text = text[: m.start()] + f"elim {c[0]} [ " + arm(a[0], "then", "true") + " | " + arm(b[0], "else", "false") + " ]" + text[c[1] :]


def convert(crate, folder, fn):
    text = open(os.path.join(folder, "Proof.antt"), encoding="utf-8").read()
    uses, decls = blocks(text)
    base = f"Rattle.{crate}.proofs.{fn.path}"
    uses = [u for u in uses if not u.startswith(f"use {base}.") and "Statement" not in u.split("{")[0]]
    head = decls[0][0] if decls else []
    inv, ans, plain = [], [], []
    helpers = fn.helpers
    seen_inv = []
    for comment, marks, name, sig, unf, eq, part in decls:
        t = sig.replace("\n", " ")
        if re.search(r": \{M : Type 1\} → statement M", t) or "tie.close" in part or "tie.spec" in part:
            continue
        m = re.match(r".*?" + re.escape(name) + r" : tie\.(invariant|decreases)-(\S+)\s*$", t)
        if m:
            kind, loop = m.group(1), m.group(2)
            se = split_eq(name, eq)
            entry = [l for l in fn.n["loops"] if norm(l[0][0]) == norm(loop)]
            if not se or not entry:
                inv.append(f"-- TODO {kind} {loop}\n{part}")
                fn.todo.append(f"loop {loop}")
                continue
            entry = entry[0]
            params, body = se
            vars_ = entry[1]
            changed = fn.changed_of(entry)
            where = {}
            rest = [v for v, ch in zip(vars_, changed) if ch]
            for j, p in enumerate(params):
                if j < len(vars_):
                    where[p] = ("l.initial." if changed[j] else "l.") + vars_[j]
                elif j - len(vars_) < len(rest):
                    where[p] = "l." + rest[j - len(vars_)]
            if len(params) != len(vars_) + len(rest):
                fn.todo.append(f"loop {loop}: {len(params)} parameters for {vars_} {changed}")
            body = re.sub(IDENT, lambda m: where.get(m.group(0), m.group(0)) if (m.start() == 0 or body[m.start() - 1] != ".") else m.group(0), body)
            new = entry[0][1]
            u = ("unfolding " + " ".join(unf) + "\n") if unf else ""
            inv.append(f"abbrev pub {kind}-{new} : goal.{kind}-{new}\n{u}{kind}-{new} l = {body}")
            continue
        m = re.match(r".*?" + re.escape(name) + r" : tie\.Need-(\S+)( .*)?$", t)
        if m:
            need = norm(m.group(1))
            for lead in ("overflow_", "nonzero_"):
                if need not in fn.needs and need.startswith(lead):
                    need = need[len(lead) :]
            if need not in fn.needs:
                fn.todo.append(f"no goal {m.group(1)}: {eq[:200]}")
                continue
            old, new = fn.needs[need]
            se = split_eq(name, eq)
            if not se:
                plain.append("-- TODO " + new + "\n" + part)
                fn.todo.append("shape of " + new)
                continue
            params, body = se
            if re.fullmatch(r"\s*(search rules|omega arith|omega \(arith\))\s*", body) and not unf:
                continue
            place = fn.at.get(need)
            turner = Turner(fn, helpers)
            fn.set_chain(place)
            made = turner.turn(body, {params[0]: (place, [])})
            made = joins(made, fn)
            asked = fn.n["asked"].get(old)
            if asked and len(asked) > 1:
                made = clauses(made, asked)
            for local, typ, b in reversed(turner.lets):
                made = f"\n    let {local} : {typ} = {b} in" + ("\n    " if not made.startswith("\n") else "") + made
            u = [x for x in unf + [x for x in turner.unfold if x not in unf] if x not in helpers]
            us = ("unfolding " + " ".join(u) + "\n") if u else ""
            more = ""
            ans.append("".join(x + "\n" for x in comment if comment is not head) + f"pub {new} : goal.{new}\n{us}{new} c{more} ={'' if made.startswith(chr(10)) else ' '}{made}")
            continue
        m = re.match(r"(?:abbrev |pub )*" + re.escape(name) + r" : \((" + IDENT + r") : tie\.(\S+?)(?: invariant-\S+)*(?: decreases-\S+)*\)(.*)$", t)
        ar = re.match(r"(?:abbrev |pub )*" + re.escape(name) + r" : tie\.([A-Z]\S+?)(?: invariant-\S+)*(?: decreases-\S+)* → (.*)$", t)
        if (m or ar) and "record" not in marks:
            se = split_eq(name, eq)
            if se:
                params, body = se
                typ = (m.group(3) if m else ar.group(2)).strip()
                typ = re.sub(r"^→\s*", "", typ)
                helpers[name] = dict(var=params[0], rest=params[1:], body=body.strip(), type=typ, abbrev="abbrev" in marks, unfold=unf, path=True if re.search(r"tie\.[A-Z]", typ) else None)
                if helpers[name]["path"] is None and "abbrev" in marks and re.fullmatch(r"[\w.()' -]+", body.strip()) and not params[1:]:
                    helpers[name]["path"] = True
                continue
        plain.append("".join(x + "\n" for x in comment if comment is not head) + "\n".join(l for l in part.split("\n") if not l.startswith("--")))
        if "tie." in part:
            fn.todo.append(f"helper {name} names a place")
    return head, uses, inv, ans, plain


def changed_of(self, entry):
    i = self.n["loops"].index(entry)
    n = 0
    for l in self.n["loops"][:i]:
        n += len(l[1])
    ch = self.n["changed"]
    if ch and isinstance(ch[0], list):
        return ch[i]
    return ch[n : n + len(entry[1])]


Fn.changed_of = changed_of


def main():
    crate, only = sys.argv[1], sys.argv[2:]
    top = os.getcwd()
    where = os.path.join(top, "crates", crate)
    gen = f"/tmp/names-{crate}"
    shutil.rmtree(gen, ignore_errors=True)
    r = subprocess.run(["rt", "check", "--generated", gen, "--old-names"], cwd=where, capture_output=True, text=True)
    if not os.path.exists(gen + "/names.json"):
        print(r.stdout[-3000:], r.stderr[-3000:])
        return 1
    names = json.load(open(gen + "/names.json"))
    for key, n in names.items():
        m = re.match(rf"Rattle-{crate}-proofs\.(.*)\.Lts$", key)
        if not m:
            continue
        path = m.group(1)
        folder = os.path.join(where, "proofs", *path.split("."))
        if not os.path.exists(os.path.join(folder, "Proof.antt")) or (only and path.split(".")[-1] not in only and path not in only):
            continue
        fn = Fn(crate, path, n)
        try:
            head, uses, inv, ans, plain = convert(crate, folder, fn)
        except Exception as e:
            print(f"{path}: {type(e).__name__} {e}")
            import traceback
            traceback.print_exc(limit=3)
            continue
        base = f"Rattle.{crate}.proofs.{path}"
        keep = os.path.join(KEEP, crate, *path.split("."))
        os.makedirs(keep, exist_ok=True)
        shutil.copy(os.path.join(folder, "Proof.antt"), os.path.join(keep, "Proof.antt"))
        os.remove(os.path.join(folder, "Proof.antt"))
        head = "\n".join(h for h in head if h.strip())
        ptext = "\n\n".join(plain)
        both = [p for p in plain if inv and re.search(r"(?<![\w.'-])" + re.escape(re.match(r"(?:--.*\n)*(?:abbrev |pub |unfoldable |record )*(" + IDENT + ")", p).group(1)) + r"(?![\w'-])", "\n".join(inv))]
        plain = [p for p in plain if p not in both]
        shared = [re.match(r"(?:--.*\n)*(?:abbrev |pub |unfoldable |record )*(" + IDENT + ")", p).group(1) for p in both]
        both = [re.sub(r"^((?:--.*\n)*)(abbrev |unfoldable )?(?!pub )(?=\S)", lambda m: m.group(1) + (m.group(2) or "") + "pub ", p, count=1) if "pub " not in p.split(":")[0] else p for p in both]
        if inv:
            with open(os.path.join(folder, "Invariants.antt"), "w", encoding="utf-8") as f:
                f.write((head + "\n" if head else "") + "\n".join(uses) + f"\nuse {base}.Given as goal\n\n" + "\n\n".join(both + inv) + "\n")
        if ans or plain:
            imp = [f"use {base}.Invariants.{{{', '.join(shared)}}}"] if shared and re.search("|".join(r"(?<![\w.'-])" + re.escape(s) + r"(?![\w'-])" for s in shared), "\n".join(ans + plain)) else []
            with open(os.path.join(folder, "Answers.antt"), "w", encoding="utf-8") as f:
                if fn.arms:
                    imp.append(f"use {base}.Goals.{{{', '.join(sorted(fn.arms))}}}")
                if fn.negated:
                    for mod, word in (("mathlib.Core.Path", "ap"), ("mathlib.Core.Bool", "not")):
                        if not any(re.search(r"[{ ]" + word + r"[,}]", u) for u in uses):
                            imp.append(f"use {mod}.{{{word}}}")
                f.write((head + "\n" if head else "") + "\n".join(uses + imp) + f"\nuse {base}.Goals as goal\n\n" + "\n\n".join(plain + ans) + "\n")
        print(f"{path}: {len(inv)} loops, {len(ans)} answers, {len(plain) + len(both)} helpers" + "".join("\n    left: " + t for t in fn.todo))
    return 0


if __name__ == "__main__":
    raise SystemExit(main())
