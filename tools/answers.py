#!/usr/bin/env python3
"""Turns proofs/F/Proof.antt, a whole proof by `tie.spec`, into Invariants.antt and Answers.antt.

usage: python3 tools/answers.py NAMES CRATE..

NAMES is the folder that `rt names NAMES` writes at the top of the repository: for each function the old and new names of goals and steps.
What it could not turn is printed; `rt check` decides.
"""
import json
import os
import re
import sys

ID = r"[A-Za-z0-9_'₀₁₂₃₄₅₆₇₈₉«»-]"
TRIVIAL = {"search rules", "omega arith"}


def norm(s):
    return s.replace("-", "_").lower()


class Names:
    def __init__(self, entry):
        self.needs = [(norm(a), b) for a, b in entry["needs"]]
        self.need = dict(self.needs)
        self.steps = {}
        for place in entry["places"]:
            old, new = place[2]
            if old:
                self.steps.setdefault(norm(old), new)
        self.places = {}
        for place, new in zip(entry["places"], entry["places_by_name"]):
            self.places[norm(place[0])] = new
        self.loops = {}
        for loop, changed in zip(entry["loops"], entry["changed"]):
            (old, new), variables = loop
            self.loops[norm(old)] = (new, variables, changed)
        self.asked = {norm(k): v for k, v in entry["asked"].items()}
        self.clause_names = {}
        for place, clause in zip(entry["places"], entry["clauses"]):
            if clause and clause.get("fields") and len(clause["fields"]) > 1 and place[2][0]:
                self.clause_names[norm(place[2][0])] = clause["fields"]
        pre = entry.get("pre")
        self.pre = pre["fields"] if pre and len(pre.get("fields") or []) > 1 else None
        self.arms = {}
        for arm in entry["arms"]:
            if not arm:
                continue
            for field, step, path in arm[2]:
                if not field.endswith("-own") and path:
                    self.arms.setdefault((norm(step), tuple(path)), f"{arm[0]}.{field}")
        self.given = {}
        for typed in entry["typed"]:
            for var, step in typed:
                self.given.setdefault(norm(step), var)


def blocks(text):
    out, now = [], []
    for line in text.split("\n"):
        if not line.strip():
            if now:
                now.append(line)
            continue
        if not line.startswith(" ") and now and not now[-1].strip():
            out.append("\n".join(now).rstrip())
            now = []
        now.append(line)
    if now:
        out.append("\n".join(now).rstrip())
    return out


def matching(t, i):
    deep = 0
    for k in range(i, len(t)):
        if t[k] in "([{":
            deep += 1
        elif t[k] in ")]}":
            deep -= 1
            if not deep:
                return k
    return -1


def pieces(t):
    """The arguments of an application: parenthesised groups and words."""
    out, i = [], 0
    while i < len(t):
        if t[i].isspace():
            i += 1
        elif t[i] == "(":
            k = matching(t, i)
            out.append(t[i : k + 1])
            i = k + 1
        else:
            k = i
            while k < len(t) and not t[k].isspace() and t[k] not in "()":
                k += 1
            out.append(t[i:k])
            i = k
    return out


def commas(t):
    out, deep, start = [], 0, 0
    for k, ch in enumerate(t):
        if ch in "([{":
            deep += 1
        elif ch in ")]}":
            deep -= 1
        elif ch == "," and not deep:
            out.append(t[start:k])
            start = k + 1
    out.append(t[start:])
    return [p.strip() for p in out if p.strip()]


def clause_path(names, digits):
    """What the digits 0 and 1 of a nested pair select, as the clause's name and the digits that are left."""
    i, digits = 0, list(digits)
    while digits and digits[0] == "1" and i < len(names) - 1:
        digits.pop(0)
        i += 1
    if i < len(names) - 1:
        if not digits or digits[0] != "0":
            return None
        digits.pop(0)
    return [names[i]] + digits


PLAIN = {"type-inv": "type_inv", "well-formed": "well_formed"}
FIRST = {"pre": "requires", "fits": "ranges"}
SAME = {"entry_isplace": "entry_place", "has_key_lem": "has_key", "store_bytes": "store_bytes"}


class Turn:
    def __init__(self, names, said):
        self.n = names
        self.said = said
        self.helpers = {}
        self.contexts = set()

    # ---- paths
    def path(self, body, var):
        """Turns the paths that begin at var (the goal's context) or at a place named by a let."""
        aliases = {var}
        for _ in range(8):
            m = re.search(r"let\s+(" + ID + r"+)\s*=\s*(" + ID + r"+)((?:\.before)*)\s+in\b[ ]*\n?[ ]*", body)
            found = False
            for m in re.finditer(r"let\s+(" + ID + r"+)\s*=\s*(" + ID + r"+)((?:\.before)*)\s+in\b", body):
                if m[2] in aliases:
                    aliases.add(m[1])
                    head, tail = body[: m.start()], body[m.end() :]
                    body = head + tail.lstrip(" ") if not tail.startswith("\n") else re.sub(r"[ ]*$", "", head) + (tail if head.strip() and not head.rstrip(" ").endswith("\n") else tail.lstrip("\n"))
                    found = True
                    break
            if not found:
                break
        if self.contexts:
            inner = "|".join(re.escape(a) for a in sorted(aliases, key=len, reverse=True))
            outer = "|".join(re.escape(a) for a in sorted(self.contexts, key=len, reverse=True))
            body = re.sub(r"\((?:" + outer + r")\s+(?:" + inner + r")(?:\.before)*\)", lambda m: var, body)
        # a let that names one step is written out
        for _ in range(20):
            names = "|".join(re.escape(a) for a in sorted(aliases, key=len, reverse=True))
            m = re.search(r"let\s+(" + ID + r"+)\s*=\s*((?:" + names + r")(?:\.before)*\.(" + ID + r"+)(\.ensures)?)\s+in\b", body)
            while m and (m[3] in ("args", "requires", "ranges") or (m[4] and norm(m[3]) not in self.n.clause_names) or re.match(r"loop(_?\d*)$", norm(m[3]))):
                m = re.compile(r"let\s+(" + ID + r"+)\s*=\s*((?:" + names + r")(?:\.before)*\.(" + ID + r"+)(\.ensures)?)\s+in\b").search(body, m.end())
            if not m:
                break
            head, tail = body[: m.start()], body[m.end() :]
            tail = re.sub(r"(?<![A-Za-z0-9_'.₀-₉-])" + re.escape(m[1]) + r"(?![A-Za-z0-9_'₀-₉-])", lambda q: m[2], tail)
            body = head + tail.lstrip(" ") if not tail.startswith("\n") else re.sub(r"[ ]*$", "", head) + (tail if head.strip() and not head.rstrip(" ").endswith("\n") else tail.lstrip("\n"))
        names = "|".join(re.escape(a) for a in sorted(aliases, key=len, reverse=True))

        def one(m):
            rest = m[2]
            fields = [PLAIN.get(f, f) for f in rest.split(".") if f]
            while fields and fields[0] == "before":
                fields.pop(0)
            if not fields:
                return "c" if not rest else "c"
            if fields[0] in FIRST and norm(fields[0]) not in self.n.steps:
                fields[0] = FIRST[fields[0]]
            first = norm(fields[0])
            first = SAME.get(first, first)
            for k in range(len(fields), 1, -1):
                if (first, tuple(fields[1:k])) in self.n.arms:
                    return ".".join(["c", self.n.arms[(first, tuple(fields[1:k]))]] + fields[k:])
            if fields[0] == "requires" and self.n.pre and len(fields) > 1:
                got = clause_path(self.n.pre, fields[1:])
                if got:
                    return ".".join(["c", "requires"] + got)
                self.said("requires " + ".".join(fields))
            if len(fields) > 2 and fields[1] == "ensures" and first in self.n.clause_names and fields[2] in ("0", "1"):
                got = clause_path(self.n.clause_names[first], fields[2:])
                if got:
                    return ".".join(["c", self.n.steps.get(first, fields[0]), "ensures"] + got)
                self.said("ensures " + ".".join(fields))
            if len(fields) > 1 and fields[1] in ("given",) and first in self.n.given:
                return ".".join(["c.type_inv", self.n.given[first]] + fields[2:])
            if fields[0] in ("args", "requires", "ranges", "lifetimes", "type_inv", "well_formed"):
                return ".".join(["c"] + fields)
            if len(fields) == 2 and fields[1] == "ok":
                fields[1] = "type_inv"
            if first in self.n.steps:
                new = self.n.steps[first]
                return ".".join(["c", new] + fields[1:])
            self.said(f"step {fields[0]} is not known")
            return ".".join(["c"] + fields)

        body = re.sub(r"(?<![A-Za-z0-9_'.₀-₉-])(" + names + r")((?:\.[A-Za-z0-9_'«»-]*[A-Za-z0-9_'«»])*)(?![A-Za-z0-9_'₀-₉])", one, body)
        # a test of `!x` says today what x is
        return re.sub(r"(?<![A-Za-z0-9_'.-])not-(?:true|false) (?:_|\([^()]*\)|[A-Za-z0-9_.'-]+) (c\.(?:if|loop)-not-[A-Za-z0-9_.'-]*\.(?:true|false))", r"\1", body)

    # ---- helpers that take a context
    def add_helper(self, name, extras, kind, text, unf):
        if extras:
            kind = " ".join(f"({x})" for x in extras) + " → " + kind
            text = "λ " + " ".join(x.split(":")[0].strip() for x in extras) + ". " + text
        self.helpers[name] = (" ".join(kind.split()), text, unf)

    def with_helpers(self, body):
        """The helpers that body calls, as lets before it, and the definitions that they unfold."""
        called = lambda h, t: re.search(r"(?<![A-Za-z0-9_'.-])" + re.escape(h) + r"\s+c(?![A-Za-z0-9_'.-])", t)
        used, grew = [], True
        while grew:
            grew = False
            joined = body + " " + " ".join(self.helpers[h][0] + " " + self.helpers[h][1] for h in used)
            for h in self.helpers:
                if h not in used and called(h, joined):
                    used.append(h)
                    grew = True
        if not used:
            return body, []
        order = [h for h in self.helpers if h in used]

        def strip(t):
            for h in order:
                t = re.sub(r"(?<![A-Za-z0-9_'.-])" + re.escape(h) + r"\s+c(?![A-Za-z0-9_'.-])", h, t)
            return re.sub(r"\(((?:" + "|".join(re.escape(h) for h in order) + r"))\)", r"\1", t)

        lets = "".join(f"\n    let {h} : {strip(self.helpers[h][0])} = {strip(self.helpers[h][1])} in" for h in order)
        unf = [u for h in order for u in self.helpers[h][2]]
        return lets + "\n    " + strip(body).strip(), unf

    def clauses(self, need, body):
        names = self.n.asked.get(norm(need))
        if not names or len(names) < 2:
            return body
        m = re.search(r"(?:\bin|^)\s*(\(.*)$", body.strip(), re.S)
        t = body.strip()
        # the tail behind the last top-level `in`
        deep, at = 0, 0
        for k in range(len(t)):
            if t[k] in "([{":
                deep += 1
            elif t[k] in ")]}":
                deep -= 1
            elif not deep and t.startswith("in", k) and (k == 0 or t[k - 1].isspace()) and k + 2 < len(t) and (t[k + 2].isspace() or t[k + 2] == "("):
                at = k + 2
        head, tail = t[:at], t[at:].strip()
        if tail.startswith("(") and matching(tail, 0) == len(tail) - 1:
            parts = commas(tail[1:-1])
            while 1 < len(parts) < len(names) and parts[-1].startswith("(") and matching(parts[-1], 0) == len(parts[-1]) - 1:
                parts = parts[:-1] + commas(parts[-1][1:-1])
            if len(parts) == len(names):
                return head + " record { " + "; ".join(f"{n} = {p}" for n, p in zip(names, parts)) + " }"
        if tail in TRIVIAL:
            return head + " record { " + "; ".join(f"{n} = {tail}" for n in names) + " }"
        self.said(f"clauses of {need} by hand: {', '.join(names)}")
        proj = ["p.0", "p.1.0", "p.1.1.0", "p.1.1.1.0"][: len(names) - 1]
        last = "p" + ".1" * (len(names) - 1)
        return head + f" let p = {tail} in record {{ " + "; ".join(f"{n} = {q}" for n, q in zip(names, proj + [last])) + " }"

    def body(self, need, var, text):
        text, unf = self.with_helpers(self.path(text, var))
        return self.clauses(need, text), unf

    def module(self, code, where):
        """Takes a module whose parameter is a context: its members become helpers. False where a member has another form."""
        lines = code.split("\n")
        head = lines[0]
        k = 0
        while k < len(lines) and not lines[k].rstrip().endswith("where"):
            k += 1
        if k == len(lines):
            return False
        head = " ".join(l.strip() for l in lines[: k + 1])
        groups = re.findall(r"\(([^():]+:(?:[^()]|\([^()]*\))*)\)", head)
        ctx = [g for g in groups if re.search(r":\s*tie\.[A-Z]", g)]
        if len(ctx) != 1 or groups[0] != ctx[0]:
            return False
        var = ctx[0].split(":")[0].strip()
        if " " in var:
            return False
        extras = []
        for g in groups[1:]:
            vs, ty = g.split(":", 1)
            extras += [f"{v} : {ty.strip()}" for v in vs.split()]
        members, now = [], []
        body = "\n".join(l[2:] if l.startswith("  ") else l for l in lines[k + 1 :])
        ok = []
        for block in blocks(body):
            if all(l.startswith("--") for l in block.split("\n")):
                continue
            code = "\n".join(l for l in block.split("\n") if not l.startswith("--"))
            m = re.match(r"(?:unfoldable |abbrev )?(?:pub )?(" + ID + r"+) :", code)
            if not m:
                return False
            comment, sig, unf, eqs = equation(code, m[1])
            if len(eqs) != 1:
                return False
            ok.append((m[1], sig, unf, eqs[0]))
        names = [n for n, *_ in ok]
        for name, sig, unf, eq in ok:
            kind = sig.split(":", 1)[1].strip()
            m2 = re.match(re.escape(name) + r"((?:\s+[^=\s]+)*)\s*=(.*)$", eq, re.S)
            params, text = m2[1].split(), m2[2].strip()
            if re.match(r"tie\.[A-Z]", kind) and re.match(ID + r"+((?:\.before)*)$", text):
                self.contexts.add(name)
                continue
            if re.search(r"\n\s*where\b", text):
                return False
            def turned(t):
                for c in self.contexts:
                    t = re.sub(r"(?<![A-Za-z0-9_'.-])" + re.escape(c) + r"(?![A-Za-z0-9_'-])(?!\s+" + re.escape(var) + r"\b)", var, t) if c in names else t
                t = self.path(t, var)
                for other in names:
                    if other != name and other not in self.contexts:
                        t = re.sub(r"(?<![A-Za-z0-9_'.-])" + re.escape(other) + r"(?![A-Za-z0-9_'-])", other + " c" + "".join(" " + x.split(":")[0].strip() for x in extras), t)
                return t
            kind, text = turned(kind), turned(text)
            # an application of a member stands in parentheses where it is an argument
            for other in names:
                call = other + " c" + "".join(" " + x.split(":")[0].strip() for x in extras)
                if extras:
                    text = text.replace(call, "(" + call + ")")
            if params:
                text = "λ " + " ".join(params) + ". " + text
            self.add_helper(name, extras, kind, text, re.findall(ID + r"+", unf)[1:] if unf else [])
        return True


def equation(block, name):
    """Splits a block into comment, signature, unfolding line and the right side of its one equation."""
    lines = block.split("\n")
    comment = []
    while lines and lines[0].startswith("--"):
        comment.append(lines.pop(0))
    sig, unf, eqs = [], "", []
    state = "sig"
    for line in lines:
        if state == "sig" and line.startswith("unfolding"):
            unf = line
            state = "eq"
            continue
        if state in ("sig", "eq") and re.match(re.escape(name) + r"(\s|$)", line) and not re.match(re.escape(name) + r"\s*:(?!=)", line):
            state = "eq"
            eqs.append([line])
            continue
        if state == "eq" and eqs:
            eqs[-1].append(line)
        elif state == "eq":
            unf += "\n" + line
        else:
            sig.append(line)
    return comment, "\n".join(sig), unf, ["\n".join(e) for e in eqs]


def with_unfolding(line, more):
    have = re.findall(ID + r"+", line)[1:] if line else []
    words = have + [w for w in dict.fromkeys(more) if w not in have]
    return "unfolding " + " ".join(words) if words else ""


def turn_file(crate, folder, rel, entry, say):
    path = os.path.join(folder, "Proof.antt")
    text = open(path, encoding="utf-8").read()
    names = Names(entry)
    where = f"{crate}/{rel}"
    t = Turn(names, lambda s: say(f"{where}: {s}"))
    uses, comments, answers, invariants = [], [], [], []
    spec = None
    known = {}
    order = []
    for block in blocks(text):
        rest = []
        for line in block.split("\n"):
            if re.match(r"(pub )?use ", line):
                uses.append(line)
            else:
                rest.append(line)
        block = "\n".join(rest).strip("\n")
        if not block.strip():
            continue
        if all(l.startswith("--") for l in block.split("\n")):
            comments.append(block)
            continue
        code = "\n".join(l for l in block.split("\n") if not l.startswith("--"))
        if "tie.close" in code:
            spec = code
            continue
        m = re.match(r"(?:pub )?(" + ID + r"+) : tie\.Need-(" + ID + r"+)(.*)", code)
        if m:
            name, need = m[1], m[2]
            comment, sig, unf, eqs = equation(block, name)
            if norm(need) not in names.need:
                ends = [k for k in names.need if norm(need).replace("overflow_", "").replace("nonzero_", "").replace("slice_bounds_", "part_") == k]
                if len(ends) == 1:
                    need = ends[0]
            if norm(need) not in names.need:
                say(f"{where}: no goal {need} today ({name})")
                answers.append(("left", name, block))
                known[name] = None
                continue
            if len(eqs) != 1:
                say(f"{where}: {name} has {len(eqs)} equations")
                answers.append(("left", name, block))
                continue
            m2 = re.match(re.escape(name) + r"((?:\s+[^=\s]+)*)\s*=(.*)$", eqs[0], re.S)
            params = m2[1].split()
            var = params[0] if params else "c"
            new = names.need[norm(need)]
            known[name] = norm(need)
            body = m2[2]
            tail = ""
            w = re.search(r"\n  where\b", body)
            if w:
                body, tail = body[: w.start()], body[w.start() :]
                tail = t.path(tail, var)
            if not params:
                say(f"{where}: {name} has no parameter")
            new_body, more = t.body(need, var, body)
            answers.append(("need", new, comment, with_unfolding(unf, more), new_body.strip("\n"), tail))
            continue
        m = re.match(r"(?:unfoldable |abbrev )?(?:pub )?(" + ID + r"+) : tie\.(invariant|decreases)-(" + ID + r"+)", code)
        if m:
            name, kind, loop = m[1], m[2], m[3]
            comment, sig, unf, eqs = equation(block, name)
            if norm(loop) not in names.loops or len(eqs) != 1:
                say(f"{where}: {kind} of {loop} by hand")
                invariants.append(block)
                continue
            new, variables, changed = names.loops[norm(loop)]
            m2 = re.match(re.escape(name) + r"((?:\s+[^=\s]+)*)\s*=(.*)$", eqs[0], re.S)
            params = m2[1].split()
            body = m2[2]
            ch = [v for v, x in zip(variables, changed) if x]
            if len(params) != len(variables) + len(ch):
                say(f"{where}: {kind} of {loop} has {len(params)} parameters, not {len(variables)} + {len(ch)}")
            sub = {}
            for p, v, x in zip(params, variables, changed):
                sub[p] = f"l.initial.{v}" if x else f"l.{v}"
            for p, v in zip(params[len(variables) :], ch):
                sub[p] = f"l.{v}"
            sub.pop("_", None)
            if sub:
                pat = "|".join(re.escape(p) for p in sorted(sub, key=len, reverse=True))
                body = re.sub(r"(?<![A-Za-z0-9_'.₀-₉«-])(" + pat + r")(?![A-Za-z0-9_'₀-₉-])", lambda q: sub[q[1]], body)
            body = re.sub(r"\(to_z w\d+ (l\.[A-Za-z0-9_.]+)\)", r"\1", body)
            body = re.sub(r"(?<![A-Za-z0-9_'])to_z w\d+ (l\.[A-Za-z0-9_.]+)", r"\1", body)
            known[name] = kind
            invariants.append("\n".join(comment + [f"abbrev pub {kind}-{new} : goal.{kind}-{new}"] + ([unf] if unf else []) + [f"{kind}-{new} l ={body}"]))
            continue
        m = re.match(r"(?:pub )?(" + ID + r"+) :", code)
        if m and re.search(r"tie\.[A-Z]", code):
            name = m[1]
            comment, sig, unf, eqs = equation(block, name)
            m1 = re.match(r"(?:pub )?" + re.escape(name) + r"\s*:\s*\((" + ID + r"+) : tie\.(" + ID + r"+)([^)]*)\)\s*(?:→)?\s*(.*)$", sig, re.S)
            if not m1 or len(eqs) != 1:
                say(f"{where}: helper {name} by hand")
                answers.append(("left", name, block))
                continue
            m2 = re.match(re.escape(name) + r"((?:\s+[^=\s]+)*)\s*=(.*)$", eqs[0], re.S)
            params = m2[1].split()
            if not params:
                say(f"{where}: helper {name} by hand")
                answers.append(("left", name, block))
                continue
            kind = t.path(m1[4], m1[1]).strip()
            text1 = t.path(m2[2], params[0]).strip()
            if len(params) > 1:
                text1 = "λ " + " ".join(params[1:]) + ". " + text1
            if "\n  where" in text1:
                say(f"{where}: helper {name} has a where: by hand")
            t.add_helper(name, [], kind, text1, re.findall(ID + r"+", unf)[1:] if unf else [])
            continue
        if code.startswith("module") and re.search(r"tie\.[A-Z]", code):
            if not t.module(code, where):
                say(f"{where}: a module with a context by hand")
                answers.append(("left", None, block))
            continue
        answers.append(("other", None, block))
    # the inline answers of tie.spec
    if spec is None:
        say(f"{where}: no tie.spec")
        return False
    i = spec.index("tie.spec") + len("tie.spec")
    start = spec.rfind("(", 0, spec.index("tie.spec"))
    end = matching(spec, start) if start >= 0 else -1
    args = pieces(spec[i : end if end > 0 else len(spec)])
    seq = []
    for a in args:
        if a.startswith("("):
            inner = a[1:-1].strip()
            m = re.match(r"λ\s+([^.]+)\.\s*(.*)$", inner, re.S)
            if m:
                seq.append(("inline", m[1].split(), m[2].strip()))
            else:
                seq.append(("inline", [], inner))
        elif a in known:
            k = known[a]
            if k in ("invariant", "decreases"):
                continue
            seq.append(("known", k))
        else:
            seq.append(("word", a))
    needs = [a for a, _ in names.needs]
    pos, todo = 0, []
    i = 0
    while i < len(seq):
        j = i
        gap = []
        while j < len(seq) and not (seq[j][0] == "known" and seq[j][1] in needs):
            gap.append(seq[j])
            j += 1
        upto = needs.index(seq[j][1]) if j < len(seq) else len(needs)
        room = needs[pos:upto]
        for k, g in enumerate(gap):
            if g[0] == "inline" and g[2] in TRIVIAL or g == ("known", None):
                continue
            if len(gap) == len(room):
                todo.append((room[k], g))
            else:
                say(f"{where}: an inline answer has no place: {g} among {room}")
        pos = upto + 1
        i = j + 1
    for need, g in todo:
        new = names.need[need]
        if g[0] in ("word", "known"):
            say(f"{where}: {need} is answered by {g[1]}")
            answers.append(("need", new, [], "", g[1] + " c", ""))
        elif g[1]:
            new_body, more = t.body(need, g[1][0], g[2])
            answers.append(("need", new, [], with_unfolding("", more), new_body, ""))
        else:
            say(f"{where}: {need} is answered by {g}")
            answers.append(("need", new, [], "", f"({g[2]}) c", ""))
    prefix = f"Rattle.{crate}.proofs.{rel.replace('/', '.')}"
    keep = [u for u in uses if not re.search(r"\.(Statement|Tie)\b", u) or "proofs" not in u]
    keep = [u for u in keep if not u.startswith(f"use {prefix}.")]
    if invariants:
        head = comments[:1] + keep + [f"use {prefix}.Given as goal"]
        with open(os.path.join(folder, "Invariants.antt"), "w", encoding="utf-8") as f:
            f.write("\n".join(head) + "\n\n" + "\n\n".join(invariants) + "\n")
    real = [a for a in answers if a[0] != "other"]
    if real:
        head = comments[:1] + keep + [f"use {prefix}.Goals as goal"]
        parts = []
        for a in answers:
            if a[0] == "need":
                _, new, comment, unf, body, tail = a
                sep = "" if body.startswith("\n") else " "
                parts.append("\n".join(comment + [f"pub {new} : goal.{new}"] + ([unf] if unf else []) + [f"{new} c ={sep}{body}{tail}"]))
            else:
                parts.append(a[2])
        with open(os.path.join(folder, "Answers.antt"), "w", encoding="utf-8") as f:
            f.write("\n".join(head) + "\n\n" + "\n\n".join(parts) + "\n")
    elif any(a[0] == "other" for a in answers):
        say(f"{where}: only lemmas are left, dropped with the file")
    os.remove(path)
    return True


def main(argv):
    if len(argv) < 2 or argv[0] in ("-h", "--help"):
        print(__doc__)
        return 0 if argv and argv[0] in ("-h", "--help") else 2
    for crate in argv[1:]:
        with open(os.path.join(argv[0], "crates", crate, "names.json"), encoding="utf-8") as f:
            table = json.load(f)
        top = os.path.join("crates", crate, "proofs")
        for folder, dirs, files in sorted(os.walk(top)):
            dirs.sort()
            if folder == top or "Proof.antt" not in files:
                continue
            rel = os.path.relpath(folder, top)
            key = f"Rattle-{crate}-proofs.{rel.replace('/', '.')}.Lts"
            text = open(os.path.join(folder, "Proof.antt"), encoding="utf-8").read()
            if "tie.spec" not in text:
                print(f"{crate}/{rel}: a walk by hand, or of another form: left")
                continue
            if key not in table:
                print(f"{crate}/{rel}: not in names.json ({key})")
                continue
            turn_file(crate, folder, rel, table[key], print)
    return 0


if __name__ == "__main__":
    raise SystemExit(main(sys.argv[1:]))
