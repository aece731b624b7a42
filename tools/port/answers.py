#!/usr/bin/env python3
"""Turns the proofs of a crate that walk the code by hand (Proof.antt) into invariants and answers, by the names that a check lists.

usage: python3 tools/port/answers.py CRATE NAMES        at the top of the repository

NAMES is the names.json that 'rt check --generated DIR --old-names' writes for the crate. Each proofs/F/Proof.antt becomes Invariants.antt and Answers.antt;
what a tactic does on its own is left out. It proves nothing: a line 'left:' names what has to be written by hand, and rt check decides.
"""
import glob
import json
import os
import re
import sys

WORD = r"[^\s(){}.;,@\"«»\[\]\\`\x00]+"
TOKEN = re.compile(r"--[^\n]*|" + WORD + r"(?:\." + WORD + r")*")
TRIVIAL = re.compile(r"^(omega arith|search rules|omega \(arith\))$")


def plain(s):
    return re.sub("_lem$", "", s).replace("_", "-").replace("overflow-", "")


def signatures(root):
    """For each function: the names of its requires and of its ensures."""
    found = {}
    for f in glob.glob(f"{root}/crates/*/src/**/*.rt", recursive=True):
        crate = f.split("/crates/")[1].split("/")[0]
        mod = os.path.relpath(f, f"{root}/crates/{crate}/src")[:-3].replace("/", "::")
        mod = "" if mod in ("lib", "main") else mod + "::"
        text = open(f, encoding="utf-8").read()
        kind = ""
        for line in text.split("\n"):
            m = re.match(r"impl (\w+)", line)
            if m:
                kind = m.group(1) + "::"
            if line.startswith("}"):
                kind = ""
            m = re.match(r"\s*(?:pub(?:\(\w+\))? |unsafe |const |extern \"C\" )*fn (\w+)", line)
            if m:
                key = f"{crate}::{mod}{kind}{m.group(1)}"
                found[key] = {"requires": [], "ensures": []}
            m = re.match(r"\s*(requires|ensures)\s*(\w+)?\s*\{", line)
            if m and key:
                found[key][m.group(1)].append(m.group(2))
    return found


def lookup(found, callee):
    if callee is None:
        return None
    if callee in found:
        return found[callee]
    last = [k for k in found if k.split("::")[0] == callee.split("::")[0] and k.split("::")[-1] == callee.split("::")[-1]]
    return found[last[0]] if len(last) == 1 else None


def by_name(parts, names):
    """The path of a fact among several: 1.0 becomes the second's name."""
    if not names or len(names) < 2:
        return parts
    i = 0
    for k in range(len(names)):
        last = k == len(names) - 1
        if last:
            return [names[k]] + parts[i:]
        if i >= len(parts):
            return parts
        if parts[i] == "0":
            return [names[k]] + parts[i + 1 :]
        if parts[i] != "1":
            return parts
        i += 1
    return parts


def split_top(s):
    out, depth, cur = [], 0, ""
    for ch in s:
        if ch in "([{":
            depth += 1
        if ch in ")]}":
            depth -= 1
        if ch == "," and depth == 0:
            out.append(cur)
            cur = ""
        else:
            cur += ch
    out.append(cur)
    return [it.strip() for it in out if it.strip()]


def tuple_at_end(body):
    """Where the tuple that a body ends in begins, or None."""
    s = body.rstrip()
    if not s.endswith(")"):
        return None
    depth = 0
    for i in range(len(s) - 1, -1, -1):
        depth += s[i] == ")"
        depth -= s[i] == "("
        if depth == 0:
            before = s[:i].rstrip()
            return i if before == "" or before.endswith((" in", "\nin", "=")) or before == "" else None
    return None


def flat(items, n):
    while len(items) < n and items[-1].startswith("(") and tuple_at_end(items[-1]) == 0:
        more = split_top(items[-1][1:-1])
        if len(more) < 2:
            break
        items = items[:-1] + more
    return items if len(items) == n else None


class Function:
    def __init__(self, crate, path, d, found):
        self.crate, self.path, self.d, self.found = crate, path, d, found
        self.mod = f"Rattle.{crate}.proofs.{path}"
        self.left, self.inlined = [], {}
        rows = d["places"]
        skip = {r[0]: r[1] for r in rows if r[2][1] == "never"}

        def real(p):
            while p in skip:
                p = skip[p]
            return p

        self.index = {r[0]: i for i, r in enumerate(rows)}
        self.parent = {r[0]: real(r[1]) for r in rows}
        self.step = {r[0]: r[2] for r in rows}
        self.callee = {r[0]: r[3] for r in rows}
        self.real = real
        self.needs = {}
        for (old, new), (place, _) in zip(d["needs"], d["asked_at"]):
            self.needs.setdefault(plain(old), (new, real(place)))
        self.loops = {l[0][0]: (l[0][1], l[1], ch) for l, ch in zip(d["loops"], d["changed"])}
        name = path.split(".")[-1].lstrip("+")
        self.own = lookup(found, f"{crate}::" + "::".join(p.lstrip("+") for p in path.split(".")))

    def goal(self, old):
        """The goal of an old name. One that was named by a temporary of the code is the next of its kind."""
        got = self.needs.get(old)
        m = re.match(r"(.+-t)(\d+)$", old)
        if got is None and m:
            later = [(int(k[len(m.group(1)) :]), v) for k, v in self.needs.items() if re.match(re.escape(m.group(1)) + r"\d+$", k)]
            later = sorted((n, v) for n, v in later if 0 <= n - int(m.group(2)) <= 2)
            got = later[0][1] if later else None
        return got

    def inline(self, spec, given):
        """The goals that the last step answers by a term of its own, with that term: by their place between those that have a name."""
        m = re.search(r"\(tie\.spec\b(.*)\)\s*$", spec, re.S)
        if not m:
            return
        args, s, i = [], m.group(1), 0
        while i < len(s):
            if s[i].isspace():
                i += 1
                continue
            j, depth = i, 0
            while j < len(s) and (depth or not s[j].isspace()):
                depth += s[j] == "("
                depth -= s[j] == ")"
                j += 1
            args.append(" ".join(s[i:j].split()))
            i = j
        args = [a for a in args if not re.match(r"(invariant|decreases)", a)]
        order = [n for o, n in self.d["needs"] if n != "never-requires"]
        known = {k: order.index(given[a][0]) for k, a in enumerate(args) if given.get(a) and given[a][0] in order}
        where = {n: self.real(p) for (o, n), (p, _) in zip(self.d["needs"], self.d["asked_at"])}
        known[-1] = -1
        known[len(args)] = len(order)
        for k, a in enumerate(args):
            m = re.match(r"\(λ c(?: κs)?\. (.*)\)$", a, re.S)
            if not m or TRIVIAL.match(m.group(1)) or k in known:
                continue
            lo, hi = max(i for i in known if i < k), min(i for i in known if i > k)
            if hi - lo == known[hi] - known[lo]:
                goal = order[known[lo] + k - lo]
                yield (goal, where[goal]), m.group(1)
            else:
                self.left.append(f"an answer in the last step: {a}")

    def resolve(self, place, parts):
        cur, i = place, 0
        # how many places lie between differs from the older check's: a step is found by its name
        while i < len(parts) and parts[i] == "before":
            i += 1
        if i == len(parts):
            return None
        s, rest = parts[i], parts[i + 1 :]
        if s in ("fits", "ranges"):
            return ["ranges"] + rest
        if s == "args":
            return [s] + rest
        if s == "requires":
            return [s] + by_name(rest, self.own and self.own["requires"])
        if s in ("well-formed", "well_formed"):
            return ["well_formed"] + rest
        at = cur
        while at is not None and plain(self.step[at][0]) != plain(s):
            at = self.parent.get(at)
        if at is None:
            self.left.append("step " + s)
            return None
        arm = self.d["arms"][self.index[at]]
        if arm:
            for new, old, prefix in arm[2]:
                if plain(old) == plain(s) and rest[: len(prefix)] == prefix:
                    if new.endswith("-own"):
                        continue
                    return [arm[0], new] + rest[len(prefix) :]
        new = self.step[at][1]
        if rest and rest[0] == "ensures":
            sig = lookup(self.found, self.callee.get(at))
            rest = ["ensures"] + by_name(rest[1:], sig and sig["ensures"])
        if rest and rest[0] in ("new", "auto") and len(rest) > 1 and rest[1] in "01":
            params = self.d["params"].get(self.callee.get(at)) or []
            k = 0
            while k + 1 < len(rest) and rest[k + 1] == "1":
                k += 1
            if k < len(params) and rest[k + 1 : k + 2] == ["0"]:
                rest = [rest[0], params[k]] + rest[k + 2 :]
            else:
                self.left.append(".".join(rest))
        return [new] + rest

    def paths(self, body, place):
        aliases = {"c": place}

        def apart(m):
            names = [it for it in re.split(r"[(),\s]+", m.group(1)) if it]
            k = len(names) - 1
            return "".join(f"let {n} = {m.group(2)}" + ".1" * j + ("" if j == k else ".0") + " in " for j, n in enumerate(names))

        body = re.sub(r"let (\([^=\n]*\)) = (\w+(?:\.[^\s(){};,]+)*\.ensures) in ?", apart, body)

        def alias(m):
            if m.group(2) not in aliases:
                return m.group(0)
            aliases[m.group(1)] = aliases[m.group(2)]
            return ""

        while True:
            new = re.sub(r"let (\S+) = (\S+?)((?:\.before)*) in\s*", lambda m: alias(m) if m.group(2) in aliases else m.group(0), body, count=0)
            if new == body:
                break
            body = new

        marks = []
        # a lemma over the record of a place stands where it was cited
        for name, what in self.inlined.items():
            mark = f"\x00{len(marks)}\x00"
            marks.append((mark, f"({what})"))
            body = re.sub(r"\(?(?<![\w.'-])" + re.escape(name) + r" (\w+)((?:\.before)*)(?![\w.'-])\)?", lambda m: m.group(0) if m.group(1) not in aliases else mark if m.group(0)[0] + m.group(0)[-1] == "()" else m.group(0).replace(m.group(0).strip("()"), mark), body)

        # a name for a step or a fact of it: what follows its dot is read with it
        steps = {}
        for m in re.finditer(r"let (\S+) = ([^\s.]+)((?:\.[^\s(){};,]+)+) in\s", body):
            parts = m.group(3).split(".")[1:]
            if m.group(2) in aliases and m.group(1) not in aliases:
                steps[m.group(1)] = (aliases[m.group(2)], parts)
            elif m.group(2) in steps:
                steps[m.group(1)] = (steps[m.group(2)][0], steps[m.group(2)][1] + parts)

        def one(m):
            t = m.group(0)
            if t.startswith("--"):
                return t
            parts = t.split(".")
            if parts[0] in steps and len(parts) > 1:
                place, to = steps[parts[0]]
                head, whole = self.resolve(place, to), self.resolve(place, to + parts[1:])
                if head is None or whole is None:
                    return t
                if whole[: len(head)] == head:
                    return ".".join([parts[0]] + whole[len(head) :])
                return "c." + ".".join(whole)
            if parts[0] not in aliases or (len(parts) == 1 and parts[0] == "c"):
                return t
            if len(parts) == 1:
                self.left.append("record " + t)
                return "c"
            new = self.resolve(aliases[parts[0]], parts[1:])
            if new is None:
                self.left.append("path " + t)
                return "c." + ".".join(parts[1:])
            return "c." + ".".join(new)

        body = TOKEN.sub(one, body)
        for mark, what in marks:
            body = body.replace(mark, what)
        # a step that only the check names has gone into the arm above it
        for m in list(re.finditer(r"\s*let (\S+) = c\.[^\s.]+-\d+ in(?=\s)", body)):
            if not re.search(r"(?<![\w.'-])" + re.escape(m.group(1)) + r"(?![\w'-])", body.replace(m.group(0), "", 1)):
                body = body.replace(m.group(0), "", 1)
        return body

    def several(self, goal):
        """The names of the clauses that a goal covers."""
        if goal.startswith("returns"):
            return self.own and self.own["ensures"]
        m = re.match(r"(.+?)-(?:[\w']+-)*?requires(-.*)?$", goal)
        if m:
            base = goal.split("-")[0]
            for k in set(filter(None, self.callee.values())) | set(self.d["params"]):
                if k.split("::")[-1] == base:
                    sig = lookup(self.found, k)
                    return sig and sig["requires"]
        return None

    def record(self, body, goal):
        names = self.several(goal)
        if not names or len(names) < 2:
            return body
        i = tuple_at_end(body)
        last = re.search(r"(?:^\s*|\n\s*| in )(omega (?:arith|\([^\n]*\)))\s*$", body)
        if i is None and last:
            return body[: last.start(1)] + "record { " + "; ".join(f"{n} = {last.group(1)}" for n in names) + " }"
        if i is None:
            # a lemma whose type is a product
            m = re.match(r"((?:\s*let [^\n]*? in(?=\n)|\s*let [^\n]*? in(?= (?!.* in\b)))*)\s*(.*)$", body.rstrip(), re.S)
            lets, term = m.group(1), m.group(2)
            if re.match(r"c\.[^\s()]+\.ensures$", term):
                return body
            k = len(names) - 1
            rows = "; ".join(f"{n} = all" + ".1" * j + ("" if j == k else ".0") for j, n in enumerate(names))
            return f"{lets}\n    let all = {term} in\n    record {{ {rows} }}"
        s = body.rstrip()
        items = flat(split_top(s[i + 1 : -1]), len(names))
        if items is None:
            self.left.append(f"clauses of {goal}")
            return body
        rows = [f"{n} = {v}" for n, v in zip(names, items) if not TRIVIAL.match(v)]
        whole = "; ".join(f"{n} = {v}" for n, v in zip(names, items))
        if not rows and not s[:i].strip():
            return None
        return s[:i] + "record { " + whole + " }"

    def loop_body(self, name, params, body):
        new, variables, changed = self.loops[name]
        moved = [v for v, c in zip(variables, changed) if c]
        if len(params) != len(variables) + len(moved):
            self.left.append(f"the variables of {name}: {len(params)} for {variables} {moved}")
            return body
        table = {}
        for p, v, c in zip(params, variables, changed):
            table[p] = f"l.initial.{v}" if c else f"l.{v}"
        for p, v in zip(params[len(variables) :], moved):
            table[p] = f"l.{v}"

        def one(m):
            parts = m.group(0).split(".")
            if parts[0] in table:
                parts[0] = table[parts[0]]
            return ".".join(parts)

        return TOKEN.sub(lambda m: m.group(0) if m.group(0).startswith("--") else one(m), body)


def chunks(text):
    out, cur = [], []
    for line in text.split("\n"):
        if cur and cur[-1] == "" and line and not line[0].isspace():
            out.append(cur)
            cur = []
        cur.append(line)
    out.append(cur)
    return ["\n".join(c).strip("\n") for c in out if "\n".join(c).strip()]


def parts_of(chunk):
    """Comments, marks, name, type, the unfolding line and the clauses of a declaration."""
    lines = chunk.split("\n")
    k = 0
    while k < len(lines) and (lines[k].startswith("--") or not lines[k].strip()):
        k += 1
    if k == len(lines):
        return None
    m = re.match(r"((?:(?:abbrev|pub|unfoldable)\s+)*)(\S+) : (.*)$", lines[k])
    if not m:
        return None
    comment = "\n".join(lines[:k])
    kind = m.group(3)
    k += 1
    while k < len(lines) and lines[k].startswith(" "):
        kind += " " + lines[k].strip()
        k += 1
    unfold = ""
    if k < len(lines) and lines[k].startswith("unfolding "):
        unfold = lines[k] + "\n"
        k += 1
    return comment, m.group(1), m.group(2), kind, unfold, "\n".join(lines[k:])


def turn(fn, folder):
    text = open(folder + "/Proof.antt", encoding="utf-8").read()
    head, uses, helpers, inv, ans, given, spec = [], [], [], [], [], {}, ""
    for chunk in chunks(text):
        lines = chunk.split("\n")
        if any(l.startswith("use ") for l in lines):
            for l in lines:
                (uses if l.startswith("use ") else head).append(l)
            continue
        p = parts_of(chunk)
        if p is None:
            helpers.append(chunk)
            continue
        comment, marks, name, kind, unfold, clauses = p
        comment = comment + "\n" if comment else ""
        m = re.match(r"tie\.(invariant|decreases)-(\S+)$", kind)
        if m and m.group(2) in fn.loops:
            new = fn.loops[m.group(2)][0]
            clause = re.match(re.escape(name) + r"((?:\s+\S+)*?)\s+=\s?", clauses)
            body = fn.loop_body(m.group(2), clause.group(1).split(), clauses[clause.end() :])
            inv.append(f"{comment}abbrev pub {m.group(1)}-{new} : goal.{m.group(1)}-{new}\n{unfold}{m.group(1)}-{new} l = {body}")
            continue
        m = re.match(r"tie\.Need-(\S+)", kind)
        if m:
            got = fn.goal(plain(m.group(1)))
            given[name] = got
            if got is None:
                if not plain(m.group(1)).startswith("same-length"):
                    fn.left.append(f"no goal for {m.group(1)}")
                continue
            goal, place = got
            if goal.startswith("shape_of-"):
                continue
            clause = re.match(re.escape(name) + r"((?:\s+\S+)*?)\s+=\s?", clauses)
            if not clause:
                fn.left.append(f"clause of {name}")
                helpers.append(chunk)
                continue
            body = fn.paths(clauses[clause.end() :], place)
            body = fn.record(body, goal)
            if body is None or TRIVIAL.match(body.strip()):
                continue
            ans.append(f"{comment}pub {goal} : goal.{goal}\n{unfold}{goal} c ={' ' if body[:1].strip() else chr(10)}{body}")
            continue
        if "statement" in kind:
            spec = clauses
            continue
        m = re.match(r"\((\S+) : tie\.([^\s.()]+)\) → ", kind)
        at = m and re.match(re.escape(name) + r"\s+" + re.escape(m.group(1)) + r"\s+=\s?", clauses)
        if m and at and m.group(1) == "c" and m.group(2) in fn.index and not unfold:
            fn.inlined[name] = " ".join(fn.paths(clauses[at.end() :], fn.real(m.group(2))).split())
            continue
        if "tie." in chunk:
            fn.left.append(f"a lemma over a record: {name}")
        helpers.append(chunk)
    for got, text in fn.inline(spec, given):
        goal, place = got
        if goal.startswith("shape_of-") or any(a.startswith(f"pub {goal} :") for a in ans):
            continue
        body = fn.record(fn.paths(text, place), goal)
        if body is not None and not TRIVIAL.match(body.strip()):
            ans.append(f"pub {goal} : goal.{goal}\n{goal} c = {body}")
    uses = [u for u in uses if ".Statement.{" not in u and not u.endswith("Tie as tie")]
    in_inv = []
    for h in helpers:
        p = parts_of(h)
        if p and any(re.search(r"(?<![\w.'-])" + re.escape(p[2]) + r"(?![\w'-])", t) for t in inv):
            in_inv.append(h)
    names = [parts_of(h)[2] for h in in_inv]
    if inv:
        body = [re.sub(r"^((?:--[^\n]*\n)*)(abbrev |unfoldable )?(?!pub |abbrev |unfoldable )", lambda m: m.group(1) + (m.group(2) or "") + "pub ", h) for h in in_inv]
        with open(folder + "/Invariants.antt", "w", encoding="utf-8") as f:
            f.write("\n".join(head + uses + [f"use {fn.mod}.Given as goal", ""]) + "\n" + "\n\n".join(body + inv) + "\n")
    rest = [h for h in helpers if h not in in_inv]
    if ans or rest:
        more = [f"use {fn.mod}.Invariants.{{{', '.join(names)}}}"] if names else []
        with open(folder + "/Answers.antt", "w", encoding="utf-8") as f:
            f.write("\n".join(head + uses + more + [f"use {fn.mod}.Goals as goal", ""]) + "\n" + "\n\n".join(rest + ans) + "\n")
    os.remove(folder + "/Proof.antt")


def main(crate, names):
    root = os.getcwd()
    found = signatures(root)
    with open(names, encoding="utf-8") as f:
        d = json.load(f)
    for key, row in d.items():
        if not key.endswith(".Lts"):
            continue
        path = key.split("-proofs.", 1)[1][:-4]
        folder = f"{root}/crates/{crate}/proofs/" + path.replace(".", "/")
        if not os.path.exists(folder + "/Proof.antt"):
            continue
        fn = Function(crate, path, row, found)
        turn(fn, folder)
        for it in fn.left:
            print(f"left: {path}: {it}")


main(*sys.argv[1:])
