#!/usr/bin/env python3
"""Brings the repository's own definitions and lemmas to one spelling, once, after /opt/rattle/port/port.py.

usage: python3 tools/respell.py [--check] [--table FILE]       at the top of the repository

A name that begins in lower case and has capitals is written in snake case (rootOf, root_of); a symbol of a type is a word (lineTotalℤ, line_total_ℤ).
A dash stays between two names (cut-cut); where a part is no name of a definition, the dashes are underscores (days-back, days_back).
Names of types, modules, functions of src/ and their parameters, strings and comments outside backquotes stay. A new name that is taken already, by another
name, a parameter of a function or a word of the library in the files that use it, gets the ending _lem where it is a lemma, and else is told and left.
--check writes nothing. --table writes the rows old, tab, new.
"""
import collections
import glob
import re
import sys

NAME = r"[^\s(){}.;,@\"«»\[\]\\`:]+"
DECL = re.compile(r"^(\s*)((?:(?:abbrev|pub|unfoldable|pattern|private)\s+)*)((?:" + NAME + r"\s+)*?" + NAME + r")((?:\s*\{[^}]*\})?)\s+:\s")
TOKEN = re.compile(r"--[^\n]*|\"(?:[^\"\\]|\\.)*\"|" + NAME.replace(":", "") )
WORDS = {"let", "in", "use", "pub", "abbrev", "where", "record", "data", "module", "elim", "as", "unfolding", "ghost", "rw", "at"}
STEPS = re.compile(r"^(returns|loop|if|in|then|else|overflow|bounds|offset|shape|slice|same|shared|needs|sub|add|mul|cast|div|rem)\b")


def snake(name):
    name = name.replace("getD", "get_or")
    name = re.sub(r"(?<=[a-z0-9])([A-Z])", r"_\1", name)
    name = re.sub(r"(?<=[A-Z])([A-Z][a-z])", r"_\1", name).lower() if not re.search(r"[ℤℕℚ]", name) else re.sub(r"(?<=[a-z0-9_])([ℤℕℚ])", r"_\1", re.sub(r"[A-Z]", lambda m: m.group(0).lower(), name))
    return name


def files(*patterns):
    return sorted(f for p in patterns for f in glob.glob(p, recursive=True) if "/out/" not in f)


def text(path):
    with open(path, encoding="utf-8") as f:
        return f.read()


def declared(path):
    """The names that a file declares at a line's start: definitions, lemmas, fields, with the text of their types."""
    for line in text(path).split("\n"):
        m = DECL.match(line)
        if m and not line.lstrip().startswith("--"):
            for name in m.group(3).split():
                if name not in WORDS:
                    yield name, line, len(m.group(1))


def is_type(line):
    return bool(re.search(r"(→ |: )Type \d+\s*$", line))


def main(argv):
    antt = files("crates/*/specs/**/*.antt", "crates/*/proofs/**/*.antt")
    sources = files("crates/*/src/**/*.rt")
    names = collections.defaultdict(set)
    tops = {}
    for f in antt:
        walk = f.endswith("/Proof.antt")
        for name, line, depth in declared(f):
            if walk and re.search(r": tie\.|: statement ", line):
                continue
            names[name].add(f)
            tops.setdefault(name, line)
    operators = {n.strip("◌") for n in names if "◌" in n and re.search(r"\w", n.strip("◌"))}
    # the words that stand in the files, to see what a new name would fall together with
    tokens = collections.Counter()
    for f in antt:
        for t in TOKEN.findall(text(f)):
            if not t.startswith(("--", '"')):
                tokens[t] += 1
    params = set()
    for f in sources:
        for sig in re.findall(r"\bfn \w+\s*(?:<[^>]*>)?\(([^)]*)\)", text(f)):
            params |= set(re.findall(r"(\w+)\s*:", sig))
    defs = {snake(n) for n, l in tops.items() if re.match(r"\s*((abbrev|unfoldable|pub)\s+)*(abbrev|unfoldable)\b", l)}
    defs |= {"length", "add", "mul", "sub", "take", "drop", "set", "append", "get_or", "map"}
    table, clash = {}, []
    for name in sorted(names):
        if "◌" in name:
            core = name.strip("◌")
            if re.search(r"[a-z][A-Z]|-\w", core):
                table[core] = snake(core).replace("-", "_")
            continue
        if name[0].isupper() or not re.search(r"[A-Z]|\w-\w|[a-z][ℤℕ]", name) or not name[0].isalpha():
            continue
        new = snake(name)
        if "-" in new:
            parts = new.split("-")
            if not all(p in defs for p in parts):
                new = new.replace("-", "_")
        if new == name:
            continue
        table[name] = new
    # what falls together
    back = collections.defaultdict(list)
    for old, new in table.items():
        back[new].append(old)
    for new, olds in sorted(back.items()):
        taken = tokens[new] and new not in table
        if len(olds) > 1 or taken or new in params:
            for old in olds:
                lemma = "-" in old
                why = "two names" if len(olds) > 1 else "a parameter" if new in params else "taken"
                clash.append((old, new, why))
                if lemma and (len(olds) > 1 or taken or new in params):
                    table[old] = new + "_lem"
                elif taken and not lemma:
                    table[old] = new
    for c in clash:
        print("together:", *c, "->", table.get(c[0]))
    if "--table" in argv:
        with open(argv[argv.index("--table") + 1], "w") as f:
            for old, new in sorted(table.items()):
                f.write(f"{old}\t{new}\n")
    fields = {n for f in antt for n, l, d in declared(f) if d > 0 and n in table}

    own = {p.split("/")[1] for p in antt + sources}

    def foreign(code):
        """The names that a file takes from the library: these keep their spelling there."""
        found = set()
        for path, items in re.findall(r"use ([^\s{};]+)\.\{([^}]*)\}", code):
            parts = path.split(".")
            if parts[0] != "Rattle" or parts[1] not in own:
                found |= {it.split(" as ")[0].strip() for it in items.split(",")}
        return found

    def turn(code, aliases=(), keep=()):
        def one(m):
            t = m.group(0)
            if t.startswith('"'):
                return t
            if t.startswith("--"):
                return re.sub(r"`([^`]*)`", lambda s: "`" + turn(s.group(1), aliases, keep) + "`", t)
            before = code[m.start() - 1] if m.start() else " "
            if t.startswith("◌") and t.strip("◌") in table:
                return "◌" + table[t.strip("◌")] + "◌"
            if t not in table or t in keep:
                return t
            if before == ".":
                head = re.search(r"([^\s(){}\[\],;@\"]+)\.$", code[max(0, m.start() - 400):m.start()])
                head = head.group(1).split(".")[0] if head else ""
                if head not in aliases and t not in fields:
                    return t
            return table[t]

        return TOKEN.sub(one, code)

    changed = 0
    for f in antt:
        old = text(f)
        aliases = set(re.findall(r"^\s*use [^\n{}]* as (\S+)", old, re.M)) - {"tie", "goal"}
        new = turn(old, aliases, foreign(old))
        if new != old:
            changed += 1
            if "--check" not in argv:
                open(f, "w", encoding="utf-8").write(new)
    RUST = re.compile(r"//[^\n]*|b?\"(?:\\.|[^\"\\])*\"|[^/\"]+|.", re.S)

    def source(m, aliases=(), keep=()):
        t = m.group(0)
        if t.startswith("//"):
            return re.sub(r"`([^`]*)`", lambda s: "`" + turn(s.group(1), aliases, keep) + "`", t)
        return t if t.endswith('"') and len(t) > 1 else turn(t)

    for f in sources + files("crates/*/must-fail/*.edit"):
        old = text(f)
        new = RUST.sub(source, old) if f.endswith(".rt") else re.sub(r"(?m)^(old|new): .*$", lambda m: turn(m.group(0)), old)
        if new != old:
            changed += 1
            if "--check" not in argv:
                open(f, "w", encoding="utf-8").write(new)
    print(len(table), "names,", changed, "files")


main(sys.argv[1:])
