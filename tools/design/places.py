#!/usr/bin/env python3
"""places.py [ROOT]: of the functions of crates/*/src but the replays', how many have more than eight parameters, how often the same parameters stand side by
side, and which facts stand in the `requires` of three functions or more (point 5 of docs/DESIGN-PASS.md)."""

import collections
import pathlib
import re
import sys

ROOT = pathlib.Path(sys.argv[1] if len(sys.argv) > 1 else pathlib.Path(__file__).resolve().parents[2])
TOGETHER = [("a", "b"), ("c", "s"), ("odd", "even"), ("kc", "ks"), ("outc", "outs"), ("sectorals", "r"), ("gm", "radius")]
FUNCTION = re.compile(
    r"^(?:    )?(?:pub(?:\(crate\))? )?(?:extern \"C\" )?fn (\w+)(?:<[^>]*>)?\(([^{]*?)\)(?: -> [^\n{]*)?\n?"
    r"((?:\s+(?:requires|ensures)[^\n]*\n(?:\s{8,}[^\n]*\n)*)*)", re.M | re.S)


def main():
    functions, long, pairs, facts = 0, 0, collections.Counter(), collections.defaultdict(set)
    for path in sorted(ROOT.glob("crates/*/src/**/*.rt")):
        if "replay" in path.parts[path.parts.index("crates") + 1]:
            continue
        for name, given, clauses in FUNCTION.findall(path.read_text()):
            names = [p.split(":")[0].strip() for p in re.sub(r"//[^\n]*", "", given).split(",") if ":" in p or p.strip() == "self"]
            functions += 1
            long += len(names) > 8
            for x, y in TOGETHER:
                pairs[f"{x}, {y}"] += x in names and y in names
            for fact in re.findall(r"requires (?:\w+ )?\{ (.*?) \}", clauses):
                facts[fact].add(f"{path}: {name}")
    print(f"{functions} functions, {long} with more than eight parameters")
    print("side by side:", ", ".join(f"{k} {n}" for k, n in pairs.most_common()))
    often = sorted(((len(v), k) for k, v in facts.items() if len(v) > 2), reverse=True)
    print(f"{len(often)} facts in the requires of three functions or more, in {sum(n for n, _ in often)} places")
    for n, fact in often:
        print(f"{n:4}  {fact}")


main()
