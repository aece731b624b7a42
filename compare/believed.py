#!/usr/bin/env python3
"""For each public call, the definitions that its promise rests on: docs/READING.md is what this prints.

  compare/believed.py            prints the page
  compare/believed.py --check    says where docs/READING.md differs; the exit status is 1 where it does

A promise names definitions of specs/, those name others, down to the language's library; the files that hold them are what a reader must believe.
Laws and proofs are left out: the prover holds them to the definitions."""

import pathlib
import re
import sys

ROOT = pathlib.Path(__file__).resolve().parents[1]
CRATES = ROOT / "crates"
WORD = re.compile(r"[^\s(){}\[\],;]+")
DEFINED = re.compile(r"^ *(?:abbrev |unfoldable )?(?:pub )?(?:record |data )?([^\s:(){}]+)(?= :| \(| \{)", re.M)


def parts(name):
    """The words by which a name stands in a text: an operator by its middle."""
    return [p for p in name.split("◌") if p]


class File:
    """A file of specs/: what it defines, each with the text of its definition, and where its other names come from."""

    def __init__(self, crate, path):
        self.crate, self.name = crate, f"{crate}/{path.name}"
        text = re.sub(r"--.*", "", path.read_text())
        self.uses = {}
        for module, names in re.findall(r"^ *use (\S+)\.\{([^}]*)\}", text, re.M):
            for name in names.split(","):
                self.uses[name.split(" as ")[-1].strip()] = (module, name.split(" as ")[0].strip())
        self.blocks = {}
        for block in re.split(r"\n\s*\n", text):
            lines = [l for l in block.split("\n") if l.strip() and not re.match(r"\s*(use|module|infix|pub mod)\b", l)]
            if lines and re.match(r"\s*(abbrev|unfoldable|pub record|record|pub data|data)\b", lines[0]):
                head = re.match(r"\s*(?:abbrev |unfoldable )?(?:pub )?(?:record |data )?(\S+)", lines[0])
                self.blocks[head[1]] = "\n".join(lines)
            elif lines and self.blocks and not re.match(r"\s*(pub )?[^\s:]+ :", lines[0]):
                last = list(self.blocks)[-1]
                self.blocks[last] += "\n" + "\n".join(lines)

    def names_in(self, text):
        words = set(WORD.findall(text))
        for name in list(self.blocks) + list(self.uses):
            if all(any(p == w for w in words) for p in parts(name)):
                yield name


FILES = {f"{c.name}.{p.stem}": File(c.name, p) for c in sorted(CRATES.iterdir()) for p in sorted(c.glob("specs/*.antt")) if p.stem != "Lib"}


def home(module):
    """The file of a module of ours, or none for one of the language's library or of a declared type."""
    found = re.fullmatch(r"Rattle\.(\w+)\.specs\.(\w+)", module)
    return FILES.get(f"{found[1]}.{found[2]}") if found else None


def follow(file, name, seen):
    if (file.name, name) in seen or name not in file.blocks:
        return
    seen.add((file.name, name))
    for other in file.names_in(file.blocks[name]):
        if other in file.blocks:
            follow(file, other, seen)
        elif (there := home(file.uses[other][0])) is not None:
            follow(there, file.uses[other][1], seen)


def promises(source):
    """The public functions of a source file without a requires, each with the names in its ensures."""
    text = source.read_text()
    for found in re.finditer(r'pub fn (\w+)(?:<[^\n]*?>)?\(', text):
        end = re.search(r"\{\n", text[found.end() :])
        contract = text[found.end() : found.end() + end.start()]
        if "ensures" in contract and "requires" not in contract:
            # a parameter's name is no definition's, also where one has the same
            parameters, ensures = contract[: contract.index("ensures")], contract[contract.index("ensures") :]
            ensures = re.sub(r"ensures\s+\w+\s*\{", "ensures {", ensures)  # a clause's name is no definition's either
            yield found[1], set(WORD.findall(ensures)) - set(re.findall(r"(\w+):", parameters))


def believed(source, named):
    """The files behind a contract in which these names stand."""
    text = source.read_text()
    seen = set()
    for module, names in re.findall(r"ghost use (\S+)\.\{([^}]*)\};", text):
        there = home(module)
        for name in (n.strip() for n in names.split(",")):
            if there is not None and all(p in named for p in parts(name)):
                follow(there, name, seen)
    return sorted({f for f, _ in seen})


# What helps the calls and has no requires either: numbers of answers, places, checks over sizes.
HELPERS = re.compile(r"storage::|refusal::|(?:answer|refusal|index|model|reading|point|second|tide)_number$|tide_of|nodes_check|lacks_love|element_or_nan")

PAGE = """# What a reader must believe

A **public call** is a function that document 01 or 02 names, or that stands beside those (`root_near`, `grow`, `partials_along`, `second_partials_along`, the
lengths): it has no `requires` and answers every input. Every other function is a **kernel**: private where nothing outside its crate uses it; where another crate does,
it is public to the language, and what it requires is proved at each of its calls. This page is what `compare/believed.py` prints: it follows names
through the texts of promises and definitions, and the prover has no part in it.

## The definitions behind each public call

`crate/File` stands for `crates/crate/specs/File.antt`. These files are what a reader must believe; the rest of specs/ and all of proofs/ is held to them
by the prover. Promises also speak the language's library: lists (`length`, `get_or`, `take`, `drop`), whole numbers, IEEE 754 arithmetic (`Rattle.std.specs.Float`).
The entries for C have rows of their own, those that tell lengths one for all.

| call | definitions |
|---|---|
"""

KERNELS = """
## The kernels with a `requires` that other crates can reach

Their callers' proofs meet what they require. Kernels without a `requires` are not listed.

| crate | kernels |
|---|---|
"""


def rows():
    """The public calls with their files, the calls that tell lengths as one."""
    lengths = set()
    for crate in sorted(CRATES.iterdir()):
        source = crate / "src/lib.rt"
        if crate.name.startswith("replay") or crate.name in ("days", "geopotential", "geopotential_c", "text") or not source.exists():
            continue
        for name, contract in promises(source):
            call = f"{crate.name}::{name}"
            if crate.name == "lengths":
                lengths |= set(believed(source, contract))
            elif not HELPERS.match(call) and not HELPERS.match(name):
                yield call, believed(source, contract)
    yield "lengths::*", sorted(lengths)
    lengths = set()
    for source in sorted((CRATES / "geopotential/src").glob("*.rt")):
        for name, contract in promises(source):
            if name.startswith("geopotential_") and name.endswith("_lengths"):
                lengths |= set(believed(source, contract))
            elif name.startswith("geopotential_"):
                yield name, believed(source, contract)
    yield "geopotential_*_lengths", sorted(lengths)


def kernels(crate):
    """The functions with a requires that other crates can reach: those of lib.rt and of its public modules."""
    library = (crate / "src/lib.rt").read_text()
    for module in [""] + re.findall(r"^pub mod (\w+);", library, re.M):
        text = (crate / f"src/{module or 'lib'}.rt").read_text()
        for found in re.finditer(r"^ *pub fn (\w+)(?:<[^\n]*?>)?\(", text, re.M):
            contract = text[found.end() : found.end() + re.search(r"\{\n", text[found.end() :]).start()]
            if "requires" in contract:
                yield f"{module}::{found[1]}" if module else found[1]


def page():
    text = PAGE
    for call, files in rows():
        named = ", ".join(f.removesuffix(".antt") for f in files)
        text += f"| `{call}` | {named or 'the library alone'} |\n"
    text += KERNELS
    for crate in sorted(CRATES.iterdir()):
        if not (crate / "src/lib.rt").exists():
            continue
        if listed := sorted(kernels(crate)):
            text += f"| `{crate.name}` | {', '.join(listed)} |\n"
    return text


def main():
    made = page()
    if sys.argv[1:] == ["--check"]:
        there = ROOT / "docs/READING.md"
        same = there.exists() and there.read_text() == made
        print("docs/READING.md: as the promises have it" if same else "docs/READING.md is not what compare/believed.py prints")
        sys.exit(0 if same else 1)
    print(made, end="")


if __name__ == "__main__":
    main()
