#!/usr/bin/env python3
"""Holds include/geopotential.h against the exports of the crate geopotential_c: the same names, the same parameters with the same names and types
in the same order, the same results, the same version; and the declarations of the Rust crate and of the comparison, which may leave entries out. Prints each
difference; the exit status is 1 where there is one."""

import pathlib
import re
import sys

ROOT = pathlib.Path(__file__).resolve().parents[2]
RUST = ["bindings/rust/src/ffi/entries.rs", "bindings/rust/src/ffi/lengths.rs", "compare/src/entries.rs"]
NUMBERS = {"f64": "double", "usize": "size_t", "u8": "uint8_t", "u32": "uint32_t", "u64": "uint64_t", "i32": "int32_t"}


def in_c(name, kind):
    """The C parameters of a parameter of Rattle: a list is a pointer and then its length."""
    form = re.fullmatch(r"(&mut |&)?(?:\[(\w+)\]|(\w+))", kind)
    if form is None:
        sys.exit(f"exports.py: a parameter of a type that C has not: {name}: {kind}")
    lent, element, number = form.groups()
    const = "const " if lent == "&" else ""
    if element:
        return [f"{const}{NUMBERS[element]} *{name}", f"size_t {name}_len"]
    if lent:
        return [f"{const}{NUMBERS[number]} *{name}"]
    return [f"{NUMBERS[number]} {name}"]


def exported():
    """The prototypes of the entries, by name."""
    found = {}
    entry = re.compile(r'#\[unsafe\(no_mangle\)\]\s+pub extern "C" fn (\w+)\(([^)]*)\) -> (\w+)')
    for file in sorted((ROOT / "crates/geopotential_c/src").glob("*.rt")):
        for name, parameters, result in entry.findall(file.read_text()):
            listed = [p.split(":") for p in parameters.split(",") if p.strip()]
            found[name] = (NUMBERS[result], [c for n, k in listed for c in in_c(n.strip(), k.strip())])
    return found


def declared(header):
    """The prototypes of the header, by name."""
    text = re.sub(r"/\*.*?\*/", " ", header.read_text(), flags=re.S)
    prototype = re.compile(r"(double|uint32_t|uint64_t|size_t|void) (geopotential_\w+)\(([^)]*)\);")
    return {name: (result, [" ".join(p.split()) for p in parameters.split(",") if p.strip() != "void"]) for result, name, parameters in prototype.findall(text)}


def declared_in_rust(file):
    """The prototypes of a file of Rust, by name, in C's words."""
    prototype = re.compile(r"pub (?:safe )?fn (geopotential_\w+)\(([^)]*)\) -> (\w+);")
    found = {}
    for name, parameters, result in prototype.findall(file.read_text()):
        listed = [p.split(":") for p in parameters.split(",") if p.strip()]
        found[name] = (NUMBERS[result], [from_rust(n.strip(), k.strip()) for n, k in listed])
    return found


def from_rust(name, kind):
    pointer = re.fullmatch(r"\*(const|mut) (\w+)", kind)
    if pointer is None:
        return f"{NUMBERS[kind]} {name}"
    return f"{'const ' if pointer[1] == 'const' else ''}{NUMBERS[pointer[2]]} *{name}"


def plain(prototype):
    """A prototype without the underscores in its parameters' names, which Rust sets more often."""
    return prototype and (prototype[0], [p.replace("_", "") for p in prototype[1]])


def main():
    source, header = exported(), declared(ROOT / "include/geopotential.h")
    differences = [f"{name}: in the library, not in the header" for name in source if name not in header]
    differences += [f"{name}: in the header, not in the library" for name in header if name not in source]
    for name in source:
        if name in header and source[name] != header[name]:
            differences.append(f"{name}:\n  library {source[name]}\n  header  {header[name]}")
    for file in RUST:
        for name, prototype in declared_in_rust(ROOT / file).items():
            if plain(source.get(name)) != plain(prototype):
                differences.append(f"{name}:\n  library {source.get(name)}\n  {file} {prototype}")
    constant = re.search(r"#define GEOPOTENTIAL_VERSION (\d+)", (ROOT / "include/geopotential.h").read_text())
    version = re.search(r"result ≡ (\d+)", (ROOT / "crates/geopotential_c/src/version.rt").read_text())
    if constant is None or version is None or constant[1] != version[1]:
        differences.append("GEOPOTENTIAL_VERSION: the header's constant is not what geopotential_version answers")
    print("\n".join(differences) if differences else f"header: {len(source)} entries, as the library exports them")
    sys.exit(1 if differences else 0)


if __name__ == "__main__":
    main()
