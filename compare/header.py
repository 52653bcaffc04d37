#!/usr/bin/env python3
"""Holds each prototype of include/arcstring.h to the function that the library exports: name, parameters in their order with their
names and types, result; and asks that compare/header.c calls it. For compare/run header.

    compare/header.py

A slice of the exported function is a pointer and a length in C. Standard Python, no packages. Ends with 1 on a difference.
"""
import pathlib
import re
import sys

TOP = pathlib.Path(__file__).resolve().parent.parent
SINGLE = {"u8": "uint8_t", "u32": "uint32_t", "u64": "uint64_t", "usize": "size_t", "f64": "double"}


def in_c(name, kind):
    """a parameter of an exported function, as C has it: one or two of them"""
    lent = re.fullmatch(r"&(mut )?(?:\[(\w+)(?:; (\d+))?\]|(\w+))", kind)
    if not lent:
        return [f"{SINGLE[kind]} {name}"]
    written, element, fixed, single = lent.groups()
    const = "" if written else "const "
    if single:
        return [f"{const}{SINGLE[single]} *{name}"]
    if fixed:
        return [f"{const}{SINGLE[element]} {name}[{fixed}]"]
    return [f"{const}{SINGLE[element]} *{name}", f"size_t {name}_len"]


def exported():
    """what each exported function is in C: its result and its parameters"""
    found = {}
    for file in sorted((TOP / "crates/arcstring_c/src").glob("*.rt")):
        pattern = r"#\[unsafe\(no_mangle\)\]\s*pub extern \"C\" fn (\w+)\((.*?)\)(?: -> (\w+))?\s*ensures"
        for name, parameters, result in re.findall(pattern, file.read_text(), re.S):
            pairs = [p.split(":", 1) for p in re.split(r",\s*", parameters.strip().rstrip(",")) if p]
            found[name] = (SINGLE.get(result, "void"), [c for n, kind in pairs for c in in_c(n.strip(), kind.strip())])
    return found


def declared():
    """what the header declares, comments and the words of refusals left out"""
    text = re.sub(r"/\*.*?\*/", "", (TOP / "include/arcstring.h").read_text(), flags=re.S)
    found = {}
    for result, name, parameters in re.findall(r"^(\w+) (arcstring_\w+)\((.*?)\);", text, re.S | re.M):
        found[name] = (result, [re.sub(r"\s+", " ", p).strip() for p in parameters.split(",") if p != "void"])
    return found


def main():
    ours, header, called = exported(), declared(), (TOP / "compare/header.c").read_text()
    wrong = [f"{name}: exported {ours.get(name)}, declared {header.get(name)}"
             for name in sorted(ours.keys() | header.keys()) if ours.get(name) != header.get(name)]
    wrong += [f"{name}: compare/header.c does not call it" for name in sorted(header) if not re.search(rf"\b{name}\b", called)]
    print("\n".join(wrong + [f"{len(header)} prototypes, {len(wrong)} differ"]))
    sys.exit(1 if wrong or not header else 0)


main()
