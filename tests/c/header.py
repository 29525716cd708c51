#!/usr/bin/env python3
"""Compares include/plans.h with the library: its functions with the symbols of libplans.a and libplans.so and with the extern "C"
functions of the crates, its structs with the #[repr(C)] structs there, its constants with those of the same names, what it says of
symbols and of state with what the libraries have; and the refusals' words of python/plans/refusals.txt, which scripts/header writes
into it, with the documents. The last line is 'N passed, M failed'."""
import re
import subprocess
import sys
from pathlib import Path

ROOT = Path(__file__).resolve().parents[2]
STRUCTS = {
    "plans_built": "Built",
    "plans_counted": "Counted",
    "plans_rewritten": "Rewritten",
    "plans_walked": "Walked",
    "plans_written": "Written",
    "plans_plan_rows": "PlanRows",
}
TYPES = {"uint8_t": "u8", "uint32_t": "u32", "uint64_t": "u64"}
# a slice passes as a pointer and a length
SLICES = {"const uint8_t *": "&[u8]", "uint8_t *": "&mut [u8]"}


def header_structs(text):
    """Each struct's fields, in order, as (name, type in the library's terms)."""
    structs = {}
    for body, name in re.findall(r"typedef struct \{(.*?)\} (\w+);", text, re.S):
        structs[name] = [(field, TYPES.get(kind, kind)) for kind, field in re.findall(r"(\w+) (\w+);", body)]
    return structs


def library_structs(text):
    structs = {}
    for name, body in re.findall(r"#\[repr\(C\)\]\s*(?:#\[derive\([^)]*\)\]\s*)?pub struct (\w+) \{(.*?)\}", text, re.S):
        structs[name] = re.findall(r"pub (\w+): (\w+),", body)
    return structs


def header_functions(text):
    """Each function's result and arguments, a slice's pointer and length as one."""
    functions = {}
    for result, name, arguments in re.findall(r"^(\w+) (plans_\w+)\((.*?)\);", text, re.S | re.M):
        parts = [" ".join(part.split()) for part in arguments.split(",")]
        taken = []
        for part, following in zip(parts, [*parts[1:], ""]):
            kind, argument = re.fullmatch(r"(.*?)(\w+)", part).groups()
            kind = re.sub(r"\s*\*", " *", kind).strip()
            if kind in SLICES:
                whole = following == f"size_t {argument}_len"
                taken.append((argument, SLICES[kind] if whole else f"{kind} without its length"))
            elif kind != "size_t":
                taken.append((argument, TYPES.get(kind, kind)))
        functions[name] = (STRUCTS.get(result, result), taken)
    return functions


def library_functions(text):
    functions = {}
    for name, arguments, result in re.findall(r'pub extern "C" fn (\w+)\((.*?)\) -> (\w+)', text, re.S):
        functions[name] = (result, re.findall(r"(\w+): ([^,]*[^,\s])", arguments))
    return functions


def header_constants(text):
    """Each number defined, by its name without PLANS_; but for 0, no refusal, and the kinds of classes, which tests/c/tablet.c tries."""
    numbers = re.findall(r"(?:^#define |^ +)PLANS_(\w+)(?: =)? (\d+)", text, re.M)
    made = re.findall(r"^#define PLANS_(\w+) \((.*)\)$", text, re.M)
    values = computed([*numbers, *((name, parts.replace("PLANS_", "")) for name, parts in made)])
    return {name: value for name, value in values.items() if name not in ("OK", "CONTEXT", "SEEN_SET", "LAST_NAMES")}


def library_constants(text, names):
    """The constants and the variants of numbered enums with these names."""
    found = re.findall(r"^pub const (\w+): \w+ = ([^;]+);", text, re.M) + library_variants(text)
    return computed([(name, value) for name, value in found if name in names])


def library_variants(text):
    """The variants of enums whose first has a number, as constants would be named: each has one more than the one before."""
    variants = []
    for first, number, rest in re.findall(r"\benum \w+ \{\s*(\w+) = (\d+),([\s\w,]*)\}", text):
        for step, name in enumerate([first, *re.findall(r"\w+", rest)]):
            variants.append((re.sub(r"(?<!^)([A-Z])", r"_\1", name).upper(), str(int(number) + step)))
    return variants


def computed(definitions):
    """Each constant's number; a list of all where there are several. What one is made of is computed from the others' numbers."""
    numbers = {name: int(value) for name, value in definitions if value.isdecimal()}
    values = {}
    for name, value in definitions:
        if not re.fullmatch(r"[\w\s+*()]+", value):
            raise ValueError(f"the constant {name} is made of '{value}', which is not read here")
        values.setdefault(name, set()).add(eval(value, {"__builtins__": {}}, numbers))
    return {name: sorted(all_of_it) if len(all_of_it) > 1 else all_of_it.pop() for name, all_of_it in values.items()}


def printed(*command):
    return subprocess.run(command, check=True, capture_output=True, text=True).stdout


def symbols(*words):
    """The symbols that nm prints, without their versions."""
    lines = printed("nm", *words).splitlines()
    return {line.split()[-1].split("@")[0] for line in lines if re.search(r" [A-Za-z] ", line)}


def writable_sections(library):
    """Those that a program gets memory for and may write: where a library keeps something between calls."""
    sections = re.findall(r"^ *\d+ (\S+) +([0-9a-f]+).*\n +(.*)$", printed("objdump", "--section-headers", library), re.M)
    return {name for name, size, flags in sections if int(size, 16) and "ALLOC" in flags and "READONLY" not in flags}


def refusals():
    """The words for each refusal, as (number, words), 0 left out."""
    lines = (ROOT / "python/plans/refusals.txt").read_text().splitlines()
    return [tuple(line.split("\t")) for line in lines][1:]


def refusals_in_documents():
    """The refusals' words in the documents' tables with the head 'refused, when', as one list where they agree."""
    texts = [path.read_text() for path in [ROOT / "README.md", *ROOT.glob("docs/*.md")]]
    tables = [table for text in texts for table in re.findall(r"^\| refused \| when \|\n\|[-|]+\n((?:\|.*\n)+)", text, re.M)]
    words = [re.findall(r"^\| (\d+) \| ([^|]+) \|", table, re.M) for table in tables]
    return words[0] if words and all(other == words[0] for other in words) else words


def main():
    header = re.sub(r"/\*.*?\*/", "", (ROOT / "include/plans.h").read_text(), flags=re.S)
    source = "".join(path.read_text() for path in ROOT.glob("crates/*/src/*.rt"))
    functions, structs, constants = header_functions(header), header_structs(header), header_constants(header)
    static, shared = sys.argv[1:]
    checks = [
        ("functions declared and symbols of libplans.a", set(functions), symbols("--extern-only", "--defined-only", static)),
        ("functions declared and symbols of libplans.so", set(functions), symbols("--dynamic", "--defined-only", shared)),
        ("symbols that libplans.a takes", {"memcpy", "memset"}, symbols("--undefined-only", static)),
        ("symbols that libplans.so takes", {"memcpy", "memset"}, symbols("--dynamic", "--undefined-only", shared)),
        ("no state is kept in libplans.a", "no section", writable_sections(static) or "no section"),
        ("functions declared and their source", functions, library_functions(source)),
        ("structs declared and their source", {STRUCTS.get(name, name): fields for name, fields in structs.items()},
         library_structs(source)),
        ("constants defined and their source", constants, library_constants(source, constants)),
        ("the refusals' words and the documents'", refusals(), refusals_in_documents()),
    ]
    failed = 0
    for what, declared, given in checks:
        # two empty readings are no agreement
        if not declared or declared != given:
            failed += 1
            print(f"FAILED: {what}:\n  said:  {declared}\n  found: {given}")
    print(f"{len(checks) - failed} passed, {failed} failed")
    return 1 if failed else 0


if __name__ == "__main__":
    sys.exit(main())
