#!/usr/bin/env python3
"""Brings this repository's own definitions and lemmas to the spelling of today's Rattle: words in snake case, types in upper camel case.

usage: python3 tools/respell.py [--names FILE]        at the top of the checkout, once, right after port.py; a second run changes nothing
       python3 tools/respell.py --with FILE PATH..    applies a list of names that an earlier run wrote to other files (pages, edits)

What is renamed: each name that a file of specs/ declares and each lemma of a file right below proofs/, with the fields of records and
the constructors. A dash that joins a definition's name to more, as in `any-append`, stays; any other dash becomes `_`. Names of src/
keep their spelling: in a .rt file only names that no Rust identifier can be (with a dash) and names of clauses are touched.
"""
import collections
import json
import os
import re
import sys

WORD = r"[^\s(){}.;,@\"«»\[\]\\`]+"
# Where two names would fall together, or a Rust name would hide one.
OTHERS = {
    "book-of": "book_of_fields",
    "plan-rows": "plan_rows_of",
    "seen-set": "seen_set_class",
    "last-names": "last_names_class",
    "tableBytes": "bytes_of_table",
}
STD = set("flat_map length take drop set get_or map append reverse filter replicate bit cond sum head tail In pow min max".split())


def snake(name):
    name = re.sub(r"(?<=[a-z0-9])([A-Z])", r"_\1", name)
    return name.lower() if not re.search(r"[^\x00-\x7f]", name) else "".join(c.lower() if c < "\x7f" else c for c in name)


def camel(name):
    return "".join(part[:1].upper() + part[1:] for part in name.split("-"))


def files(ends):
    for folder, dirs, names in os.walk("crates"):
        dirs[:] = sorted(d for d in dirs if d not in ("out", "must-fail"))
        for f in sorted(names):
            if f.endswith(ends):
                yield os.path.join(folder, f)


def statements(text):
    """Yields (kind, name, signature) of each declaration at the left margin."""
    blocks = re.split(r"\n\s*\n", text)
    for block in blocks:
        lines = [l for l in block.split("\n") if not l.lstrip().startswith("--")]
        if lines and lines[0].startswith("module "):
            lines.pop(0)
        if lines and lines[0].startswith("  ") and not lines[0].startswith("   "):
            lines = [l[2:] if l.startswith("  ") else l for l in lines]
        while lines and re.match(r"(use|pub mod|mod|module|unfolding|ruleset) ?", lines[0]):
            lines.pop(0)
        if not lines or lines[0].startswith((" ", "{")):
            continue
        m = re.match(r"((?:abbrev |unfoldable )?(?:pub )?(?:record |data )?)(" + WORD + r")(?= |$)", lines[0])
        if not m:
            continue
        sig = [lines[0]]
        for l in lines[1:]:
            if not l.startswith(" "):
                break
            sig.append(l)
        yield m.group(1), m.group(2), sig


def is_type(kind, sig):
    if "record" in kind or "data" in kind:
        return True
    text = " ".join(sig)
    return re.search(r"Type [0-9ℓ]+\s*$", text.strip()) is not None


def gather():
    defs, types, lemmas, members = set(), set(), set(), set()
    for p in files(".antt"):
        spec = "/specs/" in p
        own = spec or re.fullmatch(r"crates/\w+/proofs/\w+\.antt", p)
        if not own:
            continue
        text = open(p, encoding="utf-8").read()
        for kind, name, sig in statements(text):
            if is_type(kind, sig):
                types.add(name)
                if "record" in kind or "data" in kind:
                    body = re.search(r"^ *(?:pub )?(?:record|data) " + re.escape(name) + r"(?= |$)[^\n]*(?:\n(?:[ ]+[^\n]*)?)*", text, re.M).group(0)
                    for l in body.split("\n")[1:]:
                        m = re.match(r"  (?:\| )?(?:pub )?(" + WORD + r") :", l)
                        if m:
                            members.add(m.group(1))
            elif kind.startswith(("abbrev", "unfoldable")) or spec:
                defs.add(name)
            else:
                lemmas.add(name)
    return defs, types, lemmas, members


def joined(name, heads):
    """Dashes become '_', but one after a definition's name."""
    parts = name.split("-")
    out = parts[0]
    for part in parts[1:]:
        out += ("-" if out in heads else "_") + part
    return out


def mapping():
    defs, types, lemmas, members = gather()
    new = {}
    for n in sorted(types):
        new[n] = camel(n) if "-" in n else n
    for n in sorted(defs | members):
        new[n] = snake(n.replace("-", "_"))
    heads = STD | {new[n] for n in defs} | {new[n] for n in types}
    for n in sorted(lemmas - defs - types - members):
        words = [w if w in new and w in types else new.get(w, w) if w in defs else w for w in n.split("-")]
        words = [w if w in types else snake(w) for w in words]
        new[n] = joined("-".join(words), heads)
    new.update({a: b for a, b in OTHERS.items() if a in new})
    every = defs | types | lemmas | members
    taken = {new[n] for n in defs | types}
    for n in members - defs - types:
        if new[n] in taken:
            new[n] += "_fact"
    for n in sorted(lemmas - defs - types - members, key=lambda n: (new[n] != n, n)):
        while new[n] in taken:
            new[n] += "_lem"
        taken.add(new[n])
    new = {a: b for a, b in new.items() if a != b}
    seen = collections.defaultdict(list)
    for n in every:
        seen[new.get(n, n)].append(n)
    for b, olds in sorted(seen.items()):
        if len(olds) > 1:
            print("falls together:", b, "<-", ", ".join(sorted(olds)))
    return new


TOKEN = re.compile(r"--[^\n]*|\"(?:[^\"\\]|\\.)*\"|" + WORD)
TICKED = re.compile(r"`([^`\n]+)`")


def word(token, new):
    if token in new:
        return new[token]
    return token


def turn(text, new, rust):
    def ticked(m):
        return "`" + re.sub(WORD, lambda w: word(w.group(0), new), m.group(1)) + "`"

    if not rust:
        def one(m):
            t = m.group(0)
            if t.startswith("--"):
                return TICKED.sub(ticked, t)
            return t if t.startswith('"') else word(t, new)

        return TOKEN.sub(one, text)
    out = []
    depth = 0
    for line in text.split("\n"):
        bare = line.lstrip()
        if bare.startswith("//"):
            out.append(TICKED.sub(ticked, line))
            continue
        clause = depth > 0 or re.match(r"(ghost |requires|ensures)", bare)
        if clause:
            line = re.sub(WORD, lambda w: word(w.group(0), new), line)
            depth += line.count("{") - line.count("}")
            depth = max(depth, 0)
        out.append(line)
    return "\n".join(out)


def main(argv):
    if argv[:1] == ["--with"]:
        new = json.load(open(argv[1]))
        for p in argv[2:]:
            text = open(p, encoding="utf-8").read()
            turned = TICKED.sub(lambda m: "`" + re.sub(WORD, lambda w: word(w.group(0), new), m.group(1)) + "`", text)
            if turned != text:
                open(p, "w", encoding="utf-8").write(turned)
        return 0
    new = mapping()
    if argv[:1] == ["--names"]:
        json.dump(new, open(argv[1], "w"), ensure_ascii=False, indent=0, sort_keys=True)
    changed = 0
    for p in files((".antt", ".rt")):
        text = open(p, encoding="utf-8").read()
        turned = turn(text, new, p.endswith(".rt"))
        if turned != text:
            changed += 1
            open(p, "w", encoding="utf-8").write(turned)
    print(f"{len(new)} names turned, in {changed} files")
    return 0


if __name__ == "__main__":
    sys.exit(main(sys.argv[1:]))
