#!/usr/bin/env python3
"""Brings the names of this repository's definitions and lemmas to the kit's spelling, once, after the kit's port script.

usage: python3 tools/spell_names.py [--dry]     at the top of the repository

Words are in snake case: `headLength` becomes `head_length`. In the name of a lemma a dash stays only where it joins two names, as in
`digits-num_at`; a plain word is joined by `_`, as in `first_cut`. Names of the kit, of types and of modules, and what src/ declares, keep
their spelling. A name that would fall together with another is told; a lemma then ends in _lem.
"""
import glob
import os
import re
import sys

TOKEN = re.compile(r"[^\s(){}\[\],;.:@\"`|⌜⌝λ]+")
# names that would fall together with another one, and what they are called in place of the plain respelling
FALLS = {"block-length": "block_length"}
# lemmas that the kit's script spelled already, and that would fall together with a definition
SPELLED = {"head_bytes": "head_bytes_lem", "in_ones": "in_ones_lem", "same_code": "same_code_lem", "chain_length": "chain_length_lem", "row_told": "row_told_lem"}

# definitions whose heads the reading below does not see
WRITTEN = {"buildFrom": "build_from", "rowEntry": "row_entry", "numbersOf": "numbers_of", "get_d_set": "get_or_set"}


def files(pattern):
    return [p for p in sorted(glob.glob(pattern, recursive=True)) if "/out/" not in p]


def uses(text):
    """The lines of imports of a file, each joined to one line: (path, names)."""
    for m in re.finditer(r"(?ms)^\s*(?:ghost )?(?:pub )?use ([^;{\n]+?)\.\{(.*?)\}", text):
        yield m.group(1), [x.strip() for x in m.group(2).replace("\n", " ").split(",") if x.strip()]


def own(path):
    m = re.match(r"Rattle\.([a-z0-9_]+)", path)
    return bool(m) and os.path.isdir("crates/" + m.group(1))


def snake(word):
    word = {"getD": "get_or"}.get(word, word)
    if not word or not word[0].islower():
        return word
    return re.sub(r"(?<=[a-z0-9])([A-Z])", lambda m: "_" + m.group(1).lower(), word).lower() if re.search(r"[a-z0-9][A-Z]", word) else word


def main():
    dry = "--dry" in sys.argv
    antt = files("crates/**/*.antt")
    laws = [p for p in antt if not p.endswith("/Proof.antt")]
    texts = {p: open(p).read() for p in antt}
    kit = set()
    for p in antt + files("crates/**/*.rt"):
        t = texts.get(p) or open(p).read()
        for path, names in uses(t):
            if not own(path):
                for n in names:
                    kit.update(x.strip() for x in n.split(" as "))
    top, inner = {}, set()
    for p in laws:
        body = re.sub(r"--.*", "", texts[p])
        body = re.sub(r"(?ms)^\s*(?:pub )?use [^\n{]*(\{.*?\})?", "", body)
        for line in body.split("\n"):
            m = re.match(r"^(?:(?:abbrev|unfoldable|pub|record|data|ruleset)\s+)*([^\s:(){}\[\],;.]+)(?=[^=]*:|\s*=)", line)
            if m:
                top.setdefault(m.group(1), p)
            for m in re.finditer(r"(?:^\s+(?:pub )?|\blet |[(λ,;{] ?|λ [^.]*? )([A-Za-z][^\s:(){}\[\],;.=]*)(?= *(?:[A-Za-z][^\s:(){}\[\],;.=]* )*[:=.])", line):
                inner.add(m.group(1))
    known = {snake(n) for n, p in top.items() if "-" not in n} | {"append", "length", "take", "drop", "map", "set", "cons", "zero", "suc", "tab", "div", "mod", "add", "sub", "mul", "cond", "le", "lt", "eq", "eqb", "ltb", "leb", "get_or"}
    names = {}
    for n in sorted(set(top) | inner):
        if n in kit or not re.match(r"[a-z]", n) or not re.search(r"-|[a-z0-9][A-Z]", n):
            continue
        parts = [snake(x) for x in n.split("-")]
        new = parts[0]
        for a, b in zip(parts, parts[1:]):
            joins = a in known and b in known and n in top
            new += ("-" if joins else "_") + b
        new = FALLS.get(n, new)
        if new != n:
            names[n] = new
    names.update(SPELLED)
    names.update(WRITTEN)
    # a lemma that would get the name of a definition or of a function of the code that it is about ends in _lem
    by = {}
    for n in set(top) | inner:
        by.setdefault(names.get(n, n), set()).add(n)
    for new, olds in by.items():
        if len(olds) > 1:
            for n in olds:
                if "-" in n and n not in FALLS:
                    names[n] = new + "_lem"
    # what falls together
    seen = {}
    fns = set()
    for p in files("crates/**/*.rt"):
        fns.update(re.findall(r"\b(?:fn|mod) ([a-z_0-9]+)", open(p).read()))
    for n in set(top) | inner:
        seen.setdefault(names.get(n, n), set()).add(n)
    for new, olds in sorted(seen.items()):
        if len(olds) > 1 and any(o in names for o in olds):
            print("together:", new, sorted(olds), [top.get(o, "inner") for o in sorted(olds)])
    for n, new in names.items():
        if n in top and new in fns:
            print("as a function:", n, "->", new, top[n])
    if dry:
        print(len(names))
        for n in names:
            if "--list" in sys.argv:
                print(n, names[n])
        return
    for p in antt + files("crates/**/*.rt") + files("crates/**/*.edit"):
        t = texts.get(p) or open(p).read()
        mark = "//" if p.endswith(".rt") else "--"
        out = []
        for line in t.split("\n"):
            cut = line.find(mark) if not p.endswith(".edit") else -1
            code, note = (line, "") if cut < 0 else (line[:cut], line[cut:])
            here = names if p.endswith(".antt") else {k: v for k, v in names.items() if k not in SPELLED}
            code = TOKEN.sub(lambda m: here.get(m.group(0), m.group(0)), code)
            note = re.sub(r"`[^`]*`", lambda m: TOKEN.sub(lambda k: names.get(k.group(0), k.group(0)), m.group(0)), note)
            out.append(code + note)
        new = "\n".join(out)
        if new != t:
            open(p, "w").write(new)


main()
