#!/usr/bin/env python3
"""Brings the repository's own definitions and lemmas to the kit's spelling, after port.py.

usage: python3 tools/respell.py            at the top of the repository, once, on the files as port.py left them

Words are in snake case: camel case goes (`lineBytes` is `line_bytes`), and so does a dash between plain words
(`calls-in-any-order` is `calls_in_any_order`). A dash that joins names of functions stays (`length-draw`), but not in the name of a field.
Where the new spelling of a lemma is that of a word of one of its files, the lemma keeps its dash, or gets it back.
It writes .antt files, the clauses of .rt files, must-fail edits, and words in backquotes in comments and pages.
"""
import glob
import os
import re
import sys

KEPT = {"and-true", "and-false"}  # std has them too
LIBRARY = set("""length set take drop get_or map append replicate sum add mul sub min max and or not xor le lt suc zero
reverse concat bit_and bit_or bit_xor cond eqb ltb leb""".split())
SIGNATURE = re.compile(
    r"^[ ]*((?:(?:abbrev|unfoldable|pub) )*)([^\s(){};,.:]+)(?: +[({][^\n]*)? :(?= |$)", re.M)
TOKEN = re.compile(r"[^\s(){};,.\[\]\"`|:@]+")


def texts(root, *ends):
    out = []
    for end in ends:
        out += glob.glob(os.path.join(root, "crates", "**", "*" + end), recursive=True)
    return sorted(f for f in out if "/out/" not in f)


def read(f):
    with open(f, encoding="utf-8") as it:
        return it.read()


def camel_gone(name):
    parts = name.split("-")
    def one(p):
        if not re.match(r"[a-z]", p):
            return p
        p = re.sub(r"(?<=[a-z0-9])([A-Z])(?![A-Z])", lambda m: "_" + m.group(1).lower(), p)
        return re.sub(r"(?<=[a-z0-9_])([A-Z]+)", lambda m: m.group(1).lower(), p) if re.search(r"[a-z][A-Z]", p) else p
    return "-".join(one(p) for p in parts)


def fields_of(text):
    """The names of the fields of records."""
    found, inside = set(), None
    for line in text.split("\n"):
        indent = len(line) - len(line.lstrip())
        if inside is not None and line.strip() and indent <= inside:
            inside = None
        if inside is not None:
            m = re.match(r"\s*(?:pub )?([^\s(){};,.:]+) :", line)
            if m:
                found.add(m.group(1))
        elif re.match(r"\s*(?:pub )?record .* where$", line):
            inside = indent
    return found


def declared(root):
    names, functions, made = {}, set(), set()
    for f in texts(root, ".antt"):
        proof = "/proofs/" in f and ("/Proof.antt" in f or "/Proof/" in f)
        for m in SIGNATURE.finditer(read(f)):
            name, line = m.group(2), m.group(0)
            rest = read_line(f, m)
            if "tie." in rest or name.endswith("-spec"):
                made.add(name)
                continue
            if not re.match(r"[a-z]", name):
                continue
            names.setdefault(name, set()).add(f)
            if re.search(r"abbrev|unfoldable", m.group(1)) and "-" not in name:
                functions.add(camel_gone(name))
    return names, functions, made


def read_line(f, m, cache={}):
    t = cache.setdefault(f, read(f))
    return t[m.start():t.find("\n", m.end()) if t.find("\n", m.end()) >= 0 else len(t)]


def plan(root):
    names, functions, made = declared(root)
    functions |= LIBRARY
    fields = set().union(*(fields_of(read(f)) for f in texts(root, ".antt")))
    want = {}
    for name in names:
        if name in made or name in KEPT:
            continue
        new = camel_gone(name)
        if "-" in new:
            parts = [p for p in new.split("-") if p]
            joined = name not in fields and all(p in functions or not re.match(r"[a-z]", p) for p in parts)
            if not joined and re.match(r"[a-z]", new):
                new = new.replace("-", "_")
        if new != name:
            want[name] = new
    tokens = {}
    for f in texts(root, ".antt"):
        if "/Proof.antt" in f or "/Proof/" in f:
            continue
        for line in read(f).split("\n"):
            if line.startswith("use "):
                line = line[line.find("{"):] if "{" in line else ""
            for t in set(TOKEN.findall(line)):
                tokens.setdefault(t, set()).add(f)
    while True:
        met = None
        for name, new in sorted(want.items()):
            others = [n for n, w in want.items() if w == new and n != name]
            if new in names and new not in want:
                others.append(new)
            others = [o for o in others if tokens.get(name, set()) & tokens.get(o, set()) or names[name] & names[o]]
            if others:
                met = (name, others)
                break
        if met is None:
            return want
        name, others = met
        lemma = next((n for n in [name, *others] if "-" in n), None)
        if lemma:
            keep = camel_gone(lemma)
            if want.get(lemma) == keep:
                raise SystemExit(f"{name} meets {others}")
            if keep == lemma:
                del want[lemma]
            else:
                want[lemma] = keep
        else:
            plain = next(n for n in others if "_" in n)
            want[plain] = plain.replace("_", "-")
        if "--print" in sys.argv:
            print("meets:", name, others, "so", lemma or plain)


def respelled(text, want):
    return TOKEN.sub(lambda m: want.get(m.group(0), m.group(0)), text)


def in_quotes(text, want):
    return re.sub(r"`[^`\n]*`", lambda m: respelled(m.group(0), want), text)


def turn(f, want):
    out = []
    for line in read(f).split("\n"):
        mark = "--" if f.endswith(".antt") else "//" if f.endswith(".rt") else None
        at = re.search(r"(^|\s)" + mark + r"(\s|$)", line) if mark else None
        code, comment = (line[:at.start()], line[at.start():]) if at else (line, "")
        words = {k: w for k, w in want.items() if "-" not in w or "-" in k} if f.endswith(".rt") else want
        out.append(respelled(code, words) + in_quotes(comment, words))
    return "\n".join(out)


def main():
    root = os.getcwd()
    want = plan(root)
    if "--print" in sys.argv:
        for k in sorted(want):
            print(k, want[k])
        return
    for f in texts(root, ".antt", ".rt", ".edit"):
        old = read(f)
        new = turn(f, want)
        if new != old:
            with open(f, "w", encoding="utf-8") as it:
                it.write(new)
    pages = glob.glob(os.path.join(root, "docs", "*.md")) + [os.path.join(root, "README.md")]
    for f in pages:
        if os.path.basename(f) == "PORT.md":
            continue
        old = read(f)
        new = in_quotes(old, want)
        if new != old:
            with open(f, "w", encoding="utf-8") as it:
                it.write(new)
    print(f"respell: {len(want)} names")


main()
