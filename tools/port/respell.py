#!/usr/bin/env python3
"""Brings the repository's own definitions and lemmas to today's spelling, after port.py and before any edit by hand.

usage: python3 tools/port/respell.py [ROOT]

A definition, a lemma and a record's field are in snake case: `cellsEmpty` becomes `cells_empty`. A dash stays only where it joins a function of std
with another name, as in `length-bytes_of`; a plain word is added with `_`, as in `cells_empty_at`. A lemma whose new name is a definition's gets `_lem`.
Functions of src/ keep their names, and so do strings, inputs and outputs. Comments and pages follow where they name one of these.
"""
import collections
import os
import re
import sys

ROOT = sys.argv[1] if len(sys.argv) > 1 else "."
SIGNATURE = re.compile(r"^(\s*)((?:(?:abbrev|unfoldable|pub|record|data|ghost|constructor) )*)([^\s(){}:,;=λ\\.]+)(?: [({][^:]*:[^)}]*[)}])* :(?: |$)")
TOKEN = re.compile(r"[A-Za-z_][\w'\u2032]*(?:-[A-Za-z0-9_][\w'\u2032]*)*")
CAMEL = re.compile(r"(?<=[a-z0-9])([A-Z]+)")
# functions of std that a lemma's name may join with a dash
STD = {"length", "get_or"}
WORDS = {"getD": "get_or"}
# names of a `let` and of `as` in a `ghost use`
LOCAL = {"byRulePlace": "by_rule_place", "costOf": "cost_of", "pinnedAt": "pinned_at", "strayIn": "stray_in", "tooShort": "too_short"}
# theorems that only say another file's lemma again, by the name of its module
SAME = {"rule_place_is", "rule_place_empty"}

def files(*ends):
    for folder, dirs, names in os.walk(os.path.join(ROOT, "crates")):
        dirs[:] = sorted(d for d in dirs if d != "out")
        for n in sorted(names):
            if n.endswith(ends):
                yield os.path.join(folder, n)

def code_of(line, path):
    return re.sub(r"--( .*)?$", "", line) if path.endswith(".antt") else re.sub(r"//.*$", "", line)

def declared():
    """Names of the repository's definitions (specs/), and of all that specs/ and the lemma files declare."""
    definitions, every, fields = set(), set(), set()
    for p in files(".antt"):
        if p.endswith("/Proof.antt"):
            continue
        for line in open(p, encoding="utf-8"):
            m = SIGNATURE.match(code_of(line, p))
            if m and len(m.group(1)) <= 16:
                every.add(m.group(3))
                if "/specs/" in p:
                    definitions.add(m.group(3))
    return definitions, every

def snake(word):
    return CAMEL.sub(lambda m: "_" + m.group(1).lower(), word) if word[:1].islower() else word

def table():
    definitions, every = declared()
    known = {snake(d) for d in definitions if "-" not in d}
    new = dict(LOCAL)
    for name in every:
        parts = [snake(WORDS.get(w, w)) for w in name.split("-")]
        out = parts[0]
        for k in range(1, len(parts)):
            joined = out in STD and (parts[k] in known or parts[k] in STD)
            out += ("-" if joined else "_") + parts[k]
        if out != name:
            new[name] = out
    # a lemma that would have a definition's name
    for name, to in list(new.items()):
        if name not in definitions and (to in definitions or to in {new.get(d) for d in definitions}):
            new[name] = to + "_lem"
    taken = {to for name, to in new.items() if "-" not in name}
    for name, to in list(new.items()):
        if "-" in name and to in taken and to not in SAME:
            new[name] = to + "_lem"
    for name in every - definitions:
        if name not in new and name in {new.get(d) for d in definitions}:
            new[name] = name + "_lem"
    return new

def check(new):
    """No two names fall together, and no new name is one that stood before."""
    back = collections.defaultdict(set)
    for a, b in new.items():
        back[b].add(a)
    bad = [f"{b}: {sorted(a)}" for b, a in back.items() if len(a) > 1 and b not in SAME]
    seen = collections.defaultdict(set)
    for p in files(".antt", ".rt"):
        if p.endswith("/Proof.antt"):
            continue
        for line in open(p, encoding="utf-8"):
            for t in TOKEN.findall(code_of(line, p)):
                seen[t].add(p)
    for a, b in sorted(new.items()):
        both = seen[b] & seen[a] if b not in new else set()
        if both:
            bad.append(f"{a} -> {b}, which stands beside it in {sorted(both)}")
    return bad

def turn_code(text, new):
    out, k = [], 0
    for m in TOKEN.finditer(text):
        out += [text[k : m.start()], new.get(m.group(0), m.group(0))]
        k = m.end()
    return "".join(out) + text[k:]

def turn_words(text, new):
    """A comment or a page: names in camel case anywhere, others between backticks; those that port.py turned too."""
    camel = {a: b for a, b in new.items() if CAMEL.search(a)}
    stand = NOW

    def one(m):
        t = m.group(0)
        s = "_".join(snake(WORDS.get(w, w)) for w in t.split("-"))
        return new.get(t, s if s != t and s in stand else t)

    def ticked(m):
        return TOKEN.sub(one, m.group(0))

    text = re.sub(r"`[^`\n]+`", ticked, text)
    text = turn_code(text, camel)
    return re.sub(r"\b[a-z]+[A-Z]\w*\b", one, text)

def turn_line(line, path, new):
    mark = re.search(r"--( .*)?$", line) if path.endswith(".antt") else re.search(r"//.*$", line)
    code, comment = (line[: mark.start()], line[mark.start() :]) if mark else (line, "")
    if path.endswith(".rt"):
        parts = re.split(r'("(?:[^"\\]|\\.)*")', code)
        code = "".join(p if p.startswith('"') else turn_code(p, new) for p in parts)
    else:
        code = turn_code(code, new)
    return code + turn_words(comment, new)

NOW = set()

def main():
    new = table()
    NOW.update(new.get(n, n) for n in declared()[1])
    bad = check(new)
    for b in bad:
        print("falls together:", b)
    if "--table" in sys.argv:
        for a, b in sorted(new.items()):
            print(a, b)
        return 0
    for p in files(".antt", ".rt"):
        old = open(p, encoding="utf-8").read()
        text = "".join(turn_line(l.rstrip("\n"), p, new) + ("\n" if l.endswith("\n") else "") for l in old.splitlines(keepends=True))
        if text != old:
            open(p, "w", encoding="utf-8").write(text)
    pages = [os.path.join(ROOT, "README.md")] + [os.path.join(d, f) for d, _, fs in os.walk(os.path.join(ROOT, "docs")) for f in sorted(fs) if f.endswith(".md")]
    for p in pages:
        old = open(p, encoding="utf-8").read()
        text = turn_words(old, new)
        if text != old:
            open(p, "w", encoding="utf-8").write(text)
    with open(os.path.join(ROOT, "tools/port/renamed.txt"), "w", encoding="utf-8") as f:
        f.write("".join(f"{a} {b}\n" for a, b in sorted(new.items())))
    print(f"respell: {len(new)} names")
    return 0

if __name__ == "__main__":
    sys.exit(main())
