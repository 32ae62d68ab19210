#!/usr/bin/env python3
"""Brings the definitions and lemmas of specs/ and proofs/ to one spelling: words in snake case, types and modules in camel case.

usage: respell.py [--check]      at the top of the repository, once, after the port's own script

A name that a file of specs/ or proofs/ declares is respelled in every file of crates/ and in the must-fail edits. Functions of src/, exported
names and strings keep theirs. With --check nothing is written: it prints the names that would fall together in a file.
"""
import glob
import os
import re
import sys

W = r"[^\s(){}.;,@\"«»\[\]\\`]+"
TOKEN = re.compile(r'--[^\n]*|//[^\n]*|"(?:[^"\\\n]|\\.)*"|' + W)
KEY = r"(?:abbrev|unfoldable|pub|data|record|ruleset|axiom)"
DECL = re.compile(r"^[ ]*((?:%s[ ]+)*)(%s(?:[ ]+%s)*)[ ]*(?:[:({].*)?$" % (KEY, W, W))
PLAIN = re.compile(r"[A-Za-z0-9_'μ-]+")
# Names that would fall together with another of their file.
OTHER = {}
table = os.path.join(os.path.dirname(os.path.realpath(__file__)), "other_names.tsv")
if os.path.exists(table):
    for line in open(table, encoding="utf-8"):
        if line.strip() and not line.startswith("#"):
            a, b = line.rstrip("\n").split("\t")
            OTHER[a] = b


def snake(name):
    if name in OTHER:
        return OTHER[name]
    if not PLAIN.fullmatch(name) or name[0].isupper() or name[0] in "-'_":
        return name
    name = re.sub(r"([a-z0-9])([A-Z])", lambda m: m[1] + "_" + m[2].lower(), name)
    name = re.sub(r"-([A-Z])", lambda m: "_" + m[1].lower(), name)
    return name.replace("-", "_")


def read(path):
    with open(path, encoding="utf-8") as f:
        return f.read()


def files(pattern):
    return sorted(f for f in glob.glob("crates/**/" + pattern, recursive=True) if "/out/" not in f)


def declared():
    found = set()
    for path in files("*.antt"):
        for line in read(path).split("\n"):
            code = line.split(" -- ")[0]
            if code.lstrip().startswith("--") or " = " in code.split(" : ")[0] or re.match(r"\s*(use|pub use|module|let|where|elim|unfolding|in|mod|pub mod)\b", code):
                continue
            m = re.match(r"^[ ]*((?:%s[ ]+)*)((?:%s[ ]+)*?%s)[ ]*(?::[ ]|:$|[({])" % (KEY, W, W), code)
            if not m:
                continue
            names = m[2].split()
            if len(names) > 1 and "(" in code.split(" : ")[0]:
                continue
            found.update(n for n in names if n not in ("=", "λ", "|"))
    return found


def main():
    names = {n: snake(n) for n in declared()}
    names = {a: b for a, b in names.items() if a != b}
    check = "--check" in sys.argv
    everything = files("*.antt") + files("*.rt")
    fell = {}
    for path in everything:
        text = read(path)
        rust = path.endswith(".rt")
        by = {}
        for m in TOKEN.finditer(text):
            t = m[0]
            if t.startswith(("--", "//", '"')):
                continue
            new = names.get(t, t)
            by.setdefault(new, set()).add(t)
        for new, old in by.items():
            if len(old) > 1:
                fell.setdefault((new, tuple(sorted(old))), []).append(path)
        if not check:
            def turn(m):
                return m[0] if m[0].startswith(("--", "//", '"')) else names.get(m[0], m[0])
            new = TOKEN.sub(turn, text)
            if new != text:
                with open(path, "w", encoding="utf-8") as f:
                    f.write(new)
    for (new, old), where in sorted(fell.items()):
        print("falls together: %s: %s: %s" % (new, " ".join(old), " ".join(where[:6])))
    print("respelled: %d names" % len(names))
    if check:
        return
    # the edits: their names too, with those that were respelled before
    known = set(names.values()) | declared()
    for path in files("*.edit"):
        text = read(path)
        lines = []
        for line in text.split("\n"):
            if line.startswith(("old:", "new:")):
                line = re.sub(W, lambda m: names.get(m[0], snake(m[0]) if snake(m[0]) in known and m[0] != snake(m[0]) else m[0]), line)
            lines.append(line)
        if "\n".join(lines) != text:
            with open(path, "w", encoding="utf-8") as f:
                f.write("\n".join(lines))


main()
