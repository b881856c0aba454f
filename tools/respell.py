#!/usr/bin/env python3
"""Brings the names of this repository's own definitions and lemmas to the spelling of today's Rattle: run once, at the top,
after the kit's own script. A value is in snake case (inCodelet and read-line become in_codelet and read_line), a type in camel
case (Too-deep becomes TooDeep). Names of src/, of the library, and those that Rattle makes of the code (a goal's name, a step of
the argument c) stay. It lists the new names that stand somewhere already, to be looked at."""
import os
import re
import sys

NAME = r"[A-Za-zα-ωΑ-Ωℕ_][A-Za-z0-9α-ωΑ-Ωℕ_'₀-₉⁰-⁹+*-]*"
DEFINED = re.compile(r"(?m)^( *)((?:abbrev |unfoldable |pub |data |record )*)(" + NAME + r")(?: \((?:[^()]|\([^()]*\))*\)| \{[^}]*\})* :(?= )")
ALIAS = re.compile(r" as (" + NAME + r")(?=[,}])")
# std's own words in names of ours
WORDS = {"getD": "get_or"}
# lemmas whose plain respelling is the name of what they speak of, in the same file; and a word of std's with another meaning
LEMMAS = "add-takes choice-takes digit-of hex-digit in-row inner-of leaf-of lower-from read-of read-write-takes slot-of subtract-takes write-line"
OWN = {n: n.replace("-", "_") + "_lem" for n in LEMMAS.split()} | {"If-some": "WhereSome"}
# a dash that joins the names of two things that std has, as std's lemmas do
KEPT = {"All-append", "get_or-map", "take-suc"}
# the same, where the kit's script has respelt the lemma: by the ending of the file's path
IN_FILE = {("Tenth.antt", "fed_by"), ("Layer.antt", "has_room"), ("Built.antt", "in_order")}


def files(ends, skip):
    for top in ("crates", "docs", "README.md"):
        if os.path.isfile(top):
            if top.endswith(ends):
                yield top
            continue
        for folder, dirs, names in os.walk(top):
            dirs[:] = sorted(d for d in dirs if d not in ("out", "data") and d not in skip)
            for n in sorted(names):
                if n.endswith(ends):
                    yield os.path.join(folder, n)


def read(p):
    with open(p, encoding="utf-8") as f:
        return f.read()


def respelt(n):
    if n in OWN:
        return OWN[n]
    parts = n.split("-")
    if n[0].isupper():
        return parts[0] + "".join(p[:1].upper() + p[1:] for p in parts[1:])
    out = []
    for p in parts:
        p = WORDS.get(p, re.sub(r"(?<=[a-z0-9])([A-Z])", lambda m: "_" + m[1].lower(), p))
        out.append(p)
    return "_".join(out)


def table():
    new, every = {}, set()
    for p in files((".antt",), ("src", "must-fail")):
        t = read(p)
        made = set(re.findall(r"goal\.(" + NAME + ")", t))
        found = {m[3] for m in DEFINED.finditer(t)} | {m[1] for m in ALIAS.finditer(t)}
        every |= set(re.findall(NAME, t))
        for n in found - made - KEPT:
            if re.search(r"-", n) or re.match(r"[a-z][a-z0-9]*[A-Z]", n):
                new[n] = respelt(n)
    return new, every


def turned(text, new, answers):
    def put(m):
        n = m[0]
        if n not in new:
            return n
        before = text[max(0, m.start() - 2) : m.start()]
        # a step of the argument of an answer
        if answers and before in ("c.", "w.", "l."):
            return n
        return new[n]

    return re.sub(r"(?<![\w'-])" + NAME, put, text)


def main():
    new, every = table()
    targets = {}
    for n, to in sorted(new.items()):
        targets.setdefault(to, []).append(n)
    for to, ns in sorted(targets.items()):
        if len(ns) > 1 or to in every:
            print("falls together: " + ", ".join(ns) + " -> " + to + (" (there already)" if to in every else ""))
    count = 0
    for p in list(files((".antt",), ("src", "must-fail"))) + list(files((".rt",), ())):
        t = first = read(p)
        base = os.path.basename(p)
        for n in [n for f, n in IN_FILE if f == base]:
            t = re.sub(r"(?<![\w'.-])" + n + r"(?![\w'-])", n + "_lem", t)
        to = turned(t, new, base in ("Answers.antt", "Invariants.antt"))
        if to != first:
            count += 1
            with open(p, "w", encoding="utf-8") as f:
                f.write(to)
    for p in files((".md",), ()):
        t = read(p)
        to = re.sub(r"`[^`\n]+`", lambda m: turned(m[0], new, False), t)
        if to != t:
            count += 1
            with open(p, "w", encoding="utf-8") as f:
                f.write(to)
    print(f"{len(new)} names, {count} files")
    if "--table" in sys.argv:
        for n, to in sorted(new.items()):
            print(n, to)


main()
