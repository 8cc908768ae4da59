#!/usr/bin/env python3
"""Brings the repository's own definitions and lemmas to the spelling of today's Rattle: words in snake case.

    python3 tools/respell.py [--look]

Run once, at the top, after port.py. A word of specs/ or proofs/ with a part like classWord becomes class_word, in .antt
files, in the clauses of .rt files and in the edits. --look writes nothing and lists the names that would fall together.
"""
import collections
import glob
import re
import sys

# lemmas that would have their function's name then
LEMMAS = {
    "crates/theory/specs/Basics/Integers/Ring.antt": ("add_term", "add_term_lem"),
    "crates/theory/specs/OldForm/Laws.antt": ("new_word", "new_word_lem"),
    "crates/pairs/proofs/WordPairs.antt": ("in_order", "in_order_lem"),
}
PART = re.compile(r"^[a-z][a-z0-9'₀-₉]*[A-Z]")
TOKEN = re.compile(r"[^\s(){}\[\],;.λ:→×≡≤<+*/∷∙◌↔|←=\"«»^%`#!&]+")


def snake(part):
    if not PART.match(part):
        return part
    return re.sub(r"(?<=[a-z0-9'])([A-Z])", lambda m: "_" + m.group(1), part).lower()


def respelled(token):
    return re.sub(r"[^-_]+", lambda m: snake(m.group(0)), token)


def main():
    proofs = glob.glob("crates/**/*.antt", recursive=True)
    files = proofs + glob.glob("crates/**/*.rt", recursive=True) + glob.glob("crates/**/*.edit", recursive=True)
    text = {f: open(f, encoding="utf-8").read() for f in files}
    seen = collections.Counter()
    for f in proofs:
        for line in text[f].splitlines():
            seen.update(TOKEN.findall(line.split("--")[0]))
    new = {t: respelled(t) for t in seen if respelled(t) != t}
    there = set(seen)
    for f in files:
        if f.endswith(".rt"):
            there.update(re.findall(r"\w+", text[f]))
    together = [(t, n) for t, n in sorted(new.items()) if n in there]
    counts = collections.Counter(new.values())
    together += [(t, n) for t, n in sorted(new.items()) if counts[n] > 1]
    if "--look" in sys.argv:
        print(len(new), "names;", "fall together:", together)
        return
    for f in files:
        old, lemma = LEMMAS.get(f, (None, None))
        turned = TOKEN.sub(lambda m: lemma if m.group(0) == old else new.get(m.group(0), m.group(0)), text[f])
        if turned != text[f]:
            open(f, "w", encoding="utf-8").write(turned)


main()
