#!/usr/bin/env python3
"""Imports the library's operators from the library's Prelude, and not from a module of this repository that hands them on.

    python3 tools/own_symbols.py

Run at the top; a second run changes nothing. rt ci refuses such an operator under a path of the repository's own.
"""
import glob
import os
import re

SYMBOLS = set("◌%◌ ◌&&◌ ◌*ℤ◌ ◌*◌ ◌++◌ ◌+ℤ◌ ◌+◌ ◌-ℤ◌ ◌-◌ ◌/◌ ◌<ℤ◌ ◌<◌ ◌==◌ ◌^◌ ◌||◌ ◌↔◌ ◌∷◌ ◌≡◌ ◌≢◌ ◌≤ℤ◌ ◌≤◌ ◌⊎◌".split())
PRELUDE = "Rattle.std.specs.Prelude"
CRATES = "|".join(sorted(os.listdir("crates")))


def turned(text, is_code):
    head, end = ("ghost use ", ";") if is_code else ("use ", "")
    taken, lines = [], []
    for line in text.split("\n"):
        m = re.match(rf"((?:pub )?{head}Rattle\.(?:{CRATES})\.[\w.+]+\.)\{{(.*)\}}{end}$", line)
        if m:
            names = [it.strip() for it in m[2].split(",")]
            symbols = [it for it in names if it in SYMBOLS]
            if symbols:
                taken += [it for it in symbols if it not in taken]
                names = [it for it in names if it not in SYMBOLS]
                if names:
                    lines.append(f"{m[1]}{{{', '.join(names)}}}{end}")
                continue
        lines.append(line)
    if not taken:
        return text
    for k, line in enumerate(lines):
        m = re.match(rf"{head}{PRELUDE}\.\{{(.*)\}}{end}$", line)
        if m:
            names = [it.strip() for it in m[1].split(",")]
            lines[k] = f"{head}{PRELUDE}.{{{', '.join(names + [it for it in taken if it not in names])}}}{end}"
            break
    else:
        first = next(k for k, line in enumerate(lines) if line.startswith((head, "pub " + head)))
        lines.insert(first, f"{head}{PRELUDE}.{{{', '.join(taken)}}}{end}")
    return "\n".join(lines)


def main():
    for f in glob.glob("crates/**/*.antt", recursive=True) + glob.glob("crates/**/*.rt", recursive=True):
        if "/out/" in f:
            continue
        text = open(f, encoding="utf-8").read()
        new = turned(text, f.endswith(".rt"))
        if new != text:
            open(f, "w", encoding="utf-8").write(new)


main()
