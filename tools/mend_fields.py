#!/usr/bin/env python3
"""Gives fields of the repository's own records back the names that port.py took for Rattle's, by what a check says.

    (in crates/NAME) rt check > LOG; python3 ../../tools/mend_fields.py LOG
"""
import re
import sys

BACK = {"ranges": "fits", "true": "taken", "false": "left", "requires": "pre", "invariant": "inv", "ensures": "post",
        "branch": "came", "init": "holds", "preserved": "again", "smaller": "less", "new": "now"}
FORTH = {"pre": "requires", "inv": "invariant", "taken": "true", "left": "false", "post": "ensures", "came": "branch-raw"}
changed = 0
for line in re.sub(r"\n  ", " — ", open(sys.argv[1], encoding="utf-8").read()).split("\n"):
    m = re.match(r"(?:so far: )?(\S+?):(\d+):(\d+): error: .*record `[^`]*` has no field `([\w-]+)`(.*)", line)
    if not m:
        continue
    path, at, column, field, rest = m[1], int(m[2]) - 1, int(m[3]) - 1, m[4], m[5]
    old = BACK.get(field)
    generated = re.search(r"record `[^`]*\.Lts\.", line)
    only = re.search(r"\.Lts\.Last-\d+` has no field `\d+` — the fields that can be named here are `([^`]*)`$", line.strip())
    near = re.search(r"nearest: \.([\w-]+)\)", rest)
    if generated and field in FORTH:
        new = FORTH[field]
    elif only:
        field, new = field + ".0", only[1]
    elif old and f"`{old}`" in rest:
        new = old
    elif near and near[1].replace("-", "_") == field.replace("-", "_") or near and near[1].startswith(field.replace("-", "_") + "-"):
        new = near[1]
    else:
        continue
    lines = open(path, encoding="utf-8").read().split("\n")
    text = lines[at]
    found = [x.start() for x in re.finditer(rf"\.{re.escape(field)}(?![\w-])", text)]
    if found:
        best = min(found, key=lambda x: abs(x - column))
        lines[at] = text[:best] + "." + new + text[best + 1 + len(field):]
        open(path, "w", encoding="utf-8").write("\n".join(lines))
        changed += 1
print(changed, "places")
