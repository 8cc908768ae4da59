#!/usr/bin/env python3
"""Writes docs/PORT-MOVED.md: the statements that moved from specs/ to proofs/, file by file, as they stand there: all of
theory's, and of other crates those of the files that are named below.

    python3 tools/moved_list.py

Run at the top of the repository. A statement is the signature of a declaration that is neither a definition (abbrev,
unfoldable) nor a type, with the parameters of the modules that it stands in; what is local to a proof is left out.
"""
import glob
import re

FROM, TO = "crates/theory/proofs", "docs/PORT-MOVED.md"
# what moved in other crates, since an edit of a definition that it stands on must be refused
OTHERS = [
    "crates/textreading/proofs/Reading/**/*.antt",
    "crates/oldlists/proofs/Lists/**/*.antt",
    "crates/oldlists/proofs/Calls/**/*.antt",
    "crates/sessions/proofs/Step/**/*.antt",
    "crates/sessionruns/proofs/Run/**/*.antt",
]
# what a law of proofs/ speaks of beside the definitions of specs/: it moved along
DEFINED = re.compile(r" *(?:abbrev(?: pub)?|unfoldable(?: pub)?|(?:pub )?(?:record|data|ruleset)) (\S+)")
ITEM = re.compile(r" *(?:pub )?[^\s(){},;]+ : ")


def room(line):
    return len(line) - len(line.lstrip(" "))


def whole(lines, at):
    """The line at `at` and those that go on from it: deeper, with no blank between."""
    end = at + 1
    while end < len(lines) and lines[end] and room(lines[end]) > room(lines[at]):
        end += 1
    return lines[at:end]


def header(lines, at):
    """The lines of `module _ .. where`."""
    end = next(i for i in range(at, len(lines)) if lines[i].endswith(" where"))
    return lines[at:end + 1]


def statements(lines):
    out, told, inside, skip = [], [], [], 0
    for at, line in enumerate(lines):
        if at < skip or not line or line.lstrip().startswith("--"):
            continue
        while inside and room(line) <= room(lines[inside[-1]]):
            inside.pop()
        if re.match(r" *module _ ", line):
            inside.append(at)
            skip = at + len(header(lines, at))
        elif ITEM.match(line) and room(line) == (room(lines[inside[-1]]) + 2 if inside else 0):
            if out and inside != told:
                out.append("")
            for module in inside:
                if module not in told:
                    out += header(lines, module)
            told = list(inside)
            out += whole(lines, at)
    return out


def main():
    text = [
        "# The statements that moved",
        "",
        "Theory's theorems stand in `proofs/`, the definitions in `specs/`. This is what moved, machine-made by",
        "`tools/moved_list.py`: for each file of `crates/theory/proofs` every statement as it stands there, with the",
        "parameters of its modules. A name marked `pub` can be used by other files. Behind them the same of the other",
        "crates of which theorems moved. Where a definition stayed in `specs/`, the parameters of its module, unsaid",
        "as long as a theorem stood beside it, are written out. No statement and no definition changed otherwise.",
    ]
    files = names = 0
    paths = sorted(glob.glob(f"{FROM}/**/*.antt", recursive=True))
    for other in OTHERS:
        paths += sorted(glob.glob(other, recursive=True))
    for path in paths:
        with open(path, encoding="utf-8") as it:
            found = statements(it.read().split("\n"))
        if found:
            files += 1
            names += sum(1 for line in found if ITEM.match(line) and not line.lstrip().startswith(("→", "module", "(", "≡")))
            text += ["", f"## `{path.removeprefix(FROM + '/')}`", "", "```", *found, "```"]
            with open(path, encoding="utf-8") as it:
                along = [m[1] for m in map(DEFINED.match, it.read().split("\n")) if m]
            if along:
                text += ["", f"Definitions that these laws alone speak of, moved along: {', '.join(f'`{one}`' for one in along)}."]
    with open(TO, "w", encoding="utf-8") as it:
        it.write("\n".join(text) + "\n")
    print(f"{TO}: {files} files, {names} statements")


main()
