#!/usr/bin/env python3
"""Writes docs/PORT-NAMES.md: for each crate, the names of definitions, lemmas and proofs that the port spelled anew.

    python3 tools/renamed_list.py

Run in a clone that has the commits f027de1 and 18c2e8a: the declarations of each file of the one beside those of the other.
"""
import subprocess
import sys

sys.argv.append("--look")
sys.path.insert(0, "tools")
sys.stdout, shown_to = open("/dev/null", "w"), sys.stdout
import respell_pages as pages  # noqa: E402

sys.stdout = shown_to


def main():
    ran = subprocess.run(["git", "ls-tree", "-r", "--name-only", pages.OLDER, "crates"], stdout=subprocess.PIPE, check=True)
    crates = {}
    for path in ran.stdout.decode().splitlines():
        if path.endswith(".antt"):
            old, new = pages.declared(pages.shown(pages.OLDER, path)), pages.declared(pages.shown(pages.SPELLED, path))
            for one, other in zip(old, new):
                if one != other:
                    crates.setdefault(path.split("/")[1], {})[one] = other
    text = [
        "# Names that the port spelled anew",
        "",
        "Machine-made by `tools/renamed_list.py`, crate by crate: the name at f027de1, and the name now.",
    ]
    for crate in sorted(crates):
        text += ["", f"## {crate}", "", "```"]
        line = ""
        for one, other in sorted(crates[crate].items()):
            item = f"{one} {other}"
            if len(line) + len(item) + 2 > 118:
                text.append(line)
                line = ""
            line += (", " if line else "") + item
        text += [line, "```"]
    with open("docs/PORT-NAMES.md", "w", encoding="utf-8") as it:
        it.write("\n".join(text) + "\n")
    print("docs/PORT-NAMES.md:", sum(map(len, crates.values())), "names")


main()
