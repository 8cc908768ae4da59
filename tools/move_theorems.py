#!/usr/bin/env python3
"""Moves theory's theorems from its specs/ to its proofs/, their statements unchanged.

    python3 tools/move_theorems.py [move] [uses]

Run at the top of the repository; with no word it does both.
    move  theory's own files: each file below a folder of specs/ goes to the same place in proofs/, but for the
          definitions that KEPT names, which stay where they are; does nothing for a file that has moved already.
    uses  every `use` of what moved, in .antt, .rt and .edit files of all crates, and the `file:` lines of theory's
          edits; a second run changes nothing, so it can be run again when files with the old paths come in.
"""
import glob
import os
import re
import sys

THEORY = "crates/theory"
OLD, NEW = "Rattle.theory.specs.", "Rattle.theory.proofs."
ROOM = 110

# the modules that moved, by the folder that they are in
MOVED = {
    "Basics": "Laws AtPlace Integers Integers.Products Integers.Ring Keep",
    "Bounds": "Laws",
    "Character": "Terms Alternating Lowered Ground Counted Betas Order",
    "ClassData": "Laws Periods",
    "ClassWord": "Laws Reading Identity",
    "Column": "Laws",
    "Digits": "Laws LastOne Low Bits",
    "Frobenius": "Spreads Falling Laws HookLengths",
    "Hooks": "Walk Laws Words Apart Betas Rule Evaluation Bounds Degrees Flipped Associates "
             "Marks Marks.Laws Marks.Walk Marks.Stretch",
    "Listing": "Laws Order Ranks Words Sizes",
    "OldForm": "Laws",
    "Partition": "Laws",
    "Refusals": "Laws",
    "Rules": "InOrder Laws Ends",
    "ShapeWord": "Good Flips Laws Words InFront Shifting Reading Conjugate Counts Complement",
}
MODULES = [f"{top}.{name}" for top, names in MOVED.items() for name in names.split()]

# what stays in specs/, under the module that it was in: contracts cite it, or definitions of other crates do. The first
# word of a data type's line is the type; the others are its constructors.
KEPT = {
    "Basics.AtPlace": ["tabled"],
    "Basics.Integers": ["swap-front", "sums", "signed-sums"],
    "Bounds.Laws": ["largest_limit"],
    "ClassData.Periods": ["multiplier", "period_from"],
    "ClassWord.Laws": ["Held", "GoodClass"],
    "Hooks.Degrees": ["Positive"],
    "Hooks.Marks": ["marks", "places", "exchanged", "minus_at", "marked_hook"],
    "Hooks.Marks.Stretch": ["stretch", "zeros_odd", "raised", "hook_by"],
    "Hooks.Words": ["Left"],
    "Listing.Order": ["UpTo"],
    "OldForm.Laws": ["Passes", "OneWord"],
    "Partition.Laws": ["NoZero none some"],
    "Refusals.Laws": ["Numbered", "Within", "WithinClass", "Matched"],
    "ShapeWord.Good": ["GoodShape"],
    "ShapeWord.InFront": ["SameShape"],
    "ShapeWord.Shifting": ["ones_before", "ones_out"],
}
KEPT_NAMES = {module: {word for names in kept for word in names.split()} for module, kept in KEPT.items()}

# what a module only hands on, and where it is from
HANDED = {"Basics.Laws": {"Each": "Basics"}}

# the first lines of the files that stay for what they keep; the lines that tell its words follow, from the file itself
HEADS = {
    "Basics.AtPlace": "-- A table's rule.",
    "Basics.Integers": "-- Sets for simp of the whole numbers as a group; what they hold is of the library.",
    "Bounds.Laws": "-- The limit that laws of bounds ask for.",
    "ClassData.Periods": "-- How the period is computed, part by part (document 02, P2).",
    "ClassWord.Laws": "-- What has a class word, and what is a good one (document 01, \"Class word\").",
    "Hooks.Degrees": "-- What a character degree is (document 01, \"Character degree of a shape\").",
    "Hooks.Marks.Stretch": None,
    "Hooks.Words": "-- What a hook of a word leaves (document 01, \"Hook of length h\"; \"so that the word is again a good one\").",
    "Listing.Order": "-- What the listing lists.",
    "OldForm.Laws": "-- One shape in two forms (document 02, P5): each move keeps the partition and is undone by the other.",
    "Partition.Laws": "-- Part lists that have no part 0.",
    "Refusals.Laws": "-- What no check refuses.",
    "ShapeWord.Good": "-- A good shape word (document 01, \"Good shape words are exactly the numbers below 2^30\"), as a record.",
    "ShapeWord.InFront": "-- Words of one shape (document 02, P6; \"Demand 2's one word is the good one\").",
    "ShapeWord.Shifting": None,
}

USE = re.compile(r"^(?P<head>(?:old: |new: )?(?:pub )?(?:ghost )?use )(?P<module>[\w.·]+)\.\{(?P<names>[^}]*)\}(?P<end>;?)$")


def read(path):
    with open(path, encoding="utf-8") as it:
        return it.read()


def write(path, text):
    os.makedirs(os.path.dirname(path), exist_ok=True)
    with open(path, "w", encoding="utf-8") as it:
        it.write(text)


def names_of(text):
    return [name.strip() for name in text.split(",") if name.strip()]


def base(name):
    return name.split(" as ")[0].strip()


def use_lines(head, module, names, end):
    """One line, or as many as keep each within ROOM."""
    lines, now = [], []
    for name in names:
        if now and len(f"{head}{module}.{{{', '.join(now + [name])}}}{end}") > ROOM:
            lines.append(now)
            now = []
        now.append(name)
    lines.append(now)
    return [f"{head}{module}.{{{', '.join(line)}}}{end}" for line in lines]


# ---- uses

def placed(module, name):
    """The module that has the name now, of one that was at specs.module."""
    name = base(name)
    if name in HANDED.get(module, {}):
        return OLD + HANDED[module][name]
    if name in KEPT_NAMES.get(module, ()):
        return OLD + module
    return NEW + module


def used(text, path):
    """The text with its use lines as the table has them."""
    lines, out, wants = text.split("\n"), [], []
    for line in lines:
        m = USE.match(line)
        module = m["module"][len(OLD):] if m and m["module"].startswith(OLD) else None
        if module not in MODULES:
            out.append(line)
            continue
        parts = {}
        for name in names_of(m["names"]):
            parts.setdefault(placed(module, name), []).append(name)
        if parts.keys() == {OLD + module}:
            out.append(line)
            continue
        if path.endswith(".edit"):
            if len(parts) > 1:
                print(f"{path}: one line for two modules, left as it is: {line}")
                out.append(line)
            else:
                out.append(m["head"] + "".join(parts) + line[m.end("module"):])
            continue
        first = sorted(parts, key=lambda it: (it != OLD + module, it.startswith(NEW)))
        for target in first:
            wants.append((len(out), target, m["head"], m["end"]))
            out.append((target, parts[target], m["head"], m["end"]))
    if not wants:
        return text
    # a name that went to a module which the file uses already joins that use
    result = []
    for line in out:
        if isinstance(line, str):
            result.append(line)
            continue
        target, names, head, end = line
        others = [(i, USE.match(it)) for i, it in enumerate(result) if USE.match(it)]
        rest = [USE.match(it) for it in out if isinstance(it, str) and USE.match(it)]
        have = {base(n) for it in rest if it["module"] == target and it["head"] == head for n in names_of(it["names"])}
        names = [n for n in names if n not in have]
        same = [(i, it) for i, it in others if it["module"] == target and it["head"] == head]
        for i, it in reversed(same):
            joined = use_lines(head, target, names_of(it["names"]) + names, end)
            if len(joined) == 1 and names:
                result[i] = joined[0]
                names = []
        if names and same and target not in [OLD + m for m in MODULES] and not target.startswith(NEW):
            # beside the others
            result[same[-1][0] + 1:same[-1][0] + 1] = use_lines(head, target, names, end)
        elif names:
            result += use_lines(head, target, names, end)
    return "\n".join(result)


def uses():
    files = [f for end in ("antt", "rt", "edit") for f in glob.glob(f"crates/**/*.{end}", recursive=True)]
    for path in sorted(f for f in files if "/out/" not in f):
        old = read(path)
        new = used(old, path)
        if path.startswith(f"{THEORY}/must-fail/"):
            new = re.sub(r"^file: specs/(.*)\.antt$", lambda m: placed_file(m, new), new, flags=re.M)
        if new != old:
            write(path, new)


def placed_file(m, text):
    """The file line of an edit: the text that it edits is in proofs/ where specs/ no longer has it."""
    path = f"{THEORY}/proofs/{m[1]}.antt"
    if m[1].replace("/", ".") not in MODULES or not os.path.exists(path):
        return m[0]
    kept = f"{THEORY}/specs/{m[1]}.antt"
    after = re.match(r"\n(?:#.*\n)*old: (.*)", text[m.end():])
    if after and os.path.exists(kept) and after[1] in read(kept):
        return m[0]
    return f"file: proofs/{m[1]}.antt"


# ---- move

def tokens(text):
    text = "\n".join(line.split("--")[0] if line.lstrip().startswith("--") else line for line in text.split("\n"))
    return set(re.findall(r"[^\s(){}\[\],;.λ]+", text)) | ({"[]"} if "[]" in text else set())


def says(name, words):
    """Whether the words have the name, which may be an operator."""
    name = name.split(" as ")[-1].strip()
    pieces = [it for it in name.split("◌") if it]
    return bool(pieces) and all(any(piece == w or "◌" in w and piece in w.split("◌") for w in words) for piece in pieces)


def filtered(imports, words, was=None):
    """The use lines without the names that the words lack (where was is given, only of those that it had)."""
    out = []
    for line in imports:
        m = USE.match(line)
        if not m:
            # a module as a whole, by its last word
            last = line.split(".")[-1]
            there = any(w == last or w.startswith(last + ".") for w in words)
            if there or was is not None and not any(w == last for w in was):
                out.append(line)
            continue
        if line.startswith("pub use"):
            if was is not None:
                out.append(line)
            continue
        names = [n for n in names_of(m["names"]) if says(n, words) or was is not None and not says(n, was)]
        if names:
            out.append(f"{m['head']}{m['module']}.{{{', '.join(names)}}}{m['end']}")
    return out


def split(text):
    """The head's comment lines, the use lines, the pub mod lines and the rest."""
    lines = text.rstrip("\n").split("\n")
    at = 0
    while lines[at].startswith("--"):
        at += 1
    head, imports, mods = lines[:at], [], []
    while at < len(lines) and re.match(r"(pub )?use |pub mod ", lines[at]):
        (mods if lines[at].startswith("pub mod") else imports).append(lines[at])
        at += 1
    while at < len(lines) and not lines[at]:
        at += 1
    return head, imports, mods, lines[at:]


def block(rest, name):
    """Where a declaration at the margin begins, with the comment right above it, and ends."""
    starts = [i for i, line in enumerate(rest)
              if re.match(rf"(?:abbrev |unfoldable )?(?:pub )?(?:record |data |ruleset )?{re.escape(name)} (?:: |\(|=)", line)]
    if not starts:
        sys.exit(f"no declaration of {name}")
    begin = end = starts[0]
    while begin and rest[begin - 1].startswith("--") and not rest[begin - 1].startswith("-- ----"):
        begin -= 1
    while end < len(rest) and rest[end]:
        end += 1
    return begin, end


def told(head, name):
    """The lines of a file's head that tell a name."""
    out = []
    for line in head:
        if re.match(rf"--   (?:[^ ].*, )?{re.escape(name)}\b", line) or re.match(rf"--   {re.escape(name)}[ ,]", line):
            out.append(line)
        elif out and re.match(r"--    +", line):
            out.append(line)
        elif out:
            break
    return out


def move_file(module):
    path = module.replace(".", "/") + ".antt"
    old, new = f"{THEORY}/specs/{path}", f"{THEORY}/proofs/{path}"
    if os.path.exists(new):
        return
    if not os.path.exists(old):
        print(f"{old}: not there")
        return
    text = read(old)
    head, imports, mods, rest = split(text)
    kept = [it.split()[0] for it in KEPT.get(module, [])]
    if not kept:
        os.makedirs(os.path.dirname(new), exist_ok=True)
        if os.system(f"git mv {old} {new}"):
            sys.exit(1)
        return
    blocks, spans = [], []
    for name in kept:
        begin, end = block(rest, name)
        spans.append((begin, end))
        blocks.append("\n".join(rest[begin:end]))
    body = "\n\n".join(blocks)
    words = tokens(body)
    keep_mods = [f"pub mod {m.split('.')[-1]}" for m in KEPT if m.rpartition(".")[0] == module]
    lines = head
    if HEADS.get(module):
        own = [line for name in kept for line in told(head, name)]
        lines = [HEADS[module]] + [line for i, line in enumerate(own) if line not in own[:i]]
    stays = "\n".join(lines + filtered(imports, words) + keep_mods) + "\n\n" + body + "\n"
    gone = set()
    for begin, end in spans:
        gone.update(range(begin, end))
    left = []
    for i, line in enumerate(rest):
        if i in gone:
            continue
        if not line and (not left or not left[-1] or left[-1].startswith("-- ----") and i - 1 in gone):
            continue
        left.append(line)
    if not any(left):
        goes = f"-- Laws of what specs/{path} defines.\n" + "\n".join(mods) + "\n"
    else:
        own = tokens("\n".join(left))
        there = [name for it in KEPT[module] for name in it.split() if says(name, own)]
        use = use_lines("use ", OLD + module, there, "") if there else []
        uses_now = filtered(imports, own, words)
        elsewhere = [line for name in kept for line in told(head, name)]
        goes = "\n".join([line for line in head if line not in elsewhere] + uses_now + use + mods) + "\n\n" + "\n".join(left).rstrip("\n") + "\n"
    write(new, goes)
    write(old, stays)


def move():
    if not os.path.isdir(f"{THEORY}/specs"):
        sys.exit("run this at the top of the repository")
    order = re.findall(r"^pub mod (\w+)", read(f"{THEORY}/specs/Lib.antt"), re.M)
    tops = [it for it in order if it in MOVED]
    for module in MODULES:
        move_file(module)
    for top in tops:
        path = f"{THEORY}/specs/{top}.antt"
        lines = read(path).split("\n")
        here = {f"pub mod {m.split('.')[1]}" for m in KEPT if m.split(".")[0] == top}
        mods = [it for it in lines if it.startswith("pub mod ")]
        to = f"{THEORY}/proofs/{top}.antt"
        if not os.path.exists(to):
            write(to, f"-- Laws of what specs/{top}.antt defines.\n" + "\n".join(mods) + "\n")
        write(path, "\n".join(it for it in lines if not it.startswith("pub mod ") or it in here))
    lib = f"{THEORY}/proofs/Lib.antt"
    if not os.path.exists(lib):
        write(lib, "-- The mathematics of documents 01 and 02: the laws of what specs/ defines, in files of the same names.\n"
              + "".join(f"pub mod {top}\n" for top in tops))
    lib = f"{THEORY}/specs/Lib.antt"
    write(lib, read(lib).replace("and its folder has the laws.", "and proofs/ has the laws of each."))
    os.system("git add -A " + THEORY)


def main():
    words = sys.argv[1:] or ["move", "uses"]
    if set(words) - {"move", "uses"}:
        sys.exit(__doc__)
    if "move" in words:
        move()
    if "uses" in words:
        uses()


main()
