#!/usr/bin/env python3
"""Brings the proofs of one crate from the older names of goals, places and steps to those that Rattle makes today.

    (in crates/NAME) rt check --generated FOLDER --old-names
    python3 tools/name_goals.py NAME FOLDER/names.json

Run once for a crate. The list of answers that a proof hands to tie.spec tells which goal each answers: goals stand there
in the order of the list that rt makes; where the numbers differ, goals are found by name. A place has the steps of all
places before it, so `.before` goes in front of a step; where a lemma takes a place, so many `.before` as lead there stay.
"""
import json
import os
import re
import sys

LOGIC = r"[^\s.()\[\]{},;|]+"


def plain(name):
    return re.sub(r"^(overflow|nonzero|offset_bounds|bounds)[-_]", "", name).replace("-", "_")


def base(name):
    """A goal's older name with neither its number nor what the scripts put before it."""
    name = re.sub(r"^Need[-_]", "", name).replace("-", "_")
    name = re.sub(r"^(overflow|nonzero|offset_bounds|bounds)_", "", name)
    name = re.sub(r"^(part|slice_bounds)_", "part_", name)
    return re.sub(r"(_\d+)$", "", name)


def aligned(mine, theirs, weights):
    """The best way to lay one list beside the other, in order: which of theirs each of mine is."""
    best = [[0] * (len(theirs) + 1) for _ in range(len(mine) + 1)]
    for i in range(len(mine) - 1, -1, -1):
        for j in range(len(theirs) - 1, -1, -1):
            same = mine[i] == theirs[j] or re.sub(r"\d+$", "", mine[i]) == re.sub(r"\d+$", "", theirs[j])
            best[i][j] = max(best[i + 1][j], best[i][j + 1], best[i + 1][j + 1] + weights[i] if same else 0)
    i = j = 0
    found = {}
    while i < len(mine) and j < len(theirs):
        same = mine[i] == theirs[j] or re.sub(r"\d+$", "", mine[i]) == re.sub(r"\d+$", "", theirs[j])
        if same and best[i][j] == best[i + 1][j + 1] + weights[i]:
            found[i] = j
            i, j = i + 1, j + 1
        elif best[i + 1][j] >= best[i][j + 1]:
            i += 1
        else:
            j += 1
    return found


class Proof:
    def __init__(self, entry, path, text):
        self.path, self.text, self.said = path, text, []
        self.needs = entry["needs"]
        self.asked = [new for _, new in entry["asked_at"]]
        self.new_place, self.parent, steps = {}, {}, {}
        for place, new in zip(entry["places"], entry["places_by_name"]):
            self.new_place[place[0].replace("-", "_")] = new
            self.parent[new] = place[1] and self.new_place[place[1].replace("-", "_")]
            old, now = place[2]
            if old:
                steps.setdefault(old.replace("-", "_"), set()).add(now)
        self.steps, self.joins, self.written = {}, {}, {}
        for old, now in steps.items():
            tests = sorted(it for it in now if it.startswith(("if-", "match-")))
            joins = sorted(it for it in now if not it.startswith(("if-", "match-")))
            if len(now) > 1 and len(tests) == 1 and len(joins) == 1:
                self.steps[old], self.joins[old] = tests[0], joins[0]
            elif len(now) > 1:
                self.said.append(f"{path}: step {old} is now one of {sorted(now)}")
            else:
                self.steps[old] = now.pop()
        self.fields = {}
        for place in entry["places"]:
            if place[4]:
                self.fields.setdefault(place[2][1], {}).update(place[4])
            if place[3] in entry["params"]:
                self.written[place[2][1]] = entry["params"][place[3]]
        self.loops = [it[0] for it in entry["loops"]]
        self.place_of_goal = {}

    def goals(self):
        text = self.text
        spec = re.search(r"tie\.spec\s((?:[^()]|\([^()]*\))*)\)", text)
        answers = spec[1].split() if spec else []
        kinds = dict(re.findall(r"^(?:abbrev |unfoldable )?([^\s:]+) : tie\.(\S+)", text, re.M))
        answers = [a for a in answers if not kinds.get(a, "").startswith(("invariant-", "decreases-"))]
        if len(answers) == len(self.needs) and all(a in kinds for a in answers):
            for answer, (_, new), place in zip(answers, self.needs, self.asked):
                self.place_of_goal[answer] = place
                text = re.sub(
                    rf"^({re.escape(answer)} : tie\.)Need-\S+", lambda m: f"{m[1]}Need-{new}", text, count=1, flags=re.M
                )
        else:
            mine = [base(kinds.get(a, a)) for a in answers]
            theirs = [base(old) for old, _ in self.needs]
            plainly = [re.search(rf"(?m)^{re.escape(a)} c(?: κs)? = search rules$", text) for a in answers]
            matched = aligned(mine, theirs, [2 if it else 3 for it in plainly])
            for k, answer in enumerate(answers):
                if k in matched:
                    new, place = self.needs[matched[k]][1], self.asked[matched[k]]
                    self.place_of_goal[answer] = place
                    text = re.sub(
                        rf"^({re.escape(answer)} : tie\.)Need-\S+", lambda m: f"{m[1]}Need-{new}", text, count=1, flags=re.M
                    )
                else:
                    self.said.append(f"{self.path}: no goal for {answer} : {kinds.get(answer)}: taken out")
                    text = re.sub(rf"(?ms)^{re.escape(answer)} : tie\..*?(?=^\S+ [:(]|^abbrev |^unfoldable |^module |^pub |^-- |\Z)", "", text, count=1)
                    at = text.index("tie.spec")
                    text = text[:at] + re.sub(rf"(?<=\s){re.escape(answer)}(?=[\s)])\s?", "", text[at:], count=1)
            left = [self.needs[k][1] for k in range(len(self.needs)) if k not in matched.values()]
            if left:
                self.said.append(f"{self.path}: no answer for {left}")
        self.text = text

    def places(self):
        def place(m):
            old = m[1].replace("-", "_")
            if old in self.new_place:
                return "tie." + self.new_place[old]
            # a place that is no longer there: the one before the call
            before = re.match(r"(After_\w+?)_arg\d*$", old)
            if before and before[1] in self.new_place:
                return "tie." + self.parent[self.new_place[before[1]]]
            return m[0]

        self.new_place.update({old.replace("-", "_"): new for old, new in self.new_place.items()})
        self.text = re.sub(r"tie\.((?:At|In|After|Then|Else|Joined|Start|Arm|Case)[^\s()]*)", place, self.text)
        for old, new in self.loops:
            self.text = re.sub(
                rf"(?<![\w-])(tie\.)?(invariant|decreases)-{re.escape(old)}(?![\w-])",
                lambda m: f"{m[1] or ''}{m[2]}-{new}",
                self.text,
            )

    def distance(self, place, to):
        count = 0
        while place is not None and place != to:
            place, count = self.parent.get(place), count + 1
        return count if place == to else None

    def bodies(self):
        blocks = re.split(r"(?m)^(?=\S)", self.text)
        takes, self.gives = {}, {}
        for block in blocks:
            m = re.match(r"(?:abbrev )?(\S+) : .*→ tie\.(\S+)[^→\n]*$", block.split("\n", 1)[0])
            if m and m[2] in self.parent:
                self.gives[m[1]] = m[2]
            inside = re.match(r"module _ \((\w+) : tie\.([^\s)]+)", block)
            if inside and inside[2] in self.parent:
                for line in block.split("\n"):
                    m = re.match(r"  (?:pub )?(?:abbrev )?(?:pub )?([^\s:=]+) : (?:tie\.([^\s]+)$)?", line)
                    if m:
                        takes[m[1]] = inside[2]
                        if m[2] in self.parent:
                            self.gives[m[1]] = m[2]
                continue
            m = re.match(r"(?:abbrev |unfoldable )?(\S+) : \((\w+) : tie\.(\S+?)[ )]", block)
            if not m:
                m = re.match(r"(?:abbrev |unfoldable )?(\S+) : ()tie\.((?:At|In|After|Then|Else|Joined|Start)\S*)", block)
            if m and m[3] in self.parent:
                takes[m[1]] = m[3]
        out = []
        for block in blocks:
            head = re.match(r"(?:abbrev |unfoldable )?([^\s:]+)", block)
            name = head[1] if head else None
            place = takes.get(name) or self.place_of_goal.get(name)
            out.append(self.body(block, name, place, takes))
        self.text = "".join(out)

    def body(self, block, name, place, takes):
        if block.startswith(("use ", "--", "pub use")):
            return block
        var = re.match(rf"{re.escape(name or '')} (\w+)[ =]", block)
        at = {}
        inside = re.match(r"module _ \((\w+) : tie\.([^\s)]+)", block)
        if inside and inside[2] in self.parent:
            own = inside[2]
            at[inside[1]] = own
            for m in re.finditer(r"^  (?:pub )?(?:abbrev )?([^\s:=]+) : tie\.(\S+)$", block, re.M):
                if m[2] in self.parent:
                    at[m[1]] = m[2]

            def led(m):
                if m[2] in at and m[3] in at:
                    steps = self.distance(at[m[3]], at[m[2]])
                    if steps is not None:
                        return f"{m[1]}{m[2]} = {m[3]}{'.before' * steps}"
                return m[0]

            block = re.sub(r"^(  )([^\s=]+) = (\w+)(?:\.before)+$", led, block, flags=re.M)
            takes = {k: v for k, v in takes.items() if not re.search(rf"^  (?:pub )?(?:abbrev )?{re.escape(k)} : ", block, re.M)}
        if place:
            m = re.match(r"(?:abbrev )?\S+ : \((\w+) : tie\.", block)
            at[m[1] if m else (var[1] if var else "c")] = place
        # names for a place before
        for m in re.finditer(r"let (\w+) = (?:(\w+)((?:\.before)*)|(\S+) (\w+)((?:\.before)*)) in", block):
            if m[2] in at:
                at[m[1]] = at[m[2]]
            elif m[4] in self.gives:
                at[m[1]] = self.gives[m[4]]
        for m in re.finditer(r"let (\w+) = (\S+) \(.*\)(?:\.before)* in$", block, re.M):
            if m[2] in self.gives:
                at[m[1]] = self.gives[m[2]]
        for m in re.finditer(r"let (\w+) = \((\S+) [^()]*\)((?:\.before)*) in$", block, re.M):
            if m[2] in self.gives:
                place_now = self.gives[m[2]]
                for _ in range(m[3].count(".before")):
                    place_now = self.parent.get(place_now)
                at[m[1]] = place_now
        block = re.sub(
            r"let (\w+) = (\w+)((?:\.before)+) in", lambda m: f"let {m[1]} = {m[2]} in" if m[2] in at else m[0], block
        )
        # what only leads to a place before
        if name in self.gives and place:
            steps = self.distance(place, self.gives[name])
            block = re.sub(
                rf"^({re.escape(name)} (\w+) = \2)(?:\.before)*$", lambda m: f"{m[1]}{'.before' * steps}", block, flags=re.M
            )

        # lemmas that take a place
        names = "|".join(re.escape(it) for it in sorted(takes, key=len, reverse=True))

        def argument(text, at_index):
            """The argument that begins here: its text as it is to be, where it ends, and its place."""
            m = re.compile(r"(\w+)((?:\.before)*)(?![\w.-])").match(text, at_index)
            if m and m[1] in at:
                return m[1], m.end(), at[m[1]]
            m = re.compile(rf"\(({names}) ").match(text, at_index)
            if m and m[1] in self.gives:
                inner = argument(text, m.end())
                if inner and text[inner[1] : inner[1] + 1] == ")":
                    after = re.compile(r"\)((?:\.before)*)(?![\w.-])").match(text, inner[1])
                    steps = self.distance(inner[2], takes[m[1]])
                    if after and steps is not None:
                        return f"({m[1]} {inner[0]}{'.before' * steps})", after.end(), self.gives[m[1]]
            return None

        if takes:
            out, last = [], 0
            for m in re.finditer(rf"(?<![\w.-])({names}) ", block):
                if m.start() < last:
                    continue
                given = argument(block, m.end())
                if given is None:
                    continue
                steps = self.distance(given[2], takes[m[1]])
                if steps is None:
                    self.said.append(f"{self.path}: {name}: {m[1]} takes {takes[m[1]]}, which is not before {given[2]}")
                    continue
                out += [block[last : m.end()], given[0], ".before" * steps]
                last = given[1]
            block = "".join(out) + block[last:]

        # steps
        def path(m):
            parts = m[0].split(".")
            root, rest = parts[0], parts[1:]
            befores = 0
            while befores < len(rest) and rest[befores] == "before":
                befores += 1
            if befores == len(rest):
                return m[0]
            step, more = rest[befores].replace("-", "_"), rest[befores + 1 :]
            new = self.joins[step] if more[:1] == ["branch"] and step in self.joins else self.steps.get(step, rest[befores])
            if more[:1] == ["new"] and new in self.written:
                # the old values were nested pairs, one for each parameter
                ones = 1
                while ones < len(more) and more[ones] == "1":
                    ones += 1
                if ones < len(more) and more[ones] == "0" and ones - 1 < len(self.written[new]):
                    more = ["new", self.written[new][ones - 1], *more[ones + 1 :]]
            if more and more[0] in self.fields.get(new, {}):
                more = [self.fields[new][more[0]], *more[1:]]
            if root in at or not root:
                return ".".join([root, new, *more])
            if befores:
                return ".".join([root, *rest[:befores], new, *more])
            return m[0]

        block = re.sub(rf"(?<![\w.)])\w+(?:\.{LOGIC})+", path, block)
        gives = "|".join(re.escape(it) for it in self.gives)
        if gives:
            block = re.sub(rf"(\((?:{gives}) \w+(?:\.before)*\))((?:\.{LOGIC})+)", lambda m: m[1] + path(re.match("(.*)", m[2])), block)
        # a signed number of a loop is a number now, beside its bits
        block = re.sub(r"(to_z w\d+ (?:[^\s.()]+\.)*(?:loop[\w-]*|l)\.\w+)(?![\w.-])", r"\1-bits", block)
        block = re.sub(r"to_z-of_z \(search rules\)", "to_z-of_z {w = w64} (search rules)", block)
        # a join has its two ways as a sum too
        return re.sub(r"(\w+\.[^\s.()]+\.branch)(?![\w-])", r"\1-raw", block)


def main():
    crate, names = sys.argv[1], json.load(open(sys.argv[2], encoding="utf-8"))
    for key, entry in names.items():
        head, _, rest = key.partition("-proofs.")
        if head != f"Rattle-{crate}" or not rest.endswith(".Lts"):
            continue
        path = f"crates/{crate}/proofs/{rest[:-4].replace('.', '/')}/Proof.antt"
        if not os.path.exists(path):
            if any(not new.endswith("returns") for _, new in entry["needs"]):
                print("no file:", path)
            continue
        text = open(path, encoding="utf-8").read()
        if "tie.spec" not in text:
            print("no tie.spec:", path)
            continue
        proof = Proof(entry, path, text)
        proof.goals()
        proof.places()
        proof.bodies()
        text = re.sub(r"^pub (\S+)-spec :", lambda m: f"pub {m[1].replace('-', '_')}_spec :", proof.text, flags=re.M)
        text = re.sub(r"^(\S+)-spec =", lambda m: f"{m[1].replace('-', '_')}_spec =", text, flags=re.M)
        open(path, "w", encoding="utf-8").write(text)
        for it in proof.said:
            print(it)


main()
