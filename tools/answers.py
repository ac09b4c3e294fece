#!/usr/bin/env python3
"""Turns proofs that walk a function by hand, proofs/F/Proof.antt, to the names that the toolchain makes today.

usage: tools/answers.py NAMES CRATE [FUNCTION..]

NAMES is the names.json that 'rt check --generated FOLDER --old-names' writes in the crate's folder CRATE. A walk becomes Invariants.antt and
Answers.antt: a goal's old name becomes its new one, a step of the code likewise, 'c.before.before.step' is 'c.step', and what a loop's invariant takes
as arguments it reads from 'l'. Answers that only say 'search rules' go, since a check tries that itself. A walk with lemmas about a place in the code
stays a walk, under the new names. What a script can't turn is left as it was, and said.
"""

import json
import os
import re
import sys

W = r"[^\s(){}.;,@\"«»]+"
norm = lambda it: it.replace("_", "-")


def blocks(text):
    """The top-level parts of a file: comments, use lines, and definitions with their signatures."""
    out, cur = [], []
    for l in text.split("\n"):
        if not l.strip():
            if cur:
                out.append(cur)
                cur = []
            continue
        cur.append(l)
    if cur:
        out.append(cur)
    return out


class Function:
    def __init__(self, it, off, crate, name, folder):
        self.folder, self.name, self.crate = folder, name, crate
        self.needs, self.steps, self.loops, self.arms, self.said = {}, {}, {}, {}, []
        for old, new in it["needs"]:
            self.needs.setdefault(norm(old), new)
        for p in it["places"]:
            if p[2][0]:
                self.steps.setdefault(norm(p[2][0]), p[2][1])
        self.places = {norm(p[0]): n for p, n in zip(it["places"], it["places_by_name"])}
        for (loop, vs), changed in zip(it["loops"], it["changed"]):
            self.loops[norm(loop[0])] = (loop[1], vs, changed)
        self.arms_at = {}
        for arm, n in zip(it["arms"], it["places_by_name"]):
            for field, step, sub in (arm or [])[2] if arm else []:
                path = tuple(norm(x) for x in [step, *sub])
                self.arms.setdefault(path, f"{arm[0]}.{field}")
                self.arms_at.setdefault(n, {})[path] = f"{arm[0]}.{field}"
        named = dict(zip([p[0] for p in it["places"]], it["places_by_name"]))
        self.up = {named[p[0]]: named.get(p[1]) for p in it["places"]}
        # What 'before' is of each place, by its new name: an arm counts as one step.
        parent = {p[0]: p[1] for p in it["places"]}
        arm_of = {p[0]: arm[0] if arm else None for p, arm in zip(it["places"], it["arms"])}
        self.before = {}
        for p, n in zip(it["places"], it["places_by_name"]):
            up = p[1]
            if arm_of[p[0]] and n[:1].lower() + n[1:] == arm_of[p[0]]:
                while up and arm_of[up] == arm_of[p[0]]:
                    up = parent[up]
            self.before[n] = up and dict(zip(parent, it["places_by_name"]))[up]
        self.pairs, self.asked_all = it["needs"], [new for _, new in it["asked_at"]]
        self.lemmas, self.binders = {}, {}
        self.goals = [g for g, _ in off]
        self.by_dashes = {norm(g): g for g in self.goals}

    def place_of(self, goal):
        for (_, new), at in zip(self.pairs, self.asked_all):
            if new == goal:
                return at
        return None

    def goal_of(self, old):
        old = norm(old)
        return self.needs.get(old) or self.needs.get(re.sub("^(overflow|nonzero)-", "", old)) or self.by_dashes.get(old)

    def chain_to(self, here, there):
        n = 0
        while here and here != there:
            here, n = self.before.get(here), n + 1
        return n if here else None

    def turned(self, text, answer, root="c", here=None):
        """The text under the new names. In an answer a bare 'c' is the record that the walk's 'c' was one field of. A lemma about a place is given
        the record of that place, as far back from 'here' as it stands today."""
        alias = {root: root}
        while True:
            m = re.search(rf"let ([A-Za-z][\w'₀-₉]*) = ({'|'.join(map(re.escape, alias))})((?:\.before)*) in(?:\n *| )", text)
            if not m:
                break
            alias[m[1]] = alias[m[2]] + m[3]
            text = text[: m.start()] + text[m.end() :]
        for name, chain in alias.items():
            if name != root:
                text = re.sub(rf"(?<![\w.'-]){re.escape(name)}(?![\w'₀-₉-])", chain, text)
        text = re.sub(r"(?<![\w.'-])([A-Za-z][\w'₀-₉]*)((?:\.before)+)(\.(?!before)[\w'-]+)", r"\1\3", text)

        def bare(m):
            lemma, chain = m[1], m[2]
            there = self.lemmas.get(lemma)
            if there and here:
                n = self.chain_to(here, there)
                if n is None:
                    self.said.append(f"no way from {here} to {there} for {lemma}")
                    return m[0]
                return f"{lemma} {root}" + ".before" * (n + bool(answer))
            return m[0] if not answer else f"{lemma} {root}.before{chain[len(root):]}"

        if self.lemmas:
            text = re.sub(rf"(?<![\w.'-])({'|'.join(sorted(map(re.escape, self.lemmas), key=len, reverse=True))}) ({re.escape(root)}(?:\.before)*)(?![\w.'₀-₉-])", bare, text)
        known = rf"(?:{'|'.join(map(re.escape, self.lemmas))}) $" if self.lemmas else r"(?!)"
        for m in re.finditer(rf"(?<![\w.'-]){re.escape(root)}((?:\.before)*)(?![\w.'₀-₉-])", text):
            if not re.search(known, text[: m.start()]) and text[m.end() : m.end() + 2] != " :":
                self.said.append(f"bare {m[0]} near '{text[max(0, m.start() - 20) : m.end()]}'")

        def path(m):
            steps = m[1:].split(".")
            first = ["before"] if steps[0] == "before" else []
            while steps[0] == "before" and len(steps) > 1:
                steps = steps[1:]
                first.append("before")
            first = first[1:] if first else []
            # A step that was spelled with a capital.
            if norm(steps[0]) not in self.steps and norm(steps[0]).lower() in self.steps:
                steps[0] = steps[0].lower()
            # A step that was spelled like a lemma of the repository, and was renamed with it.
            if steps[0].endswith("_lem") and norm(steps[0][:-4]) in self.steps:
                steps[0] = steps[0][:-4]
            for n in range(len(steps), 0, -1):
                old, at, new = tuple(norm(x) for x in steps[:n]), here, None
                while at and not new:
                    new, at = self.arms_at.get(at, {}).get(old), self.up.get(at)
                new = new or (None if here else self.arms.get(old))
                if new:
                    return "." + ".".join([*first, new, *steps[n:]])
            return "." + ".".join([*first, self.steps.get(norm(steps[0]), steps[0]), *steps[1:]])

        text = re.sub(r"\.taken(?![\w'-])", ".true", re.sub(r"\.left(?![\w'-])", ".false", text)) if re.search(r"test\.(taken|left)", text) else text
        text = re.sub(rf"(?<![\w.'-]){re.escape(root)}((?:\.[A-Za-z0-9][\w'-]*)+)", lambda m: root + path(m[1]), text)
        text = re.sub(r"(?<=\))(?:\.[A-Za-z][\w'-]*)+", lambda m: path(m[0]), text)
        for old, new in (("inv", "invariant"), ("pre", "requires"), ("well-formed", "well_formed")):
            text = re.sub(rf"(?<=[\w')₀-₉])\.{old}(?![\w'-])", "." + new, text)
        text = re.sub(r"not-(?:true|false) (?:_|\([^()]*\)|[\w.'-]+) ([\w.'₀-₉-]*\.if-not-[\w'-]+\.(?:true|false))", r"\1", text)

        def place(m):
            new = self.places.get(norm(m[1]))
            if not new:
                self.said.append("place " + m[1])
                return m[0]
            return "tie." + new

        text = re.sub(r"tie\.((?!Need-)[A-Z][\w'-]*)", place, text)

        def measure(m):
            got = self.loops.get(norm(m[2]))
            return f"{m[1]}-{got[0]}" if got else m[0]

        return re.sub(r"(?<![\w.'-])(invariant|decreases)-([\w-]+)", measure, text)


def parsed(f, text):
    """The file's head, use lines, invariants and measures, answers and lemmas."""
    head, uses, invs, answers, lemmas = [], [], [], [], []
    for b in blocks(text):
        if any(l.startswith("use ") for l in b):
            head += [l for l in b if l.startswith("--")]
            uses += [l for l in b if not l.startswith("--")]
            continue
        comment = []
        while b and b[0].startswith("--"):
            comment.append(b.pop(0))
        if not b:
            head += comment
            continue
        m = re.match(rf"((?:(?:abbrev|unfoldable|pub) )*)({W}) :(?!:)", b[0])
        if not m:
            f.said.append("no signature: " + b[0])
            lemmas.append(("", comment, "\n".join(b), ""))
            continue
        name, i = m[2], 1
        while i < len(b) and (b[i].startswith(" ") or b[i].startswith("unfolding")):
            i += 1
        sig, clauses = b[:i], "\n".join(b[i:])
        whole = "\n".join(sig)
        if re.search(r"\bstatement M", whole):
            continue
        m = re.search(r"tie\.(invariant|decreases)-([\w-]+)\s*(.*)$", sig[0])
        if m and norm(m[2]) in f.loops:
            invs.append((comment, name, m[1], norm(m[2]), m[3], sig[1:], clauses))
            continue
        m = re.search(r"tie\.Need-([\w-]+)", whole)
        if m:
            new = f.goal_of(m[1])
            if new:
                answers.append((comment, name, new, [l for l in sig if l.startswith("unfolding")], clauses))
            else:
                f.said.append("no goal " + m[1])
            continue
        lemmas.append((name, comment, whole, clauses))
    return head, uses, invs, answers, lemmas


def renamed(clauses, old, new):
    return re.sub(rf"(?m)^{re.escape(old)}(?![^\s=])", lambda m: new, clauses)


def as_answers(f, parts):
    head, uses, invs, answers, lemmas = parts
    uses = [u for u in uses if not re.match(r"use .*\.(Statement|Tie)\b", u)]
    module = f"Rattle.{f.crate}.proofs.{f.name}"
    made, inv_lines, inv_text = [], [], ""
    for comment, name, kind, loop, _, more, clauses in invs:
        new, vs, changed = f.loops[loop]
        cut = clauses.index(" =")
        args, rest = clauses[:cut].split()[1:], clauses[cut + 2 :]
        want = [("l.initial." if c else "l.") + v for v, c in zip(vs, changed)] + ["l." + v for v, c in zip(vs, changed) if c]
        if len(args) != len(want):
            f.said.append(f"{name}: arguments {args} for {want}")
        table = dict(zip(args, want))

        def argument(m):
            word = m[0]
            root = word.split(".")[0]
            return table[root] + word[len(root) :] if root in table else word

        rest = re.sub(r"(?<![^\s(){};,@\"«»])[^\s(){};,@\"«»]+", argument, rest)
        inv_text += rest
        inv_lines += comment + [f"abbrev pub {kind}-{new} : goal.{kind}-{new}"] + more + [f"{kind}-{new} l ={rest}", ""]
    moved, again = set(), True
    while again:
        again = False
        for name, _, sig, clauses in lemmas:
            if name and name not in moved and re.search(rf"(?<![\w.'-]){re.escape(name)}(?![\w'-])", inv_text):
                moved.add(name)
                inv_text += sig + clauses
                again = True
    if invs:
        out = head + uses + [f"use {module}.Given as goal", ""]
        for name, comment, sig, clauses in lemmas:
            if name in moved:
                sig = sig if re.match(r"(abbrev |unfoldable )?pub ", sig) else re.sub(r"^((?:abbrev |unfoldable )?)", r"\1pub ", sig, count=1)
                out += comment + [sig, clauses, ""]
        made.append(("Invariants.antt", out + inv_lines))
    rest = [l for l in lemmas if l[0] not in moved]
    answers = [a for a in answers if not re.fullmatch(rf"{re.escape(a[1])} (?:\S+ )*= search rules", a[4].strip())]
    if answers:
        out = head + uses + [f"use {module}.Goals as goal"]
        if moved:
            out.append(f"use {module}.Invariants.{{{', '.join(sorted(moved))}}}")
        out.append("")
        for name, comment, sig, clauses in rest:
            out += comment + [sig, clauses, ""]
        for comment, name, new, unfolding, clauses in answers:
            clauses = re.sub(rf"(?m)^{re.escape(name)}(?: \S+)*? =", lambda m: new + " c =", clauses)
            first, _, body = clauses.partition(" =")
            out += comment + [f"pub {new} : goal.{new}"] + unfolding + [first + " =" + f.turned(body, True, "c", f.place_of(new)), ""]
        made.append(("Answers.antt", out))
    return made


def as_walk(f, parts):
    head, uses, invs, answers, lemmas = parts
    out, order, given = head + uses + [""], [], ""
    for comment, name, kind, loop, more_args, more, clauses in invs:
        new = f"{kind}-{f.loops[loop][0]}"
        tail = (" " + f.turned(more_args, False)) if more_args else ""
        out += comment + [f"abbrev {new} : tie.{new}{tail}"] + more + [renamed(clauses, name, new), ""]
        order.append(new)
    given = "".join(" " + it for it in order)
    by_goal = {}
    for comment, name, new, unfolding, clauses in answers:
        first, _, body = clauses.partition(" =")
        by_goal[new] = comment + [f"{new} : tie.Need-{new}{given}"] + unfolding + [renamed(first, name, new) + " =" + f.turned(body, False, "c", f.place_of(new)), ""]
    body = []
    for name, comment, sig, clauses in lemmas:
        at = f.lemmas.get(name)
        first, _, rest = clauses.partition(" =")
        arg = (first.split() + ["c", "c"])[1] if at else "c"
        body.append(comment + [f.turned(sig, False, f.binders.get(name, "c"), at), first + " =" + f.turned(rest, False, arg, at), ""])
    for b in body:
        out += b
    for g in f.goals:
        out += by_goal.get(g) or [f"{g} : tie.Need-{g}{given}", f"{g} c = search rules", ""]
    last = f.name.split(".")[-1]
    out += [f"pub {last}_spec : {{M : Type 1}} → statement M", f"{last}_spec = tie.close (tie.spec{given} {' '.join(f.goals)})"]
    return [("Proof.antt", out)]


def main(argv):
    if len(argv) < 2:
        sys.exit(__doc__)
    with open(argv[0], encoding="utf-8") as it:
        names = json.load(it)
    crate = os.path.basename(os.path.realpath(argv[1]))
    top = os.path.join(argv[1], "proofs")
    for folder, dirs, files in sorted(os.walk(top)):
        if "Proof.antt" not in files:
            continue
        name = os.path.relpath(folder, top).replace(os.sep, ".")
        if argv[2:] and name not in argv[2:]:
            continue
        key = f"Rattle-{crate}-proofs.{name}.Lts"
        off = names.get(f"off:{crate}", {}).get("::".join([crate, *name.split(".")]))
        if key not in names or off is None:
            print(f"{name}: not listed, left as it is")
            continue
        with open(os.path.join(folder, "Proof.antt"), encoding="utf-8") as it:
            text = it.read()
        if "tie.spec" not in text:
            print(f"{name}: no tie, left as it is")
            continue
        f = Function(names[key], off, crate, name, folder)
        parts = parsed(f, text)
        kinds = {}
        for name_, _, sig, clauses in parts[4]:
            m = re.match(rf"{re.escape(name_)} = tie\.([A-Z][\w'-]*)", clauses)
            if m and norm(m[1]) in f.places:
                kinds[name_] = f.places[norm(m[1])]
        for name_, _, sig, _ in parts[4]:
            m = re.search(r"\((\w+) : (tie\.)?([A-Z][\w'-]*)", sig)
            if m and (norm(m[3]) in f.places if m[2] else m[3] in kinds):
                f.lemmas[name_] = f.places[norm(m[3])] if m[2] else kinds[m[3]]
                f.binders[name_] = m[1]
        walks = any(re.search(r"tie\.[A-Z]", l[2] + l[3]) for l in parts[4])
        made = as_walk(f, parts) if walks else as_answers(f, parts)
        os.remove(os.path.join(folder, "Proof.antt"))
        for file, lines in made:
            with open(os.path.join(folder, file), "w", encoding="utf-8") as o:
                o.write("\n".join(lines).rstrip("\n") + "\n")
        if not os.listdir(folder):
            os.removedirs(folder)
        if f.said:
            print(f"{name}: " + "; ".join(f.said))


if __name__ == "__main__":
    main(sys.argv[1:])
