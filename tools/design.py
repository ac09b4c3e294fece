#!/usr/bin/env python3
"""Counts the places of each point of docs/DESIGN-PASS.md in crates/*/src/*.rt, and for point 8 in proofs/.

    design.py POINT [DIR]

prints `file:line: sort, text` for each place, the numbers by sort and by crate, and in the last line the number of all. DIR is the
repository's root, else the folder it is run in. Beside points 1 to 8: `twins` says how the members of each group of 2 differ, `3n` has
the loops that are no places, `6o` the lists read at an offset, and `8l` the laws that name nothing of the repository's own.
"""
import difflib
import re
import sys
from collections import Counter, defaultdict
from pathlib import Path

TOKEN = re.compile(
    r"""//[^\n]*|b?"(?:\\.|[^"\\])*"|b?'(?:\\.|[^'\\])'|'?[A-Za-z_]\w*|\d\w*"""
    r"""|->|=>|::|\.\.=?|<<=|>>=|[-+*/%&|^=!<>]=|&&|\|\||<<|>>|\S""", re.S)
WORD = re.compile(r"[A-Za-z_]\w*$")
KEEP = set("as break const continue else enum fn for if impl in let loop match mut pub ref return self struct while".split())
OPEN, CLOSE = "([{", ")]}"


class Fn:
    pass


def crate_of(path):
    return path.split("/")[1]


def tokens_of(text):
    out, line, at = [], 1, 0
    for m in TOKEN.finditer(text):
        line += text.count("\n", at, m.start())
        at = m.start()
        if not m.group().startswith("//"):
            out.append((m.group(), line, m.start(), m.end()))
    return out


def closing(toks, i):
    """The place of the bracket that closes the one at i."""
    depth = 0
    for k in range(i, len(toks)):
        depth += (toks[k][0] in OPEN) - (toks[k][0] in CLOSE)
        if depth == 0:
            return k
    return len(toks) - 1


def parts(toks):
    """Tokens cut at the commas outside brackets."""
    out, cur, depth = [], [], 0
    for t in toks:
        depth += (t[0] in "([{<") - (t[0] in ")]}>")
        if t[0] == "," and depth == 0:
            out.append(cur)
            cur = []
        else:
            cur.append(t)
    return [p for p in out + [cur] if p]


def joined(toks):
    return " ".join(t[0] for t in toks)


def functions(path, text, toks):
    out, i = [], 0
    while i < len(toks) - 1:
        if toks[i][0] != "fn" or not WORD.match(toks[i + 1][0]):
            i += 1
            continue
        f = Fn()
        f.path, f.crate, f.line, f.name = path, crate_of(path), toks[i][1], toks[i + 1][0]
        i += 2
        while toks[i][0] != "(":
            i += 1
        end = closing(toks, i)
        f.params = []
        for p in parts(toks[i + 1:end]):
            k = next((k for k, t in enumerate(p) if t[0] == ":"), None)
            if k is not None:
                f.params.append((p[k - 1][0], joined(p[k + 1:])))
            elif p[-1][0] == "self":
                f.params.append(("self", "Self"))
        i = end + 1
        start = i
        while toks[i][0] not in ("{", ";", "requires", "ensures", "decreases"):
            i = closing(toks, i) + 1 if toks[i][0] in OPEN else i + 1
        f.ret = joined(toks[start + 1:i])
        f.clauses = []
        while toks[i][0] in ("requires", "ensures", "decreases"):
            kind = toks[i][0]
            while toks[i][0] != "{":
                i += 1
            end = closing(toks, i)
            f.clauses.append((kind, text[toks[i][3]:toks[end][2]].strip()))
            i = end + 1
        f.body = []
        if toks[i][0] == "{":
            end = closing(toks, i)
            f.body = toks[i:end + 1]
            i = end
        out.append(f)
        i += 1
    return out


def types(path, text, toks):
    """Enums and structs: (path, line, enum or struct, name, [(field or variant, type or payload)])."""
    out = []
    for i, t in enumerate(toks[:-2]):
        if t[0] not in ("enum", "struct") or not WORD.match(toks[i + 1][0]):
            continue
        k = i + 2
        while toks[k][0] not in ("{", "(", ";"):
            k += 1
        if toks[k][0] != "{":
            continue
        members = []
        for p in parts(toks[k + 1:closing(toks, k)]):
            p = [x for x in p if x[0] != "pub"]
            while p[0][0] == "#":
                p = p[closing(p, 1) + 1:]
            members.append((p[0][0], joined(p[1:]).lstrip(": ")))
        out.append((path, t[1], t[0], toks[i + 1][0], members))
    return out


def load(root):
    fns, tys = [], []
    for p in sorted(root.glob("crates/*/src/**/*.rt")):
        path, text = str(p.relative_to(root)), p.read_text()
        toks = tokens_of(text)
        fns += functions(path, text, toks)
        tys += types(path, text, toks)
    return fns, tys


def show(places, key=None):
    """Prints places, which are (path, line, `sort, text`), and their numbers."""
    places = sorted(set(places), key=key)
    for path, line, text in places:
        print(f"{path}:{line}: {text}")
    for what, names in (("sort", [t.split(",")[0] for _, _, t in places]), ("crate", [crate_of(p) for p, _, _ in places])):
        print(f"by {what}: " + ", ".join(f"{c} {n}" for c, n in sorted(Counter(names).items())))
    print(len(places))


def grouped(items, alike):
    """Items in groups: each is like at least one other of its own. Only groups of two or more."""
    parent = list(range(len(items)))

    def root(i):
        while parent[i] != i:
            i = parent[i]
        return i

    for i, a in enumerate(items):
        for j in range(i + 1, len(items)):
            if alike(a, items[j]):
                p, q = root(i), root(j)
                parent[max(p, q)] = min(p, q)
    found = defaultdict(list)
    for i, a in enumerate(items):
        found[root(i)].append(a)
    return [g for _, g in sorted(found.items()) if len(g) > 1]


def short(path):
    return path.replace("crates/", "").replace("/src", "")


# ---- 1: enums of the shape of Option or Result, flags, numbers for kinds and for none

NUMBERS = ("usize", "u8", "u16", "u32", "u64")
FLAGS = ("found", "differs", "whole")
CODES = ("kind", "mark", "group", "stage", "fault", "density", "period")
REFUSING = {"Refused", "Bad", "Nothing", "Nowhere", "None"}

# Functions whose answer is a number that stands for none or for how something ended, found by reading.
NONE_BY_NUMBER = {
    "board/lib.rt": "table_size", "score_table/lib.rt": "row_gain", "score_table/filling.rt": "entry_at",
    "layers/layer.rt": "number entry_of", "puzzle/lib.rt": "answer", "solver_c/lib.rt": "work_in_calls code_of",
    "solver_cases/unit.rt": "last_entry best_below offer load", "mirror_cases/unit.rt": "last_entry best_below offer load",
    "predecessor_cases/unit.rt": "last_entry best_below sum_of load", "layers_cases/plain.rt": "entry gain",
    "layers_cases/memory.rt": "at byte", "solver_cases/edge_threes.rt": "first along", "mirror_cases/edge_threes.rt": "first along",
    "predecessor_cases/cells.rt": "first_bad", "predecessor_cases/plain.rt": "enumerate offer best_board",
    "solver_cases/plain.rt": "best_board", "mirror_cases/plain.rt": "best_board", "life_cases/plain.rt": "change_in_row state",
    "life_cases/tables.rt": "other_number", "turns_cases/eight_turns.rt": "place_after", "turns_cases/answers.rt": "number",
    "solver_squares/main.rt": "solve_part score_of at", "solver_cases/numbers.rt": "resumes_as pauses_as job_in",
    "plaintext_cases/second.rt": "column answer read", "plaintext_cases/common.rt": "refused read write judge",
    "plaintext_cases/sizes.rt": "number_back", "plaintext_cases/texts.rt": "number_into", "puzzle_cases/answers.rt": "try_text print",
    "layers_cases/fills.rt": "row_differs",
}


def point_1(fns, tys):
    places = []
    for path, line, kind, name, members in tys:
        names, loads = {m for m, _ in members}, [t for _, t in members if t]
        if kind == "enum" and loads and (len(members) == 2 or names & REFUSING):
            places.append((path, line, f"enum, {name}: " + ", ".join(m for m, _ in members)))
        for m, t in members if kind == "struct" else []:
            if t == "bool" and m in FLAGS:
                places.append((path, line, f"flag, {name}.{m}"))
        codes = [m for m, t in members if kind == "struct" and t in NUMBERS and m in CODES + ("number",)]
        if codes:
            places.append((path, line, f"code, struct {name}: " + ", ".join(codes)))
    for f in fns:
        codes = [n for n, t in f.params if t in NUMBERS and n in CODES or (n, t) == ("number", "u8")]
        if codes:
            places.append((f.path, f.line, f"code, fn {f.name}: " + ", ".join(codes)))
        if f.name in NONE_BY_NUMBER.get(short(f.path), "").split():
            places.append((f.path, f.line, f"none, fn {f.name} -> {f.ret or 'a number'}"))
    show(places)


# ---- 2: twins

def same_names(f):
    """The tokens of a function's types and body, its own name left out and the names of its values numbered."""
    names = {f.name: "self"}
    for n, _ in f.params:
        names[n] = f"v{len(names)}"
    body = [t[0] for t in f.body]
    for k, t in enumerate(body):
        if t in ("let", "for", "mut") and WORD.match(body[k + 1]) and body[k + 1] != "mut" and body[k + 1][0].islower():
            names.setdefault(body[k + 1], f"v{len(names)}")
    out = " ".join([t for _, t in f.params] + ["->", f.ret]).split()
    f.words = out[:]
    for k, t in enumerate(body):
        field = k > 0 and body[k - 1] in (".", "::") or k + 1 < len(body) and body[k + 1] in ("::", "(")
        out.append(t if field else names.get(t, t))
    f.words += body
    return out


def shape(tokens):
    """The same with all names but the language's, and all numbers, left out."""
    return " ".join(x if x in KEEP or not re.match(r"[\w'\"]", x) else "x" for x in tokens)


def likeness(a, b, least):
    """How much of two functions is the same, 0 where it is less than the least."""
    size = len(a.plain) + len(b.plain)
    if 2 * min(len(a.plain), len(b.plain)) < least * size or 2 * sum((a.count & b.count).values()) < least * size:
        return 0
    r = difflib.SequenceMatcher(None, a.plain, b.plain, autojunk=False).ratio()
    return r if r >= least else 0


def twins(fns):
    """Groups of functions that are the same but for their values' names, of one shape, or near: 0.8 of the tokens where they have
    one name, else 0.9. Functions without parameters, which are lists of calls or of values, only where they're the same."""
    fns = [f for f in fns if len(f.body) > 2]
    for f in fns:
        f.form = same_names(f)
        f.shape = shape(f.form)
        f.plain = [re.sub(r"^v\d+$", "v", t) for t in f.form]
        f.count = Counter(f.plain)

    def alike(f, g):
        if f.form == g.form or not f.params or not g.params:
            return f.form == g.form
        long = min(len(f.plain), len(g.plain)) >= 25
        return f.shape == g.shape or long and likeness(f, g, 0.8 if f.name == g.name else 0.9)

    return grouped(fns, alike)


def degree(group):
    if len({" ".join(f.form) for f in group}) == 1:
        return "same"
    return "shape" if len({f.shape for f in group}) == 1 else "near"


def type_twins(tys):
    """Groups of types with the same members, or with six of ten the same and three at least."""
    def alike(a, b):
        x, y = set(a[4]), set(b[4])
        return a[2] == b[2] and (x == y or len(x & y) >= 3 and 10 * len(x & y) >= 6 * len(x | y))

    return grouped(tys, alike)


def point_2(fns, tys):
    places = []
    for n, g in enumerate(twins(fns), 1):
        places += [(f.path, f.line, f"{degree(g)}, group {n} of {len(g)}: fn {f.name}") for f in g]
    for k, g in enumerate(type_twins(tys), n + 1):
        places += [(t[0], t[1], f"type, group {k} of {len(g)}: {t[2]} {t[3]}") for t in g]
    show(places, lambda p: (int(re.search(r"group (\d+)", p[2]).group(1)), p))


def difference(f, g):
    """What stands in g where f has something else."""
    if f.shape == g.shape:
        pairs = zip(f.form, g.form, f.words, g.words)
        return "; ".join(dict.fromkeys(f"`{x}` -> `{y}`" for a, b, x, y in pairs if a != b)) or "the same but for names of values"
    out = []
    m = difflib.SequenceMatcher(None, f.plain, g.plain, autojunk=False)
    for op, a, b, c, d in m.get_opcodes():
        x, y = " ".join(f.words[a:b]), " ".join(g.words[c:d])
        if op == "replace" and x != y:
            out.append(f"`{x}` -> `{y}`")
        if op == "delete":
            out.append(f"without `{x}`")
        if op == "insert":
            out.append(f"with `{y}`" + (f" after `{' '.join(g.words[max(0, c - 3):c])}`" if c else ""))
    return "; ".join(out) or "the same but for names of values"


def twins_text(fns, tys):
    """The groups of point 2, and how the members of each differ from its first."""
    n = 0
    for g in twins(fns):
        n += 1
        print(f"\n{n}. {degree(g)}: " + ", ".join(f"{short(f.path)}:{f.line} {f.name}" for f in g))
        if degree(g) != "same":
            for f in g[1:]:
                print(f"   {short(f.path)} {f.name}: {difference(g[0], f)}")
    for g in type_twins(tys):
        n += 1
        print(f"\n{n}. types: " + ", ".join(f"{short(t[0])}:{t[1]} {t[3]}" for t in g))
        for t in g[1:]:
            x, y = g[0][4], t[4]
            less, more = ", ".join(": ".join(m) for m in x if m not in y), ", ".join(": ".join(m) for m in y if m not in x)
            print(f"   {short(t[0])} {t[3]}: " + (f"without `{less}`; with `{more}`" if less or more else "the same"))


# ---- 3: loops that count an index by hand

BY_HAND = ("while", "loop", "range elements", "counter in a range")


def header(body, i):
    """The place of the bracket that opens the block of the loop, match or `if` at i; the function's last one for an arm's guard, which has no block."""
    k = i + 1
    while k < len(body) - 1 and body[k][0] != "{":
        if body[k][0] == "=>":
            return len(body) - 1
        k = closing(body, k) + 1 if body[k][0] in OPEN else k + 1
    return min(k, len(body) - 1)


def is_element(body, k):
    """Whether the name at k is the whole index of an element, in brackets or in a call of `at` or `put`."""
    before, after = body[k - 1][0], body[k + 1][0]
    if before == "[" and after == "]":
        return bool(WORD.match(body[k - 2][0])) or body[k - 2][0] in "])"
    if before != "," or after not in ",)":
        return False
    j = k - 2
    while j > 0 and (body[j][0] != "(" or closing(body, j) < k):
        j -= 1
    return j > 0 and body[j - 1][0] in ("at", "put", "byte_at", "one") and not any(t[0] == "," for t in body[j + 1:k - 1])


def added(block):
    """The names that a sum of their own is put into."""
    return {block[j][0] for j in range(1, len(block) - 6) if block[j + 1][0] == "=" and "wrapping_add" in block[j + 4][0]
            and block[j + 6][0] == block[j][0]}


def loops(f):
    """(sort, line, text) of each loop of a function."""
    body, out = f.body, []
    for i, t in enumerate(body):
        if t[0] not in ("for", "while", "loop") or t[0] == "for" and body[i + 1][0] == "<":
            continue
        k = header(body, i)
        head, block = body[i + 1:k], body[k:closing(body, k) + 1]
        steps = {block[j - 1][0] for j in range(1, len(block) - 1) if block[j][0] in ("+=", "-=")}
        steps |= {block[j - 1][0] for j in range(1, len(block) - 4) if block[j][0] == "=" and block[j + 2][0] == "+" and block[j + 3][0] == "1"}
        if t[0] == "while":
            sort = "while" if steps & {h[0] for h in head} else "other while"
        elif t[0] == "loop":
            sort = "loop" if steps else "other loop"
        elif not any(h[0] == ".." for h in head):
            sort = "iterator"
        else:
            uses = [j for j, b in enumerate(block) if b[0] == head[0][0] and block[j - 1][0] != "."]
            elements = [j for j in uses if is_element(block, j)]
            sort = "range unused" if not uses else "range elements" if elements == uses else "range both" if elements else "range number"
            if any(is_element(block, j) for v in steps | added(block) for j in range(2, len(block) - 1) if block[j][0] == v):
                sort = "counter in a range"
        out.append((sort, t[1], joined(body[i:k])))
    return out


def point_3(fns, tys):
    """While and loop with a counter, range loops whose index is that of elements alone, and those that step a counter beside."""
    show([(f.path, line, f"{sort}, fn {f.name}: {text}") for f in fns for sort, line, text in loops(f) if sort in BY_HAND])


def point_3n(fns, tys):
    show([(f.path, line, f"{sort}, fn {f.name}: {text}") for f in fns for sort, line, text in loops(f) if sort not in BY_HAND],
         lambda p: (p[2].split(",")[0], p))


# ---- 4: equality, order, copying, conversion and printing by hand

def without_copies(body):
    """A body's tokens without the `let x = y.x;` in front."""
    k = 1
    while body[k][0] == "let" and body[k + 2][0] == "=" and body[k + 4][0] == "." and body[k + 5][0] == body[k + 1][0] and body[k + 6][0] == ";":
        k += 7
    return [t[0] for t in body[k:-1]]


def greater_or_less(body):
    """Lines with `if a < b { a } else { b }`, for any a and b."""
    out = []
    for i, t in enumerate(body):
        if t[0] == "if":
            k = header(body, i)
            head = [x[0] for x in body[i + 1:k]]
            end = closing(body, k)
            if "<" in head and end + 2 < len(body) and body[end + 1][0] == "else" and body[end + 2][0] == "{":
                less, more = head[:head.index("<")], head[head.index("<") + 1:]
                yes = [x[0] for x in body[k + 1:end]]
                no = [x[0] for x in body[end + 3:closing(body, end + 2)]]
                if (yes, no) in ((less, more), (more, less)):
                    out.append(t[1])
    return out


def by_hand(f):
    """(sort, line) of what a function does by hand."""
    out = [("order", line) for line in greater_or_less(f.body)]
    text = " ".join(without_copies(f.body)) if len(f.body) > 2 else ""
    own = [(n, t) for n, t in f.params if re.match(r"[A-Z]", t)]
    # Equality: fields of two values, elements of two lists until one differs, a match of true and false, or by name.
    fields = len(re.findall(r"\b(\w+) \. (\w+) [!=]= (?!\1\b)\w+ \. \2\b", text))
    element = r"(?:\w+ \[ \w+ \]|(?:\w+ :: )?(?:byte_)?at \( \w+ , \w+ \))"
    lists = re.search(rf"for[^{{]*{{ if {element} != {element} {{ return false|while[^{{]*{{ if {element} != {element} {{ return false", text)
    truth = len(f.params) == 1 and text.startswith("match") and not re.search(r"=> (?!true|false)", text)
    if f.ret == "bool" and (fields >= 2 or lists and "LEFT" not in text or truth or re.match("same|equal", f.name)):
        out.append(("equality", f.line))
    # Copying: elements one by one, or all fields of a value into another of its type.
    if re.search(r"for (\w+) in [^{]* \{ (\w+) \[ \1 \] = (\w+) \[ \1 \] ;", text):
        out.append(("copying", f.line))
    made = [(t, len(set(re.findall(rf"\b\w+ : {n} \. (\w+)", text)))) for n, t in own]
    if any(f.ret == t and k >= 3 for t, k in made):
        out.append(("copying", f.line))
    # Conversion: `as` alone, a match of one value, or a struct from three fields or all two of another.
    if f.ret not in ("", "bool"):
        one = f.params[0][1] if len(f.params) == 1 else ""
        cast = re.match(r"\w+ as \w+$|\( \w+ % \d+ \) as \w+$", text)
        matched = one and f.ret != one and re.match(r"match \w+ \{", text) and not re.search(r"[a-z] \( \d", text)
        table = one in NUMBERS and re.match(r"match \w+ \{", text) and not re.search(r"\( \d", text)
        fields = any(f.ret != t and (k >= 3 or k == 2 and one) for t, k in made)
        other = re.match("[A-Z]", one) and one not in ("Self", f.ret) and re.search(rf"\b{f.ret} (\{{|::)", text)
        other = other and not re.search(r"Refused \( Refusal|\bfor\b", text)
        if one and cast or matched or table or fields or other:
            out.append(("conversion", f.line))
    # Printing: a struct field by field, an enum case by case.
    named = re.match("print|show|verdict", f.name) or f.crate == "report"
    cases = re.search(r"match (\w+) \{ [^=]*=> (?:report ::|text|print)", text)
    if not f.ret and own and (cases or named and any(re.search(rf"\b{n} \. \w+|match {n}\b", joined(f.body)) for n, _ in own)):
        out.append(("printing", f.line))
    return out


def point_4(fns, tys):
    show([(f.path, line, f"{sort}, fn {f.name}({', '.join(t for _, t in f.params)}) -> {f.ret}")
          for f in fns if f.body for sort, line in by_hand(f)])


# ---- 5: facts and parameters that stand in three functions or more

def facts(f):
    """The parts of a function's `requires`, its parameters named by their order in the part."""
    out = []
    for text in [text for kind, text in f.clauses if kind == "requires"]:
        depth, cur, parts_ = 0, "", []
        for c in text + "×":
            depth += (c in OPEN) - (c in CLOSE)
            if c == "×" and depth == 0:
                parts_.append(cur.strip())
                cur = ""
            else:
                cur += c
        for part in parts_:
            if part.startswith("(") and closing([(c, 0) for c in part], 0) == len(part) - 1:
                part = part[1:-1].strip()
            names = {}

            def number(m):
                w = m.group()
                return names.setdefault(w, f"v{len(names) + 1}") if w in dict(f.params) else w

            part = re.sub(r"(?<![\w.])[A-Za-z_]\w*", number, re.sub(r"\.(now|old|entry)\b", "", " ".join(part.split())))
            out.append(part)
    return out


def shared_facts(fns):
    found = defaultdict(dict)
    for f in fns:
        for fact in facts(f):
            found[fact][(f.path, f.line)] = f
    return {k: v for k, v in found.items() if len(v) >= 3}


def shared_params(fns):
    """Sets of three or more parameters, by name and type, that three functions or more have, with these functions."""
    sets = [frozenset((n, t) for n, t in f.params if n != "self") for f in fns]
    kinds = {s for s in sets if len(s) >= 3}
    found = set(kinds)
    new = set(kinds)
    while new:
        new = {a & b for a in new for b in kinds if len(a & b) >= 3} - found
        found |= new
    having = {s: tuple(i for i, x in enumerate(sets) if s <= x) for s in found}
    return {s: [fns[i] for i in v] for s, v in having.items() if len(v) >= 3}


def point_5(fns, tys):
    places, best = [], {}
    for k, (fact, who) in enumerate(sorted(shared_facts(fns).items(), key=lambda x: (-len(x[1]), x[0])), 1):
        places += [(f.path, f.line, f"fact, {k} in {len(who)} functions, fn {f.name}: {fact}") for f in who.values()]
    for s, who in shared_params(fns).items():
        for f in who:
            key = (len(s) - 2) * len(who), len(s), sorted(s)
            if id(f) not in best or key > best[id(f)][0]:
                best[id(f)] = (key, s, f, len(who))
    for _, s, f, k in best.values():
        places.append((f.path, f.line, f"parameters, of {k} functions, fn {f.name}: " + ", ".join(f"{n}: {t}" for n, t in f.params if (n, t) in s)))
    show(places)


# ---- 6: buffers with a length beside, parallel arrays, lists searched by hand, arenas of indices

def is_list(t):
    return bool(re.match(r"(& (mut )?)?\[ (u8|u16|usize|u64)\b", t))


LENGTHS = ("n", "m", "cells", "bytes", "count", "to", "end")


def lists_by_hand(f):
    """(sort, text) of a function's lists: with a length beside, or with an offset beside that its elements are read at."""
    out, text = [], " ".join(t[0] for t in f.body)
    lists = [n for n, t in f.params if (is_list(t) or t == "Memory") and n not in ("name", "what", "words")]
    numbers = [n for n, t in f.params if t == "usize"]
    row = [n for n in numbers if n == "w" and {"at", "from", "i"} & set(numbers)]
    beside = [n for n in numbers if n in LENGTHS or n in row]
    cut = [n for n in beside if re.search(rf"\.\. {n} (\]|\{{)|\b{n} <=? \w+ \. len \(|\w+ \. len \( \) <=? {n}\b", text)]
    if lists and cut:
        out.append(("length", f"{', '.join(lists)} with {', '.join(cut)}"))
    at = [n for n in numbers if re.search(rf"\w \[ {n} \+ |\w \[ {n} \.\.|\bat \( \w+ , num :: wrapping_add_usize \( {n} ,", text)]
    if lists and at:
        out.append(("offset", f"{', '.join(lists)} with {', '.join(at)}"))
    return out


def point_6(fns, tys):
    places = [(f.path, f.line, f"length, fn {f.name}: {text}") for f in fns for sort, text in lists_by_hand(f) if sort == "length"]
    for path, line, kind, name, members in tys:
        lists = [m for m, t in members if re.match(r"\[ ", t)]
        sizes = [m for m, t in members if t == "usize" and m in ("w", "h", "len", "length", "n", "count")]
        same = Counter(t for m, t in members if m in lists)
        if kind == "struct" and lists and sizes:
            places.append((path, line, f"length, struct {name}: {', '.join(lists)} with {', '.join(sizes)}"))
        if kind == "struct" and any(k > 1 for k in same.values()):
            places.append((path, line, f"parallel, struct {name}: {', '.join(lists)}"))
        if kind == "struct" and len([m for m, t in members if t == "usize"]) == len(members) and {"table", "board"} <= {m for m, _ in members}:
            places.append((path, line, f"length, struct {name}: {', '.join(m for m, _ in members)}"))
    show(places)


def point_6o(fns, tys):
    show([(f.path, f.line, f"offset, fn {f.name}: {text}") for f in fns for sort, text in lists_by_hand(f) if sort == "offset"])


# ---- 7: switches on which step to run

CHOOSING = ("halves", "least", "target", "fills", "twice")
WHICH = ("kind", "group", "stage", "fault", "density", "period")


def switches(f, modes):
    """The parameters, and the fields of parameters, by which a function chooses between steps."""
    out, text = [], " ".join(t[0] for t in f.body)
    for n, t in f.params:
        number = t in NUMBERS and n in WHICH and re.search(rf"match {n} \{{|\b{n} (==|!=|<) \d|\d < {n} \{{", text)
        flag = t == "bool" and n in CHOOSING and re.search(rf"(if|match) (! )?{n}\b", text)
        if number or flag or t in modes and re.search(rf"match {n} \{{", text):
            out.append(f"{n}: {t}")
        fields = re.findall(rf"if (?:! )?{n} \. (?:want \. )?(least|halves|predecessor|greater_first|in_pieces|plain)\b", text)
        out += [f"{n}.{x}" for x in sorted(set(fields))]
    if any(t in ("Job", "Size", "Checkpoint") for _, t in f.params) and re.search(r"let kind = \w+ \. kind ;.*match kind \{", text):
        out.append("its kind")
    out += [f"{x}.{y}()" for x, y in sorted(set(re.findall(r"if (?:! )?(kind|self) \. (refills|halves|has_target) \(", text)))]
    return out


def point_7(fns, tys):
    modes = {name for _, _, kind, name, members in tys if kind == "enum" and not any(t for _, t in members)} | {"Group"}
    told = {(f.path, f.line) for f in fns if f.body and {"printing", "equality"} & {s for s, _ in by_hand(f)}}
    show([(f.path, f.line, f"switch, fn {f.name}: " + ", ".join(s)) for f in fns for s in [switches(f, modes)]
          if s and (f.path, f.line) not in told and f.name not in ("number", "number_of")])


# ---- 8: proofs

def statements(text):
    """(line, name, type) of the definitions in a proof file."""
    out, lines = [], text.split("\n")
    for i, line in enumerate(lines):
        m = re.match(r"(?:pub )?([^\s(){}:]+) : (.*)", line)
        if not m or line.startswith("--"):
            continue
        k, kind = i + 1, m.group(2)
        while k < len(lines) and lines[k].strip() and not re.match(rf"\s*(unfolding|{re.escape(m.group(1))}\b)", lines[k]):
            kind += " " + lines[k].strip()
            k += 1
        out.append((i + 1, m.group(1), kind))
    return out


def proofs(root):
    for p in sorted(root.glob("crates/*/proofs/**/*.antt")):
        yield str(p.relative_to(root)), p.read_text()


def point_8(fns, tys):
    places, sums = [], Counter()
    for path, text in proofs(ROOT):
        name, n = path.split("/")[-1], len(re.findall(r"^(?:abbrev )?(?:pub )?\S+ : goal\.", text, re.M))
        if name == "Proof.antt" or n and name in ("Answers.antt", "Invariants.antt"):
            places.append((path, 1, f"{name}, {n} of goals, {len(text.splitlines())} lines"))
            sums[name] += n
    print("of goals: " + ", ".join(f"{k} {n}" for k, n in sorted(sums.items())))
    show(places)


def point_8l(fns, tys):
    """Laws of proofs/*.antt whose statement names nothing of the repository's own."""
    crates = {p.name for p in (ROOT / "crates").iterdir()}
    places = []
    for path, text in proofs(ROOT):
        if path.split("/")[-1] in ("Proof.antt", "Answers.antt", "Invariants.antt"):
            continue
        own = set()
        for crate, rest in re.findall(r"use Rattle\.(\w+)\.([^\n]*(?:\n  [^\n]*)*)", text):
            if crate in crates:
                own |= set(re.findall(r"[^\s{},.]+", rest))
        own |= {name for _, name, _ in statements(text)} | set(re.findall(r"^(?:data|record|abbrev|unfoldable) (?:pub )?(\S+)", text, re.M))
        for line, name, kind in statements(text):
            words = set(re.findall(r"[^\s(){}\[\],.;:λ]+", kind))
            if "≡" in kind or "≤" in kind or "<" in kind:
                if not words & own and not kind.startswith("goal"):
                    places.append((path, line, f"law, {name} : {kind}"))
    show(places)


POINTS = {"1": point_1, "2": point_2, "twins": twins_text, "3": point_3, "3n": point_3n, "4": point_4, "5": point_5,
          "6": point_6, "6o": point_6o, "7": point_7, "8": point_8, "8l": point_8l}

if __name__ == "__main__":
    ROOT = Path(sys.argv[2] if len(sys.argv) > 2 else ".")
    POINTS[sys.argv[1]](*load(ROOT))
