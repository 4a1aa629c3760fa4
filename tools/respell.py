#!/usr/bin/env python3
"""Respells the repository's own definitions, lemmas, fields and bound variables of specs/ and proofs/ in snake case.

usage: python3 tools/respell.py     at the top of the repository, once, right after the kit's script for older repositories

What is renamed: a name that a file of specs/ or a lemma file of proofs/ declares (a definition, a lemma, a record's
field, a constructor) and that is written with a dash or in lower camel case, and every other lower camel case word of
those files, which is a bound variable. Types and facts keep their capitals. In .rt files only clauses, ghost items and
ghost imports are touched; in docs/ and README.md only what stands between backticks. Functions of src/, strings,
inputs and outputs keep their names. It stops where two names would become one.
"""
import collections
import os
import re
import sys

WORD = re.compile(r"[A-Za-z_\u2115\u2124\u211d][\w'\u2115\u2124-]*")
CAMEL = re.compile(r"[a-z]+[A-Za-z0-9]*[A-Z][A-Za-z0-9]*$")
SPECIAL = {
    # lemmas whose left side the library renamed
    "leZ-in": "int_le_in", "leZ-out": "int_le_out", "leZ-true": "int_le_true",
    # names that would fall together with a definition's
    "if_some": "if_some_lem", "read-ranked": "read_ranked_lem", "same-bid": "same_bid_less", "both-sides": "both_sides_add",
    "stands_at": "stands_as_counted", "exact-amount": "amount_exact", "within-position": "within_position_limit", "no-holds": "no_holds_stand",
}
ANSWERS = ("Answers.antt", "Invariants.antt", "Proof.antt", "Lib.antt")


def snake(word):
    if word in SPECIAL:
        return SPECIAL[word]
    parts = []
    for part in word.split("-"):
        if part[:1].islower():
            part = re.sub(r"(?<=[a-z0-9])([A-Z])", lambda m: "_" + m[1].lower(), part)
        parts.append(part)
    # a fact joined to a name keeps its dash
    joint = "-" if parts[0][:1].isupper() else "_"
    return parts[0] + "".join((joint if i == 0 else "_") + p for i, p in enumerate(parts[1:]))


def files(ends):
    for folder, dirs, names in os.walk("crates"):
        dirs[:] = sorted(d for d in dirs if d != "out")
        for name in sorted(names):
            if name.endswith(ends):
                yield os.path.join(folder, name)


def declared():
    own, where = set(), collections.defaultdict(set)
    for path in files(".antt"):
        if path.endswith(ANSWERS):
            continue
        kind = None
        for line in open(path, encoding="utf-8"):
            head = re.match(r"(?:(?:abbrev|unfoldable|pub) )*(?:(record|data) )?([^\s:(){}]+)[^:]*:", line)
            if head and not line.startswith(("--", "use ", " ")):
                own.add(head[2])
                kind = head[1]
            elif kind and (field := re.match(r"  (?:pub )?([^:=]+?) :", line)):
                own.update(w for w in field[1].split() if WORD.fullmatch(w))
            elif inner := re.match(r" +(?:(?:abbrev|unfoldable|pub) )*([^\s:(){}]+) :", line):
                own.update(w for w in [inner[1]] if WORD.fullmatch(w))
    return own


def imported(text):
    """The library's names that a file imports."""
    got = set()
    for line in re.findall(r"use Rattle\.std\.[^{;\n]*\{([^}]*)\}", text):
        got.update(w.split(" as ")[-1].strip() for w in line.split(","))
    return got


def turn(text, names, camel, plain_dash=True):
    def one(m):
        w = m[0]
        if w in names and (plain_dash or "-" not in w):
            return names[w]
        if camel and CAMEL.match(w):
            return snake(w)
        return w
    return WORD.sub(one, text)


def turn_comment(line, names):
    """A glossary's line begins with names; elsewhere a dash is English."""
    m = re.match(r"(--   )(\S.*?)(  +)(\S.*)$", line)
    if not m:
        return turn(line, names, True, plain_dash=False)
    head = turn(m[2], names, True)
    gap = max(2, len(m[3]) - (len(head) - len(m[2])))
    return m[1] + head + " " * gap + turn(m[4], names, True, plain_dash=False)


def antt(path, names):
    out = []
    for line in open(path, encoding="utf-8").read().split("\n"):
        out.append(turn_comment(line, names) if line.startswith("--") else turn_line(line, names))
    return "\n".join(out)


def turn_line(line, names):
    code, dashes, comment = line.partition(" -- ")
    parts = re.split(r'("[^"]*")', code)
    parts = [p if p.startswith('"') else turn(p, names, True) for p in parts]
    return "".join(parts) + dashes + (turn(comment, names, True, plain_dash=False) if dashes else "")


def rust(path, names):
    """Clauses, ghost items and ghost imports: no other text of a source has lower camel case or a dash in a name."""
    out = []
    for line in open(path, encoding="utf-8").read().split("\n"):
        if re.match(r"\s*//", line):
            out.append(turn(line, names, False, plain_dash=False))
            continue
        parts = re.split(r'("(?:[^"\\]|\\.)*")', line)
        out.append("".join(p if p.startswith('"') else turn(p, names, True) for p in parts))
    return "\n".join(out)


def page(path, names):
    text = open(path, encoding="utf-8").read()
    return re.sub(r"`[^`\n]+`", lambda m: turn(m[0], names, True), text)


def main():
    own = declared()
    names = {w: snake(w) for w in own if snake(w) != w}
    falls = collections.defaultdict(set)
    for w in own:
        falls[names.get(w, w)].add(w)
    both = {k: v for k, v in falls.items() if len(v) > 1}
    if both:
        sys.exit(f"respell: these would become one: {both}")
    pages = ["README.md"] + [os.path.join("docs", n) for n in sorted(os.listdir("docs")) if n.endswith(".md")]
    jobs = [(p, antt) for p in files(".antt")] + [(p, rust) for p in files(".rt")] + [(p, page) for p in pages]
    changed = 0
    for path, how in jobs:
        old = open(path, encoding="utf-8").read()
        new = how(path, names)
        taken = imported(old) & {n for w, n in names.items() if re.search(r"(?<![\w'-])" + re.escape(w) + r"(?![\w'-])", old)}
        mine = {snake(w) for w in WORD.findall(re.sub(r"--.*|//.*", "", old)) if w not in names and CAMEL.match(w)}
        hidden = mine & (set(names.values()) | own | imported(old))
        if hidden and not path.endswith(".md"):
            print(f"respell: look: {path}: the bound variables {', '.join(sorted(hidden))} have names of definitions")
        if taken:
            print(f"respell: look: {path}: the library's {', '.join(sorted(taken))} and the repository's own name are one there")
        if new != old:
            open(path, "w", encoding="utf-8").write(new)
            changed += 1
    print(f"respell: {len(names)} names, {changed} files")


main()
