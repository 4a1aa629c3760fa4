#!/usr/bin/env python3
"""Places that today's Rattle writes otherwise, by point: python3 tools/places.py [FOLDER] [-v].

FOLDER is a checkout (this one by default). Each point is a search over crates/*/src (point 8: crates/*/proofs);
-v prints the places. What a search finds is a place to be looked at: docs/DESIGN-PASS.md says what became of each."""
import collections
import pathlib
import re
import sys

arguments = [a for a in sys.argv[1:] if a != "-v"]
verbose = "-v" in sys.argv
root = pathlib.Path(arguments[0] if arguments else pathlib.Path(__file__).parent.parent)
sources = sorted(root.glob("crates/*/src/**/*.rt"))
texts = {str(p.relative_to(root)): p.read_text() for p in sources}


def bare(text):
    """The text with comments blanked."""
    return re.sub(r"//[^\n]*", lambda m: " " * len(m.group()), text)


def search(pattern, flags=re.M):
    """Each match, as file:line and the first line of it."""
    found = []
    for name, text in texts.items():
        for m in re.finditer(pattern, bare(text), flags):
            line = text.count("\n", 0, m.start()) + 1
            found.append(f"{name}:{line}: {' '.join(m.group().split())[:90]}")
    return found


FUNCTION = re.compile(r"^( *)((?:pub(?:\([a-z]+\))? )?(?:const )?fn (\w+)[^{;]*?)((?:\n *(?:requires|ensures)[^\n]*)*)\s*\n?\s*\{\n(.*?)^\1\}", re.M | re.S)


def functions():
    """Each function: file, line, name, parameters, clauses, body."""
    for name, text in texts.items():
        for m in FUNCTION.finditer(bare(text)):
            yield name, text.count("\n", 0, m.start()) + 1, m.group(3), m.group(2), m.group(4), m.group(5)


def shape(code):
    """The code with each name as one, and each literal as another."""
    out = []
    for t in re.findall(r"[A-Za-z_]\w*|'.'|\"[^\"]*\"|[\d_]+|\S", code):
        out.append(t if t in KEYWORDS or not re.match(r"[\w'\"]", t) else "#" if re.match(r"['\"\d]", t) else "$")
    return tuple(out)


KEYWORDS = set("fn let mut match if else for in while return self Self Some None Ok Err pub struct enum impl as".split())


def twins():
    """Functions of one shape and structs of the same fields, each group in a line."""
    groups = collections.defaultdict(list)
    for name, line, called, head, clauses, body in functions():
        s = shape(body)
        if len(s) >= 9:
            groups[s].append(f"{name}:{line} {called}")
    for name, text in texts.items():
        for m in re.finditer(r"^pub (struct|enum) (\w+)[^{;]*\{\n(.*?)^\}", bare(text), re.M | re.S):
            fields = re.sub(r"ghost [^\n]*", "", m.group(3))
            kind = tuple(re.findall(r"(\w+):", fields))
            if m.group(1) == "struct" and len(kind) >= 2:
                groups[("struct", kind)].append(f"{name}:{text.count(chr(10), 0, m.start()) + 1} {m.group(2)}")
    return ["; ".join(g) for g in groups.values() if len(g) > 1]


def facts():
    """A fact of a `requires`, without names, in three contracts or more; two parameters side by side in three functions or more."""
    requires = collections.Counter()
    pairs = collections.defaultdict(set)
    where = collections.defaultdict(set)
    for name, line, called, head, clauses, body in functions():
        for fact in re.findall(r"requires[^{]*\{(.*)\}\s*$", clauses, re.M):
            for part in re.findall(r"\(([^()]*(?:\([^()]*\)[^()]*)*)\)|^([^()×]*)$", fact):
                text = " ".join((part[0] or part[1]).split())
                bound = re.sub(r"\b[a-z_]\w*(\.\w+)*\b", "_", text)
                if bound:
                    where[bound].add(f"{name}:{line} {called}")
        listed = re.search(r"\((.*)\)", head, re.S)
        names = [p.strip() for p in re.split(r",", listed.group(1)) if ":" in p] if listed else []
        for a, b in zip(names, names[1:]):
            pairs[(" ".join(a.split()), " ".join(b.split()))].add(f"{name}:{line} {called}")
    out = [f"fact {k}: {len(v)}: " + "; ".join(sorted(v)) for k, v in where.items() if len(v) >= 3]
    out += [f"pair {k[0]}, {k[1]}: {len(v)}: " + "; ".join(sorted(v)) for k, v in pairs.items() if len(v) >= 3]
    return out


def proofs(files, name):
    """Names that proof files declare, as file: name."""
    found = []
    for p in sorted(root.glob(f"crates/*/proofs/{files}")):
        found += [f"{p.relative_to(root)}: {m.group(1)}" for m in re.finditer(name, p.read_text(), re.M)]
    return found


POINTS = {
    "1 numbers and flags for kinds, refusals, nothing": search(r"-> u8$|-> u8\n")
    + search(r"Result<[^;={]*, (?:u8|usize|i64)>")
    + search(r"\.is_(?:err|ok)\(\)")
    + search(r"Ok\((\w+)\) => Ok\(\1\)")
    + search(r"Some\((\w+)\) => (?:Some|Ok)\(\1")
    + search(r"const (?:PUBLISHED|DISPATCH|HASP): \w+"),
    "2 twins": twins(),
    "3 loops by hand": search(r"for \w+ in [^\n]*\.\.[^\n]*\{")
    + search(r"\w+ [+-]= 1;")
    + search(r"\.enumerate\(\)")
    + search(r"^ *while [^\n]*"),
    "4 equality, order, conversion, printing by hand": search(r"^impl[^\n]*\b(?:From|TryFrom|Display|Drop|Order|Ord|PartialOrd|PartialEq|Clone)[^\n]* for [^\n]*")
    + search(r"fn (?:from_letter|letter|number|side_name)\b")
    + search(r" as (?:u8|u16|u32|i32|i64|i128|usize)\b"),
    "5 facts in three contracts, parameters that travel together": facts(),
    "6 buffers, parallel arrays, indices": search(r"\[[^\[\];]+; ?[\w:]+\]")
    + search(r"\b\w+\[[^\];\n]+\](?! ?\{)")
    + search(r"\w+: &'a \[i32\],"),
    "7 switches on steps, tables of functions": search(r"\bfn\(")
    + search(r"\bdyn\b")
    + search(r"if let Some\(text\) = read"),
    "8 answers": proofs("**/Answers.antt", r"^pub ([\w-]+) :"),
    "8 lemmas": proofs("*.antt", r"^ *(?:pub )?([a-z][\w'-]*) :"),
}

for point, places in POINTS.items():
    print(f"{point}: {len(places)}")
    if verbose:
        for place in places:
            print(f"    {place}")
