#!/usr/bin/env python3
"""Brings the repository's own definitions and lemmas to the spelling of the installed library, after its port.py has run.

usage: python3 tools/respell.py [--list] [--write]      at the top of the repository

A name is a definition, constructor, field or lemma that stands in specs/ or in proofs/*.antt (files of one function's proof, proofs/F/,
follow, but name nothing that is turned: their names are those of goals). Types and modules stay. Everything else is in snake case:
camelCase gets underscores; a hyphen becomes one too, but for the hyphen that joins two definitions (value-sum: the value of a sum).
Without --write it only says what falls together.
"""
import os, re, sys, collections
ROOT = os.getcwd()
ID = r"[^\s(){}\[\].,;:λ\"`@]+"
HEAD = re.compile(r"^(\s*)((?:(?:abbrev|unfoldable|pub|mutual|data|record|ruleset|axiom)\s+)*)(%s)((?:\s*\{[^}]*\}|\s*\([^)]*\))*)\s*(?::|=|where|≔)(?:\s|$)" % ID)
LATER = {"in", "let", "where", "elim", "as", "record", "use", "unfolding", "open", "module", "mod", "pub", "infixl", "infixr", "infix"}

def files(ends):
    for folder, dirs, names in os.walk(os.path.join(ROOT, "crates")):
        dirs[:] = sorted(d for d in dirs if d != "out")
        for n in sorted(names):
            if n.endswith(ends):
                yield os.path.join(folder, n)

def is_function_proof(path):
    p = os.path.relpath(path, ROOT).split(os.sep)
    return len(p) > 4 and p[2] == "proofs"

declared, tops, fields = collections.defaultdict(set), set(), set()
for path in files((".antt",)):
    if is_function_proof(path):
        continue
    inside = False
    for line in open(path, encoding="utf-8"):
        if line.lstrip().startswith("--"):
            continue
        if line.strip() and not line.startswith(" "):
            inside = bool(re.match(r"(?:pub )?record\s", line))
        m = HEAD.match(line)
        if inside and m and m.group(1):
            fields.add(m.group(3))
        if not m and line.startswith((" ", "\t")):
            m = re.match(r"^(\s+)()(?:let\s+)?(%s)\s+:\s" % ID, line)
        if m and m.group(3) not in LATER:
            declared[m.group(3)].add(os.path.relpath(path, ROOT))
            if "/specs/" in path and not m.group(1) and "ruleset" not in m.group(2):
                tops.add(m.group(3))
        several = re.match(r"^\s+((?:%s )+%s)\s+:\s" % (ID, ID), line)
        if several and not set(several.group(1).split()) & LATER:
            for n in several.group(1).split():
                declared[n].add(os.path.relpath(path, ROOT))
        for n in re.findall(r"\blet\s+(%s)\s+[:=]" % ID, line):
            declared[n].add(os.path.relpath(path, ROOT))

code = set()
for path in files((".rt",)):
    code |= set(re.findall(r"\bfn\s+(\w+)", open(path, encoding="utf-8").read()))

def snake(word):
    """One part of a name, without hyphens."""
    if not re.search(r"[a-z0-9][A-Z]", word):
        return word
    if word[:1].isupper():
        return word
    return re.sub(r"(?<=[a-z0-9'])([A-Z])", lambda m: "_" + m.group(1).lower(), word)

WORDS = {snake(t) for t in tops if "-" not in t} | {"length", "sum", "map", "take", "drop", "append", "replicate", "cond", "not"}
# what is no definition, though a definition has the same name
PLAIN = {"same", "has", "none", "more", "other", "first", "last", "least", "exact", "all", "each", "both", "back", "after", "before", "fits", "holds", "it", "no", "lines", "one", "number"}

def joins(left, right):
    return left in WORDS and left not in PLAIN and right in WORDS and right not in PLAIN

def new_name(name):
    parts = [snake(p) for p in name.split("-")]
    if len(parts) == 1:
        return parts[0]
    for k in range(1, len(parts)):
        left, right = "_".join(parts[:k]), "_".join(parts[k:])
        if joins(left, right):
            return left + "-" + right
    return "_".join(parts)

# what is imported from the library keeps the library's spelling
own = {c for c in os.listdir(os.path.join(ROOT, "crates"))}
library = set()
for path in files((".antt", ".rt")):
    for m in re.finditer(r"\buse\s+([\w.'-]+)\.\{([^}]*)\}", open(path, encoding="utf-8").read()):
        at = m.group(1).split(".")
        if not (at[0] == "Rattle" and len(at) > 1 and at[1] in own):
            library |= {w.strip().split(" as ")[0] for w in m.group(2).split(",")}

# names of parameters, and those that an import gives
for path in files((".antt",)):
    if not is_function_proof(path):
        text = re.sub(r"--.*", "", open(path, encoding="utf-8").read())
        for n in set(re.findall(r"(?<![\w.'-])[a-z][a-z0-9]*(?:[A-Z][a-z0-9]+)+(?![\w'-])", text)):
            declared[n].add(os.path.relpath(path, ROOT))

turned = {}
for n in declared:
    if n in library:
        continue
    if not re.search(r"[A-Za-z]", n) or "◌" in n:
        continue
    if "-" not in n and not re.match(r"^[a-z]\w*[A-Z]", n):
        continue
    if re.search(r"[^\w'\-₀-₉≢≡≤<⊕]", n):
        continue
    if new_name(n) != n:
        turned[n] = new_name(n)

# Constructors that fall together with a definition.
turned.update({"is-unknown": "unknown_factor", "is-given": "given_factor"})

# Names that would differ from a definition's by a hyphen alone.
turned.update({"is-order": "is_the_order", "entry-written": "entry_is_written"})

# A lemma that would have the name of a definition, or of another lemma, gets _lem.
taken = collections.defaultdict(set)
for n in declared:
    taken[turned.get(n, n)].add(n)
for new, olds in taken.items():
    defined = [n for n in olds if re.search("[a-z][A-Z]", n)] or [n for n in olds if "-" not in n and any("/specs/" in p for p in declared[n])]
    lemmas = [n for n in olds if n not in defined and n not in fields]
    if len(olds) > 1 and lemmas:
        for n in lemmas if defined else sorted(lemmas)[1:]:
            turned[n] = new + "_lem"

TOKEN = re.compile(ID)
def turn(text, source=False):
    def one(m):
        n = m.group(0)
        if re.fullmatch(r"[a-z][a-z0-9_]*", n) and (source or text[m.start() - 1:m.start()] == "."):
            return n  # a function of src/, or its folder in a path
        return turned.get(n, n)
    return TOKEN.sub(one, text)

def quoted(text, source):
    """Prose: only what stands in backquotes is a name."""
    return re.sub(r"`[^`\n]+`", lambda m: turn(m.group(0), source), text)

def turn_file(path, text):
    if path.endswith(".md"):
        return quoted(text, True)
    source, out = not path.endswith(".antt"), []
    for line in text.split("\n"):
        at = re.search(r"(?:^|\s)--(?:\s|$)" if path.endswith(".antt") else r"//" if path.endswith(".rt") else r"^#", line)
        k = at.start() if at else len(line)
        out.append(turn(line[:k], source) + quoted(line[k:], source))
    return "\n".join(out)

def together():
    """Files in which two names would become one."""
    said = 0
    for path in files((".antt", ".rt")):
        seen = collections.defaultdict(set)
        text = re.sub(r"--.*|//.*", "", open(path, encoding="utf-8").read())
        text = re.sub(r"Rattle\.[\w.'-]*\.(?=[^{])[\w'-]+", "", text)
        for t in set(TOKEN.findall(text)):
            if not (path.endswith(".rt") and t in code):
                seen[turned.get(t, t)].add(t)
        for n, olds in sorted(seen.items()):
            if len(olds) > 1:
                said += 1
                print("together: %s: %s from %s" % (os.path.relpath(path, ROOT), n, ", ".join(sorted(olds))))
    return said

if "--list" in sys.argv:
    for n in sorted(turned):
        print(n, turned[n])
else:
    n = together()
    print("respell: %d names, %d fall together" % (len(turned), n))
    if "--write" in sys.argv:
        changed = 0
        more = [os.path.join(ROOT, "README.md")] + [os.path.join(d, f) for d, _, fs in os.walk(os.path.join(ROOT, "docs")) for f in fs if f.endswith(".md")]
        for path in list(files((".antt", ".rt", ".edit"))) + more:
            old = open(path, encoding="utf-8").read()
            new = turn_file(path, old)
            if new != old:
                open(path, "w", encoding="utf-8").write(new)
                changed += 1
        print("respell: %d files" % changed)
