#!/usr/bin/env python3
"""Spells the names that this repository's .antt files declare in snake case: arcsOf becomes arcs_of, ids-length becomes ids_length.

usage: tools/snake_names.py [--check]      at the top of the repository; --check writes nothing and prints the table

It was run once, after the kit's port.py. What stays as it is:
  names of functions, fields, types and variants of src/, and names that begin with a capital;
  names of answers in proofs/F/, whose type is a goal that Rattle names (goal.x, tie.x);
  a name in a file that imports it from a library and not from this repository;
  labels that Rattle makes, which stand behind c. and l. in proofs/F/.
Whole words alone turn: in .antt files everywhere, in .rt files in clauses, ghost items and code spans of comments, in must-fail edits as in the file that they
change, and in .md files in code spans.
"""
import collections
import os
import re
import sys

WORD = re.compile(r'[^\s(){}.;,@"«»\x60]+')
DECLARED = re.compile(r"^\s*(?:abbrev |unfoldable )?(?:pub )?([a-z][^\s(){}.;,@\"«»]*)((?: \{[^{}\n]*\})*) :(?!=)\s*(.*)")
FIELD = re.compile(r"^\s+(?:pub )?([a-z][^\s(){}.;,@\"«»]*) : ")
USE = re.compile(r"^\s*(?:pub )?(?:ghost )?use ([^\s;{]+?)\.?(?:\{([^}]*)\})?(?: as \S+)?;?\s*$", re.M)
# io's library has a last_digits
OTHERWISE = {"lastDigits": "final_digits"}
MODULES = {"Memᴰ", "List", "Nat", "ListN", "Seq"}
KEYWORDS = {"record", "data", "use", "mod", "module", "where", "in", "elim", "let", "pub", "do", "open"}


def snake(name):
    words = re.sub(r"(?<=[a-z0-9])[A-Z]", lambda m: "_" + m[0].lower(), name)
    return words.replace("-", "_")


def files(root):
    for folder, dirs, names in os.walk(root):
        dirs[:] = sorted(d for d in dirs if d not in (".git", "out", "target"))
        for n in sorted(names):
            if n.endswith((".antt", ".rt", ".edit", ".md")):
                yield os.path.join(folder, n)


def read(p):
    with open(p, encoding="utf-8", newline="") as f:
        return f.read()


def in_function(p):
    return bool(re.search(r"/proofs/.+/[^/]+\.antt$", p)) and os.path.basename(p) in ("Proof.antt", "Answers.antt", "Invariants.antt")


def table_of(declared, source):
    """The new name of each declared name that gets one. A definition comes first; where a lemma or a field would be spelled like it, that one keeps or gets a dash."""
    camel = {n: snake(n) for n in declared if re.search("[a-z0-9][A-Z]", n)}
    table = {n: new + "_lem" if new in source else new for n, new in camel.items()}
    camel |= OTHERWISE
    table |= OTHERWISE
    given = set(table.values())
    for n in declared:
        if n in camel:
            continue
        if "-" in n:
            new = snake(n)
            if new not in given and new not in source and new not in declared:
                table[n] = new
        elif n in given and n not in source:
            table[n] = n.replace("_", "-")
    return table


def main(argv):
    root = "."
    own_crates = set(os.listdir("crates"))
    declared, labels = collections.defaultdict(set), set()
    source = set()
    for p in files("crates"):
        t = read(p)
        if p.endswith(".rt"):
            source |= set(re.findall(r"\b(?:fn|const|static|mod|let|let mut|for) (\w+)", t)) | set(re.findall(r"(?<![\w.:])(\w+): (?!:)", t))
        if not p.endswith(".antt"):
            continue
        for l in t.split("\n"):
            m = DECLARED.match(l)
            if m and m[1] not in KEYWORDS:
                if in_function(p) and re.match(r"(?:tie|goal)\.", m[3]):
                    labels.add(m[1])
                else:
                    declared[m[1]].add(p)
    table = table_of(declared, source)
    if "--check" in argv:
        for a, b in sorted(table.items()):
            print(a, b, sep="\t")
        print(len(table), "names;", len(labels), "labels")
        return 0

    def foreign(t):
        """names that the text imports from a library"""
        out = set()
        for m in USE.finditer(t):
            parts = m[1].split(".")
            own = parts[0] == "Rattle" and len(parts) > 1 and parts[1] in own_crates
            if not own and m[2]:
                out |= {it.strip().split(" as ")[0].strip() for it in m[2].split(",")}
        return out

    def turn(text, but, p=None, dotted=False):
        def one(m):
            w = m[0]
            if w not in table or w in but:
                return w
            if text[m.start() - 1 : m.start()] == ".":
                head = re.search(r"([^\s(){}.;,@\"«»]+)(?:\.[^\s(){}.;,@\"«»]+)*\.$", text[max(0, m.start() - 200) : m.start()])
                path = head[0].split(".") if head else [""]
                if path[0] in MODULES or dotted and (path[0] in ("tie", "goal") or path[0] in ("c", "l") and len(path) <= 2):
                    return w
            return table[w]

        return WORD.sub(one, text)

    def spans(text, but):
        return re.sub(r"\x60[^\x60\n]+\x60", lambda m: turn(m[0], but), text)

    def rust(text, but):
        out, clause = [], 0
        for l in text.split("\n"):
            s = l.strip()
            if s.startswith("//"):
                out.append(spans(l, but))
            elif re.match(r"(pub )?ghost use|requires|ensures|ghost\b", s) or clause > 0:
                clause = max(0, clause + l.count("{") - l.count("}")) if not s.endswith(";") or clause else 0
                if re.match(r"(pub )?ghost use", s):
                    clause = 0 if s.endswith(";") else 1
                out.append(turn(l, but))
            else:
                out.append(l)
        return "\n".join(out)

    changed = 0
    for p in files(root):
        if p.startswith("./tools/"):
            continue
        t = read(p)
        if p.endswith(".antt"):
            but = foreign(t)
            own_labels = set()
            if in_function(p):
                for l in t.split("\n"):
                    m = DECLARED.match(l)
                    if m and re.match(r"(?:tie|goal)\.", m[3]):
                        own_labels.add(m[1])
            new = turn(t, but | own_labels, p, in_function(p))
        elif p.endswith(".rt"):
            new = rust(t, foreign(t))
        elif p.endswith(".edit"):
            m = re.search(r"(?m)^file: (.*)$", t)
            target = os.path.join(os.path.dirname(os.path.dirname(p)), m[1].strip()) if m else ""
            but = foreign(read(target)) if os.path.exists(target) else set()
            new = re.sub(r"(?m)^(old|new): .*$", lambda k: turn(k[0], but), t)
        else:
            new = spans(t, set())
        if new != t:
            changed += 1
            with open(p, "w", encoding="utf-8", newline="") as f:
                f.write(new)
    print(changed, "files")
    return 0


if __name__ == "__main__":
    raise SystemExit(main(sys.argv[1:]))
