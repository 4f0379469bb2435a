#!/usr/bin/env python3
"""Spells the repository's own definitions and lemmas in snake case, as today's Rattle does.

usage: python3 tools/respell.py [--list]      at the top, once, after port.py

Renames in specs/ and proofs/ and in the clauses of src/: a name of ours that is declared with a dash or a hump and begins small.
Types and modules, names of libraries, functions of src/ and names that Rattle makes keep their spelling. --list prints the names.
"""

import os
import re
import sys

WORD = re.compile(r"[^\s(){}\[\],;.⟨⟩«»]+")
OURS = re.compile(r"[a-zα-κμ-ω][\w'₀-₉₊]*(-[\w'₀-₉]+)*\Z")
DECLARED = re.compile(r"^[ \t]*(?:abbrev |pub |unfoldable )*([^\s(){}]+) :(?=\s)", re.M)
BOUND = re.compile(r"[({]([^(){}:]+) :(?=\s)")
LAMBDA = re.compile(r"λ ([^.()]+)\.")
LET = re.compile(r"\blet ([^\s(){}]+) (?::|=)")


def files(kinds):
    for folder, dirs, names in os.walk("crates"):
        dirs[:] = sorted(d for d in dirs if d != "out")
        for name in sorted(names):
            if name.endswith(kinds):
                yield os.path.join(folder, name)


def read(path):
    with open(path, encoding="utf-8") as f:
        return f.read()


def bare(text):
    return re.sub(r"--(?= ).*", "", text)


def snake(name):
    name = name.replace("-", "_")
    return re.sub(r"(?<=[a-z0-9₀-₉'])([A-Z])", lambda m: "_" + m.group(1), name).lower()


def hand(path):
    """Whether the file walks a function by hand, so that most of its names are Rattle's."""
    return os.path.basename(path) == "Proof.antt"


def collected():
    library, declared, local = set(), set(), set()
    crates = set(os.listdir("crates"))
    for path in files(".antt"):
        text = bare(read(path))
        for m in re.finditer(r"^(?:pub )?use ([^\s{]+)\.\{([^}]*)\}", text, re.M):
            parts = m.group(1).split(".")
            if not (parts[0] == "Rattle" and parts[1] in crates):
                library |= {n.strip() for n in m.group(2).split(",")}
        names = set(DECLARED.findall(text))
        for more in (BOUND.findall(text), LAMBDA.findall(text), LET.findall(text)):
            for group in more:
                names |= set(group.split())
        if hand(path):
            needs = set(re.findall(r"^([^\s(){}]+) : tie\.", text, re.M)) | set(re.findall(r"^pub (\S+-spec) :", text, re.M))
            local |= names - needs
        else:
            declared |= names
    return library, declared, local


def renames():
    library, declared, local = collected()
    every = declared | local
    old = {n for n in every if OURS.match(n) and snake(n) != n and n not in library}
    words = [set(WORD.findall(bare(read(path)))) for path in files((".antt", ".rt"))]
    by_new = {}
    for n in sorted(old):
        by_new.setdefault(snake(n), []).append(n)
    new = {}
    for s, names in by_new.items():
        # a definition, which was spelled with humps, keeps the name before a lemma that is named after it
        names.sort(key=lambda n: ("-" in n, n))
        others = [s] if s in every or s in library else []
        for n in names:
            meets = [o for o in others if any(n in w and o in w for w in words)]
            if meets:
                print(f"{n}: {s} is taken by {', '.join(meets)}", file=sys.stderr)
            new[n] = s + "_lem" if meets else s
            others.append(n)
    return new, declared


def respelled(text, new, declared, walk):
    def word(m):
        w = m.group(0)
        if w not in new:
            return w
        before = text[max(0, m.start() - 4):m.start()]
        if walk and before.endswith("tie."):
            return w
        if walk and before.endswith(".") and w not in declared:
            return w
        return new[w]

    # a name is no word of a comment, unless it is in backquotes
    out = []
    for line in text.split("\n"):
        code, dash, comment = line, "", ""
        m = re.search(r"(^|\s)-- ", line)
        if m:
            code, comment = line[:m.start()], line[m.start():]
        text = code
        code = WORD.sub(word, code)
        comment = re.sub(r"`([^`]+)`", lambda c: "`" + new.get(c.group(1), c.group(1)) + "`", comment)
        out.append(code + comment)
    return "\n".join(out)


def main():
    new, declared = renames()
    if "--list" in sys.argv:
        for n in sorted(new):
            print(n, new[n])
        return
    for path in files((".antt", ".rt")):
        text = read(path)
        if path.endswith(".rt"):
            humps = {n: s for n, s in new.items() if "-" not in n}
            turned = respelled(text, humps, declared, False)
        else:
            needs = set(re.findall(r"^([^\s(){}]+) : tie\.", text, re.M)) if hand(path) else set()
            mine = {n: s for n, s in new.items() if n not in needs}
            turned = respelled(text, mine, declared, hand(path))
        if turned != text:
            with open(path, "w", encoding="utf-8") as f:
                f.write(turned)


main()
