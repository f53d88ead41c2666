#!/usr/bin/env python3
"""Brings this repository's own definitions and lemmas to the spelling of today's Rattle.

usage: python3 tools/respell.py            at the top of the repository, once, after the kit's port.py

A value, a lemma, a field and a constructor are in snake case; a fact (a name that begins with a capital) is in upper
camel case; in a lemma a dash stays between the names of two functions. Names that Rattle makes (goals and steps),
names of std, comments and strings stay as they are.
"""

import os
import re
import sys

CRATES = "crates"
WORD = r"[^\s(){}\[\],;.:@λ→×«»⌜⌝\"]+"
TOKEN = re.compile(WORD)
DEF = re.compile(r"^(\s*)((?:abbrev |unfoldable |pub |data |record |ruleset )*)(" + WORD + r")((?: \([^)]*\)| \{[^}]*\})*)? :(?: |$)(.*)$")
HEAD = re.compile(r"^(\s*)((?:abbrev |unfoldable |pub |data |record |ruleset )+)(" + WORD + r")(.*)$")


def files(*kinds):
    for folder, dirs, names in os.walk(CRATES):
        dirs[:] = sorted(d for d in dirs if d not in ("out", "must-fail"))
        for n in sorted(names):
            if n.endswith(kinds):
                yield os.path.join(folder, n)


def own_names():
    """Each name with a dash that a file of specs/ or proofs/ declares, but for goals."""
    values, fields = set(), set()
    plain = set()
    for p in files(".antt"):
        for line in open(p, encoding="utf-8"):
            if line.lstrip().startswith("--") or line.startswith("use "):
                continue
            m = DEF.match(line.rstrip("\n")) or HEAD.match(line.rstrip("\n"))
            if not m:
                continue
            name, rest = m.group(3), m.group(m.lastindex or 5) or ""
            if rest.strip().startswith("goal."):
                continue
            if name in ("use", "mod", "let", "in", "where", "elim", "|"):
                continue
            if "/specs/" in p and re.match(r"^(?:[^→]*→ )*Type", rest) is None:
                plain.add(name)
            if "-" not in name.strip("-"):
                continue
            values.add(name)
            if m.group(1):
                fields.add(name)
    return values, fields, plain


# a lemma that would have the name of a function
OTHER = {"bool-byte": "bool_byte_lem"}
KNOWN = {"length", "take", "drop", "append", "map", "set", "push", "replicate", "cond", "reverse", "member", "insert"}


def spelled(name, functions):
    parts = [x for x in name.split("-")]
    if name[0].isupper():
        return parts[0] + "".join(x[:1].upper() + x[1:] for x in parts[1:])
    if name in functions:
        return "_".join(parts)
    # a lemma: the longest names of functions that its parts spell
    got, i = [], 0
    while i < len(parts):
        for j in range(len(parts), i, -1):
            word = "-".join(parts[i:j])
            if word in functions or word in KNOWN:
                got.append(("_".join(parts[i:j]), True))
                i = j
                break
        else:
            got.append((parts[i], False))
            i += 1
    text = got[0][0]
    for (a, ka), (b, kb) in zip(got, got[1:]):
        text += ("-" if ka and kb else "_") + b
    return text


def strip(line, mark):
    """The line's code and its comment."""
    out, i, quoted = [], 0, False
    while i < len(line):
        if line[i] == '"':
            quoted = not quoted
        if not quoted and line.startswith(mark, i) and (mark == "//" or (i == 0 or line[i - 1] == " ") and line[i:].startswith("-- ")):
            return line[:i], line[i:]
        i += 1
    return line, ""


def foreign(text):
    """The names that a file takes from std or from the logic."""
    found = set()
    for m in re.finditer(r"^(?:ghost )?use ([^{;\n]+?)\.\{([^}]*)\}", text, re.M):
        module = m.group(1)
        if module.startswith("Rattle.std") or not module.startswith("Rattle."):
            for it in m.group(2).split(","):
                found.add(it.split(" as ")[0].strip())
    return found


def turn(text, names, fields, rust, everything):
    aliases = set(re.findall(r" as (" + WORD + r")", text))
    skip = foreign(text)
    alias_heads = {a for a in aliases if a not in ("goal",)}

    def code(part):
        out, last = [], 0
        for m in TOKEN.finditer(part):
            w = m.group()
            new = None
            before = part[: m.start()]
            dotted = before.endswith(".")
            if "-" in w.strip("-") and w not in skip:
                if dotted:
                    q = re.search(r"(" + WORD + r")\.$", before)
                    head = q.group(1) if q else ""
                    if w in fields or (head in alias_heads and w in names):
                        new = names.get(w)
                elif w in names:
                    new = names[w]
                elif w in aliases or everything:
                    if re.fullmatch(r"[A-Za-z][A-Za-z0-9'-]*", w):
                        new = spelled(w, {w} if w[0].islower() else set())
            if new and new != w:
                out.append(part[last : m.start()] + new)
                last = m.end()
        out.append(part[last:])
        return "".join(out)

    lines = []
    for line in text.split("\n"):
        body, comment = strip(line, "//" if rust else "--")
        pieces = re.split(r'("[^"]*")', body)
        lines.append("".join(x if k % 2 else code(x) for k, x in enumerate(pieces)) + comment)
    return "\n".join(lines)


def main():
    values, fields, plain = own_names()
    functions = {n for n in plain}
    names = {n: OTHER.get(n) or spelled(n, functions) for n in values}
    taken = {}
    for n, s in sorted(names.items()):
        if s in taken:
            print(f"fall together: {n} and {taken[s]} as {s}")
        taken[s] = n
    for p in files(".antt", ".rt"):
        with open(p, encoding="utf-8") as f:
            text = f.read()
        new = turn(text, names, fields, p.endswith(".rt"), p.endswith(".rt") or "/specs/" in p)
        if new != text:
            with open(p, "w", encoding="utf-8") as f:
                f.write(new)
    if "--list" in sys.argv:
        for n, s in sorted(names.items()):
            print(n, s)


if __name__ == "__main__":
    main()
