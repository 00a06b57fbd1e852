#!/usr/bin/env python3
"""Respells the definitions and lemmas of this repository: words in snake case, and a dash only between two names of definitions.

usage: python3 tools/respell.py [--check]        at the top of the repository, once, right behind the kit's port.py

What is declared in crates/*/specs and in the files of crates/*/proofs/ turns, wherever it is named in .rt and .antt files: `isRank` to
`is_rank`, `says-length` to `says_length`. `length-window`, where both parts are names of definitions, keeps its dash. Functions of src/,
generated names, types and modules stay. Prints each name that would fall together with another, and leaves that one as it is.
"""
import collections
import glob
import re
import sys

WORD = re.compile(r"[^\s(){}.;,@\"«»:λ]+")
SKIP = {"hR", "hT", "tR", "tT"}  # local hypotheses
DECLARED = re.compile(r"^(\s*)((?:(?:unfoldable|abbrev|pub|data|record|ruleset) )*)([^\s(){}.;,@\"«»:=]+)\s+(?:[({].*?[)}] )*:(?:\s|$)")
IMPORTED = re.compile(r"use [\w.]+\.\{([^}]*)\}")


def snake(word):
    word = re.sub(r"(?<=[a-z0-9])([A-Z])(?![A-Z])", lambda m: "_" + m[1].lower(), word)
    return re.sub(r"(?<=[a-z])([A-Z])\b", lambda m: "_" + m[1].lower(), word)


def main():
    check = "--check" in sys.argv
    specs = sorted(glob.glob("crates/*/specs/**/*.antt", recursive=True))
    laws = sorted(glob.glob("crates/*/proofs/*.antt"))
    own = sorted(glob.glob("crates/*/proofs/*/**/*.antt", recursive=True))
    code = sorted(glob.glob("crates/*/src/**/*.rt", recursive=True))
    text = {p: open(p, encoding="utf-8").read() for p in specs + laws + own + code}
    declared, definitions = {}, set()
    for p in specs + laws:
        for line in text[p].split("\n"):
            m = DECLARED.match(line)
            if not m or m[3] in ("let", "λ", "--", "|", "where", "in"):
                continue
            field = bool(m[1])
            declared[m[3]] = declared.get(m[3], False) or field
            if p in specs and not m[1] and re.match(r"^[a-zA-Z0-9_]+$", m[3]) and ("unfoldable" in m[2] or "abbrev" in m[2]):
                definitions.add(snake(m[3]))
        for m in IMPORTED.finditer(text[p]):
            if "Rattle." not in m[0] or "Rattle.std" in m[0]:
                definitions.update(n.strip() for n in m[1].split(",") if re.match(r"^[a-z][a-z_0-9]*$", n.strip()))
    definitions -= {"sym", "ap", "refl", "no", "yes", "true", "false", "inl", "inr", "subst", "zero", "suc", "arith", "rules", "a", "here", "there"}

    def spelled(name):
        parts = re.split(r"(?<=[\w'⁻])-(?=\w)", name)
        out = snake(parts[0])
        for before, part in zip(parts, parts[1:]):
            left = re.split(r"[^\w]", snake(before))[-1]
            right = re.split(r"[^\w]", snake(part))[0]
            both = left in definitions and right in definitions
            out += ("-" if both else "_") + snake(part)
        return out

    turn = {}
    for name in declared:
        if name in SKIP or re.match(r"^[A-Z][a-z]\w*$", name) or "◌" in name:
            continue
        new = spelled(name)
        if new != name:
            turn[name] = new
    # A definition may have the name of a function of src/, of a crate and of a step or a field behind a dot. A lemma of the same name, or a
    # parameter or a field that a clause could take for it, may not stand beside it: such a lemma gets `_lem`.
    words = collections.defaultdict(set)
    for p, t in text.items():
        for m in WORD.finditer(t):
            if p in code:
                free = re.match(r"\s*:(?!:)", t[m.end() : m.end() + 3]) is not None
            else:
                free = t[m.start() - 1 : m.start()] != "."
            if free:
                words[m[0]].add(p)
    to = collections.defaultdict(set)
    for name, new in turn.items():
        to[new].add(name)
    for new in [n for n in declared if n in to]:
        to[new].add(new)
    for new, names in sorted(to.items()):
        lemmas = sorted(n for n in names if not re.search(r"[a-z][A-Z]", n))
        if len(names) > 1 and len(names) - len(lemmas) <= 1:
            for n in lemmas if len(lemmas) < len(names) else lemmas[1:]:
                turn[n] = new + "_lem"
                print("lemma", n, "is", turn[n])
            continue
        clash = sorted(p for n in names for p in words[n] & words[new])
        if len(names) > 1 or clash:
            print("falls together:", new, "of", *sorted(names), "in", *clash[:4])
            for n in names:
                turn.pop(n, None)
    for p, t in text.items():
        local = set()
        if p in own:
            local = {m[3] for m in map(DECLARED.match, t.split("\n")) if m and not m[1]}

        def one(m):
            name, at = m[0], m.start()
            if name not in turn:
                return name
            dashed = "-" in name
            if dashed and p in own and name in local:
                return name
            if dashed and t[at - 1 : at] == "." and not declared[name]:
                return name
            if dashed and t[at - 1 : at] == "." and re.search(r"\b(?:tie|goal|c|l|args|ensures|requires)\.$", t[:at][-12:]):
                return name
            return turn[name]

        new = WORD.sub(one, t)
        if new != t:
            print("changed", p) if check else open(p, "w", encoding="utf-8").write(new)
    print(len(turn), "names")
    if check:
        for n in sorted(turn):
            print("  ", n, turn[n])


main()
