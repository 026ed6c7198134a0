#!/usr/bin/env python3
"""Spells the repository's own definitions and lemmas in snake case, and a prime as an apostrophe.

usage: tools/spell_names.py [--list]      at the top of a checkout, right after the toolchain's porting script

A name is turned where a file of specs/ or proofs/ declares it, or a ghost member of src/ has it. The goals that the toolchain
names, in Answers.antt and Invariants.antt, keep their names, and so does all that is named in Rust. Strings are left alone.
With --list it prints what it would turn, and which names would fall together, and changes nothing.
"""
import collections
import os
import re
import sys

DECLARED = re.compile(r"^[ \t]*(?:unfoldable |abbrev )*(?:pub )?([^\s:(){}λ,;.]+)[ \t]*:(?!=)(.*)$", re.M)
GHOST = re.compile(r"^[ \t]*(?:pub )?ghost (\w+)\s*[:=]", re.M)
WORD = r"[A-Za-z0-9_'′₀-₉-]"


# A lemma that would get the name of a definition in its own files; and a name of the older library's in one of ours.
APART = {
    "bad-names": "bad_names_lem",
    "in-run": "in_run_lem",
    "length-in": "length_in_lem",
    "no_byte": "no_byte_lem",
    "no_name": "no_name_lem",
    "no-row": "no_row_lem",
    "not-ended": "not_ended_lem",
    "up-to": "up_to_lem",
    "words-of": "words_of_lem",
    "getD-zeros": "get_or_zeros",
}


def turned(name):
    if name in APART:
        return APART[name]
    name = name.replace("′", "'").replace("-", "_")
    if name[:1].islower():
        name = re.sub(r"(?<=[a-z0-9])([A-Z])", lambda m: "_" + m.group(1).lower(), name)
    return name


def files():
    for folder, dirs, names in os.walk("crates"):
        dirs[:] = sorted(d for d in dirs if d not in ("out", "target", "must-fail"))
        for name in sorted(names):
            if name.endswith((".antt", ".rt")):
                yield os.path.join(folder, name)


def bare(text):
    return re.sub(r"--.*|//.*", "", text)


def declared(path, text):
    if path.endswith(".rt"):
        return set(GHOST.findall(text))
    found = set()
    for m in DECLARED.finditer(bare(text)):
        if re.match(r"\s*(goal|given)\.", m.group(2)):
            continue
        found.add(m.group(1))
    return found


def main():
    texts = {p: open(p, encoding="utf-8").read() for p in files()}
    where = collections.defaultdict(set)
    for p, t in texts.items():
        for n in declared(p, t):
            where[n].add(p)
    goals = set()
    for p, t in texts.items():
        if p.endswith(("Answers.antt", "Invariants.antt", "Proof.antt")):
            goals |= {m.group(1) for m in DECLARED.finditer(bare(t)) if re.match(r"\s*(goal|given)\.", m.group(2))}
    turns = {n: turned(n) for n in where if turned(n) != n and n not in goals and re.match(r"[a-z]", n)}
    if "--list" in sys.argv:
        back = collections.defaultdict(set)
        for n in set(where) | set(turns):
            back[turns.get(n, n)].add(n)
        for n in sorted(turns):
            print(n, "->", turns[n], " ".join(sorted(where[n])[:2]))
        for n, olds in sorted(back.items()):
            if len(olds) > 1:
                print("TOGETHER", n, {o: sorted(where[o]) for o in olds})
        return
    names = sorted(turns, key=len, reverse=True)
    # A dashed name is a lemma and stands alone; one in two words may also be a field behind a dot.
    dashed = [n for n in names if "-" in n]
    plain = [n for n in names if "-" not in n]
    patterns = []
    if dashed:
        patterns.append(re.compile(r"(?<![.A-Za-z0-9_'′-])(" + "|".join(map(re.escape, dashed)) + r")(?!" + WORD + ")"))
    if plain:
        patterns.append(re.compile(r"(?<![A-Za-z0-9_'′-])(" + "|".join(map(re.escape, plain)) + r")(?!" + WORD + ")"))
    strings = re.compile(r'(b?"(?:[^"\\\n]|\\.)*")')
    for p, t in texts.items():
        parts = strings.split(t)
        for i in range(0, len(parts), 2):
            for pattern in patterns:
                parts[i] = pattern.sub(lambda m: turns[m.group(1)], parts[i])
            if p.endswith(".antt"):
                parts[i] = parts[i].replace("′", "'")
        new = "".join(parts)
        if new != t:
            with open(p, "w", encoding="utf-8") as f:
                f.write(new)


main()
