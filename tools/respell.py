#!/usr/bin/env python3
"""Brings the names of definitions, lemmas, fields and constructors of the crates' specs/ and proofs/ to snake case.

usage: tools/respell.py [--list]

Names of types and modules, which begin with a capital, stay, and so do the names of src/. `bytesFor` becomes `bytes_for`, `take-more` becomes
`take_more`, and a lemma that would have the name of another definition gets `_lem` after it. The words turn in .antt files, in the clauses and
`ghost use` lines of .rt files, and in code spans of comments. --list prints the table and writes nothing. A second run finds nothing to do.
"""

import collections
import glob
import os
import re
import sys

WORD = re.compile(r'[^\s(){}.;,@"«»\x60]+')
HEAD = re.compile(r"^((?:unfoldable |abbrev |pub )*)(record |data |ruleset )?([^\s(){}:.,;@\"]+)(?= |$)")
SIGNED = re.compile(r"^(?:unfoldable |abbrev |pub )*[^\s(){}:.,;@\"]+ :(?: |$)")
INNER = re.compile(r"^ +(?:unfoldable |abbrev |pub )*([^\s(){}:.,;@\"]+) :(?: |$)")
KEYWORDS = {"use", "unfolding", "open", "mutual", "module", "where", "mod"}
# lemmas that would have the name of a definition, each with the name that it gets
LEMMAS = ("all_asked", "counted_of", "found_in", "owner_of", "pairs_of", "some_of", "text_at")
# the same for lemmas that are named as a function of src/, with the files that have the lemma
HERE = {
    "entry_ready": ("crates/journal/proofs/AskingSteps.antt", "crates/exports/proofs/TakenAsSpelled.antt"),
    "first_good": ("crates/journal/proofs/Serials.antt", "crates/journal/proofs/Answers.antt"),
}


def files(pattern):
    return sorted(f for f in glob.glob(pattern, recursive=True) if "/out/" not in f)


def antt():
    return files("crates/*/specs/**/*.antt") + files("crates/*/proofs/**/*.antt")


def by_hand(path):
    """The proof of one function: its names are those of its goals."""
    return os.path.basename(path) in ("Proof.antt", "Answers.antt", "Invariants.antt")


def defined():
    """Each name that a file of specs/ or proofs/ defines, with the files."""
    names = collections.defaultdict(set)
    for path in antt():
        if by_hand(path):
            continue
        for line in open(path, encoding="utf-8"):
            m = HEAD.match(line)
            if m and m[3] not in KEYWORDS and (m[2] or SIGNED.match(line)):
                names[m[3]].add(path)
            m = INNER.match(line)
            if m:
                names[m[1]].add(path)
    return names


def snake(name):
    name = re.sub(r"(?<=[a-z0-9'])(?=[A-Z])", "_", name)
    return name.lower().replace("-", "_") if re.match(r"[a-z]", name) else name.replace("-", "_")


def table():
    names = defined()
    turned, taken = {}, {name for name in names if "-" not in name}
    camel = [name for name in names if re.match(r"[a-z]", name) and re.search(r"[a-z0-9'][A-Z]", name) and "-" not in name]
    turned.update((name, snake(name)) for name in camel)
    taken.update(turned.values())
    if "allAsked" in names:
        turned.update((name, name + "_lem") for name in LEMMAS)
    for name in sorted(names):
        if re.match(r"[a-z]", name) and "-" in name:
            turned[name] = snake(name) + ("_lem" if snake(name) in taken else "")
    return turned, names


def clauses(text):
    """The places of a .rt file that are ghost text: `ghost use` lines, `requires` and `ensures` with their braces."""
    for m in re.finditer(r"\bghost use\b[^;]*;", text):
        yield m.start(), m.end()
    for m in re.finditer(r"\b(?:requires|ensures)\b[^{;]*\{", text):
        depth, at = 1, m.end()
        while depth:
            depth += {"{": 1, "}": -1}.get(text[at], 0)
            at += 1
        yield m.end(), at - 1


def turn_words(text, turned):
    return WORD.sub(lambda m: turned.get(m[0], m[0]), text)


def turn_spans(comment, turned):
    return re.sub(r"\x60[^\x60\n]*\x60", lambda m: turn_words(m[0], turned), comment)


def turn_antt(text, turned):
    out = []
    for line in text.split("\n"):
        at = re.search(r"(?:^|(?<=\s))--(?=\s|$)", line)
        code, comment = (line[: at.start()], line[at.start() :]) if at else (line, "")
        parts = re.split(r'("(?:[^"\\]|\\.)*")', code)
        out.append("".join(p if i % 2 else turn_words(p, turned) for i, p in enumerate(parts)) + turn_spans(comment, turned))
    return "\n".join(out)


def turn_rt(text, turned):
    out, last = [], 0
    for start, end in sorted(set(clauses(text))):
        if start < last:
            continue
        out.append(re.sub(r"//[^\n]*", lambda m: turn_spans(m[0], turned), text[last:start]))
        out.append(turn_words(text[start:end], turned))
        last = end
    out.append(re.sub(r"//[^\n]*", lambda m: turn_spans(m[0], turned), text[last:]))
    return "".join(out)


def main():
    os.chdir(os.path.join(os.path.dirname(os.path.abspath(__file__)), ".."))
    turned, names = table()
    fell = collections.defaultdict(set)
    for old, new in turned.items():
        fell[new].add(old)
    for name in names:
        if name in fell:
            fell[name].add(name)
    together = {new: olds for new, olds in fell.items() if len(olds) > 1}
    if "--list" in sys.argv:
        for old, new in turned.items():
            print(f"{old}\t{new}")
    for new, olds in sorted(together.items()):
        print(f"together: {new}: {', '.join(sorted(olds))}: " + "; ".join(" ".join(sorted(names[o])) for o in sorted(olds)))
    if "--list" in sys.argv:
        return
    changed = 0
    for path in antt() + files("crates/*/src/**/*.rt"):
        text = open(path, encoding="utf-8").read()
        here = {name: name + "_lem" for name, paths in HERE.items() if path in paths and "allAsked" in names}
        new = (turn_rt if path.endswith(".rt") else turn_antt)(text, {**turned, **here})
        if new != text:
            changed += 1
            open(path, "w", encoding="utf-8").write(new)
    print(f"{len(turned)} names, {changed} files")


main()
