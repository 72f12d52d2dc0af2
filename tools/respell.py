#!/usr/bin/env python3
"""Spells the definitions and lemmas of the crates in snake case: tickOf as tick_of, made-singly as made_singly.

usage: tools/respell.py [--table] [FOLDER]

FOLDER is the top of a repository, by default the one that this script stands in. What is respelled are the names that
specs/ and the lemma files of proofs/ declare, wherever the crates' .rt and .antt files write them. Types, modules,
functions of src/, strings and the names that the check makes keep their spelling. A lemma that would get the name of a
definition, or of another lemma or definition in snake case, gets _lem behind it. --table prints the names and writes
nothing. A second run changes nothing.
"""

import collections
import glob
import os
import re
import sys

DECLARED = re.compile(
    r"(?m)^( *)((?:(?:pub|abbrev|unfoldable|opaque|private|let)\s+)*)([^\s(){}.;,@\"«»:]+)((?: \{[^{}\n]*\})*) : "
)
WORD = re.compile(r"(?<![^\s(){}.;,@\"«»\[\]|`'←])[A-Za-z][\w-]*[\w']*(?![^\s(){}.;,@\"«»\[\]|`'?!:])")
QUOTED = re.compile(r'"(?:[^"\\\n]|\\.)*"')
# Names that the library has too: they turn only in a file that declares them or takes them from a crate here.
SHARED = (
    "after-append all-at and-true at-end first-none leap-day lines-append next-left not-before not-below not-zero"
    " or-false own-append plain-run run-append second-of set-ok sizes-none then-other true-and unit-eq"
).split()


def snake(name):
    return re.sub(r"(?<!^)[A-Z]", lambda m: "_" + m[0].lower(), name).replace("-", "_")


def declared(files):
    names = collections.defaultdict(set)
    for path in files:
        for m in DECLARED.finditer(read(path)):
            names[m[3]].add(path)
    return names


def read(path):
    with open(path, encoding="utf-8") as f:
        return f.read()


def is_old(name):
    if not name[0].islower():
        return False
    return bool(re.search(r"[a-z0-9][A-Z]", name)) or bool(re.search(r"\w-\w", name))


def table_of(top):
    specs = declared(glob.glob(top + "/crates/*/specs/**/*.antt", recursive=True))
    lemmas = declared(glob.glob(top + "/crates/*/proofs/*.antt"))
    table = {n: snake(n) for n in specs if is_old(n)}
    taken = set(table.values()) | {n for n in specs if not is_old(n)}
    for n in sorted(lemmas):
        if is_old(n) and n not in table:
            new = snake(n)
            table[n] = new + "_lem" if new in taken or (new in lemmas and "-" in n) else new
    return table


# The names of SHARED that a file means as its own.
def own(text):
    meant = {m[3] for m in DECLARED.finditer(text)}
    for items in re.findall(r"use (?:package|Rattle\.(?!std\b)\w+)\.[\w.]*\.\{([^}]*)\}", text):
        meant |= {i.split(" as ")[0].strip() for i in items.split(",")}
    return meant


def respelled(text, path, table):
    meant = own(text)
    of_function = path.endswith(".antt") and re.search(r"/proofs/.+/", path) is not None

    def turn(m):
        word = m[0]
        if word not in table or (word in SHARED and word not in meant):
            return word
        behind_dot = m.start() > 0 and m.string[m.start() - 1] == "."
        if behind_dot:
            return word if of_function and "-" in word else snake(word)
        return table[word]

    quoted = [m.span() for m in QUOTED.finditer(text)]
    out, at = [], 0
    for start, end in quoted:
        out += [WORD.sub(turn, text[at:start]), text[start:end]]
        at = end
    out.append(WORD.sub(turn, text[at:]))
    return "".join(out)


def main():
    words = sys.argv[1:]
    if words and words[0] in ("-h", "--help"):
        print(__doc__.strip())
        return
    only_table = "--table" in words
    words = [w for w in words if w != "--table"]
    top = words[0] if words else os.path.dirname(os.path.dirname(os.path.abspath(__file__)))
    if not os.path.isdir(os.path.join(top, "crates")):
        sys.exit(f"respell: {top} has no folder crates")
    table = table_of(top)
    if only_table:
        for old in sorted(table):
            print(f"{old}\t{table[old]}")
        return
    count = 0
    for path in sorted(glob.glob(top + "/crates/*/**/*", recursive=True)):
        if path.endswith((".rt", ".antt")) and "/out/" not in path:
            text = read(path)
            new = respelled(text, path, table)
            if new != text:
                count += 1
                with open(path, "w", encoding="utf-8") as f:
                    f.write(new)
    print(f"respell: {count} files, {len(table)} names")


main()
