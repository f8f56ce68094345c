#!/usr/bin/env python3
"""Brings the repository's own definitions and lemmas to the spelling of today's Rattle, once, after the kit's own script:
functions, lemmas, fields and constructors in snake case, facts and types in camel case, where they had dashes.

usage: tools/respell.py          at the top of a checkout: rewrites the files of crates/ in place
       tools/respell.py --list   only prints each name, what it becomes, and the files where that stands already

A name is turned where it is spelled as one that we declare in a file of specs/ or proofs/, or as an alias of an import.
Other names keep their dashes, and so do those in a file's imports from the library. It stops where two of our names
would become one; names that stand already, as Rust's functions do, are for a reader of --list.
"""
import glob
import os
import re
import sys

WORD = r"[A-Za-z_][\w']*(?:-[\w']+)+"
TOKEN = re.compile(r"(?<![\w'-])" + WORD + r"(?![\w'-])")
ANY = re.compile(r"(?<![\w'-])[A-Za-z_][\w']*(?![\w'-])")
DECLARED = re.compile(r"^\s*(?:(?:abbrev|unfoldable|pub|record|data|module)\s+)*(" + WORD + r")(?=[\s(){}:])[^;]*?\s:\s")
LOCAL = re.compile(r"\blet (" + WORD + r") (?::|=)|\blet (?:" + WORD + r", )*(" + WORD + r")|λ \(?(" + WORD + r")|[({](" + WORD + r")(?: " + WORD + r")* :")
ALIAS = re.compile(r"\bas (" + WORD + r")")


def files():
    for kind in ("specs/*.antt", "proofs/**/*.antt", "src/**/*.rt"):
        yield from sorted(glob.glob("crates/*/" + kind, recursive=True))


def is_generated(path):
    """Answers and invariants, whose names Rattle makes."""
    return "/proofs/" in path and path.split("/proofs/")[1].count("/") > 0


def parts(line, path):
    """The line's text, and its comment."""
    mark = "//" if path.endswith(".rt") else "--"
    at = line.find(mark)
    while at > 0 and mark == "--" and (line[at - 1] not in " \t"):
        at = line.find(mark, at + 2)
    return (line, "") if at < 0 else (line[:at], line[at:])


def new_name(name):
    if name[0].isupper():
        return "".join(part[0].upper() + part[1:] for part in name.split("-"))
    return name.replace("-", "_")


def of_library(line):
    return re.match(r"\s*(?:ghost )?use Rattle\.(?:std|core|std_\w+)\.", line)


def declared():
    ours, library = set(), set()
    for path in files():
        with open(path) as f:
            for line in f:
                text, _ = parts(line, path)
                if of_library(text):
                    library.update(TOKEN.findall(text))
                    continue
                if path.endswith(".rt"):
                    ours.update(ALIAS.findall(text))
                elif not is_generated(path):
                    found = DECLARED.match(text)
                    if found:
                        ours.add(found.group(1))
                    for groups in LOCAL.findall(text):
                        ours.update(g for g in groups if g)
                    ours.update(ALIAS.findall(text))
                    constructor = re.match(r"^\s+(" + WORD + r") : ", text)
                    if constructor:
                        ours.add(constructor.group(1))
                    tally = re.match(r"^\s+\|?\s*(" + WORD + r")\s*(?:\(|:|$)", text)
                    if tally and path.startswith("crates/counts/specs/"):
                        ours.add(tally.group(1))
    both = ours & library
    if both:
        sys.exit(f"the library has these names too: {sorted(both)}")
    return ours


def main():
    ours = declared()
    table = {name: new_name(name) for name in sorted(ours)}
    back = {}
    for old, new in table.items():
        if new in back:
            sys.exit(f"{old} and {back[new]} fall together")
        back[new] = old
    taken = {}
    for path in files():
        with open(path) as f:
            for line in f:
                for word in ANY.findall(parts(line, path)[0]):
                    if word in back:
                        taken.setdefault(word, set()).add(path)
    if sys.argv[1:] == ["--list"]:
        for old, new in table.items():
            print(old, new, *sorted(taken.get(new, ())))
        return
    for path in files():
        with open(path) as f:
            lines = f.readlines()
        turned = []
        for line in lines:
            text, comment = parts(line, path)
            if not of_library(text):
                text = TOKEN.sub(lambda m: table.get(m.group(0), m.group(0)), text)
            turned.append(text + comment)
        if turned != lines:
            with open(path, "w") as f:
                f.writelines(turned)


main()
