#!/usr/bin/env python3
"""Spells this repository's own definitions, lemmas and fields as Rattle's libraries spell theirs.

usage: respell.py, at the top of the repository, once, behind the kit's port.py

A name of specs/ or proofs/ that is written with dashes gets underscores; the name of a type gets capitals in place of its
dashes. A dash before an operator stays. The names that Rattle makes (goals, steps), those of Rust items and those that a
file imports from a library stay. Comments change only between backquotes. It prints names with dashes that would
meet one another, and a new spelling that its file has already. It does not see that a name elsewhere, written without
dashes, is spelled like a new one.
"""

import glob
import os
import re
import sys

NAME = r"[^\s(){}.;,@\"«»λ→×`]+"
OWN = re.compile(rf"(?m)^[ ]*((?:abbrev |unfoldable |pub |record |data )*)({NAME})(?=(?: *[({{][^\n]*)? :[ \n])")
GOAL = re.compile(rf"(?m)^[ ]*(?:abbrev |pub )*({NAME}) : (?:goal|given|need)\.")
USE = re.compile(r"\buse ([^\s;{]+)\.\{([^}]*)\}")
# names that contracts' definitions bind, or give to an import
BOUND = "other-number other-block other-seed left-kept right-kept left-same right-same codes-in".split()
WORDS = {"getD-both": "get_or_both", "getD-places": "get_or_places"}


def respelled(name):
    """The new spelling of one of our names."""
    if name in WORDS:
        return WORDS[name]
    if name[0].isupper():
        return re.sub(r"-(\w)", lambda m: m[1].upper(), name)
    name = re.sub(r"(?<=\w)-(?=\w)", "_", name)
    return re.sub(r"(?<=[a-z0-9])[A-Z]", lambda m: "_" + m[0].lower(), name)


def is_of_a_library(path):
    steps = path.split(".")
    return not (steps[0] == "Rattle" and os.path.isdir(f"crates/{steps[1]}"))


def main():
    antt = sorted(glob.glob("crates/*/specs/**/*.antt", recursive=True) + glob.glob("crates/*/proofs/**/*.antt", recursive=True))
    rust = sorted(glob.glob("crates/*/src/**/*.rt", recursive=True))
    texts = {path: open(path, encoding="utf-8").read() for path in antt + rust}
    own = set(BOUND)
    for path in antt:
        goals_here = set(GOAL.findall(texts[path]))
        for _, name in OWN.findall(texts[path]):
            if name not in goals_here and name != respelled(name) and re.search(r"\w-\w", name):
                own.add(name)
    table = {name: respelled(name) for name in own}
    for name in sorted(own):
        rivals = [it for it in own if it != name and table[it] == table[name]]
        if rivals:
            print("meets:", name, rivals)
    token = re.compile(NAME)
    changed = 0
    for path, text in texts.items():
        lent = set()
        for module, items in USE.findall(text):
            if is_of_a_library(module):
                lent |= {it.strip().split(" as ")[-1] for it in items.split(",")}
        labels = set(GOAL.findall(text))
        here = {old: new for old, new in table.items() if old not in lent and old not in labels}
        taken = {it for it in token.findall(text)}
        used = set()

        def turn(match):
            name, start = match[0], match.start()
            before = match.string[:start]
            # a goal, or a step of the function
            if re.search(r"(?:^|[^\w'.-])(?:goal|given|c)\.$", before):
                return name
            if name in here:
                used.add(name)
                return here[name]
            return name

        def turn_code(code):
            parts = re.split(r'("(?:[^"\\]|\\.)*")', code) if path.endswith(".rt") else [code]
            return "".join(it if it.startswith('"') else token.sub(turn, it) for it in parts)

        def turn_line(line):
            mark = "//" if path.endswith(".rt") else "--"
            found = re.search(r"(?:^|(?<=\s))" + mark + r"(?=\s)", line)
            if not found:
                return turn_code(line)
            code, comment = line[: found.start()], line[found.start() :]
            comment = re.sub(r"`[^`]*`", lambda m: token.sub(turn, m[0]), comment)
            return turn_code(code) + comment

        new = "\n".join(turn_line(line) for line in text.split("\n"))
        for name in used:
            if here[name] in taken and path.endswith(".antt"):
                print("look:", path, name, "and", here[name])
        if new != text:
            changed += 1
            with open(path, "w", encoding="utf-8") as out:
                out.write(new)
    print(f"respelled {len(own)} names in {changed} files")


if __name__ == "__main__":
    sys.exit(main())
