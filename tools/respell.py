#!/usr/bin/env python3
"""Respells the definitions and lemmas of this repository: words in snake case, types in camel case.

Run once, at the top of the repository. It turns each name with a dash that a file of specs/ or proofs/ defines, wherever
it stands as a whole name in an .antt or .rt file, comments and strings included: `month-length` to `month_length`, `Day-laws`
to `DayLaws`, and a hump of such a name too, `sumBy-ℤ` to `sum_by_ℤ`. The names that the prover makes for goals are not
defined there and stay; must-fail edits, inputs and outputs are not read. It stops, and writes nothing, where two definitions,
or a definition and a word beside it that is no function, would fall together.
"""
import glob
import re
import sys

NAME = r"[^\s(){}.,;:⌜⌝«»\"]+"
DEFINED = re.compile(r"^(?:abbrev |unfoldable |pub |record |data |ruleset )*(" + NAME + r")(?: [^:]*)?\s:\s(.*)")
MEMBER = re.compile(r"^\s+(?:abbrev |unfoldable |pub )*(" + NAME + r")(?: [^:=]*)?\s:\s(.*)")
GOAL = re.compile(r"(?:goal|given|need)\.")


def respelled(name):
    parts = name.split("-")
    if name[0].isupper():
        return "".join(part[0].upper() + part[1:] for part in parts)
    snake = re.sub(r"(?<=[a-z])([A-Z])", lambda m: "_" + m.group(1).lower(), name)
    return snake.replace("-", "_")


def defined(path):
    inner = False
    for line in open(path, encoding="utf-8"):
        if re.match(r"\S", line):
            inner = bool(re.match(r"(?:abbrev |pub )*(record|data|module)\b", line))
        top = DEFINED.match(line)
        found = top or (inner and MEMBER.match(line))
        if found and not GOAL.match(found.group(2)):
            yield found.group(1), bool(top)


def main():
    antt = sorted(glob.glob("crates/*/specs/**/*.antt", recursive=True) + glob.glob("crates/*/proofs/**/*.antt", recursive=True))
    both = {pair for path in antt for pair in defined(path)}
    names = {name for name, _ in both}
    # a field may have the name of another record's
    fields = names - {name for name, top in both if top}
    table = {name: respelled(name) for name in names if "-" in name and not name.startswith("-")}
    token = re.compile(NAME)
    texts = {path: open(path, encoding="utf-8").read() for path in antt + sorted(glob.glob("crates/*/src/**/*.rt", recursive=True))}
    # a part of a path, as a function's folder, is no name of its own; a function may have the name of what it answers
    alone = re.compile(r"(?<![.\w-])(" + NAME + r")(?![.\w-])")
    function = re.compile(r"\bfn (\w+)|\b(\w+)\(")
    functions = {word for path in texts if path.endswith(".rt") for pair in function.findall(texts[path]) for word in pair}
    words = [set(alone.findall(text)) - functions for text in texts.values()]
    clash = sorted(
        old
        for old, new in table.items()
        if new in names
        or list(table.values()).count(new) > 1
        or (old not in fields and any(old in there and new in there for there in words))
    )
    if clash:
        sys.exit("names that would fall together: " + ", ".join(f"{old} and {table[old]}" for old in clash))
    for path, text in texts.items():
        turned = token.sub(lambda m: table.get(m.group(0), m.group(0)), text)
        if turned != text:
            open(path, "w", encoding="utf-8").write(turned)
    for old in sorted(table):
        print(old, table[old])


main()
