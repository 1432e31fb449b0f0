#!/usr/bin/env python3
"""Lists the functions of crates/*/src/*.rt that are the same but for names, numbers and texts: groups of twins, largest first.

    python3 tools/twins.py

Two functions are of one group if their contracts and bodies have the same tokens once every name, number and text is a blank. A function of
fewer than forty tokens is passed over. A group is a place to look, not a verdict.
"""
import pathlib
import re
from collections import defaultdict

FUNCTION = re.compile(r"^( *)(?:pub(?:\(crate\))? )?fn (\w+).*?^\1\{\n(.*?)^\1\}$", re.M | re.S)
TOKEN = re.compile(r"b?'(?:\\.|[^'])'|b?\"(?:\\.|[^\"])*\"|\w+|[^\s\w]", re.S)
WORDS = set("let mut fn return match if else for while in as ref true false Some None Ok Err".split())


def shape(text):
    tokens = TOKEN.findall(re.sub(r"//.*", "", text))
    return " ".join(t if t in WORDS or not re.match(r"[\w'\"]", t) else "_" for t in tokens)


groups = defaultdict(list)
for path in sorted(pathlib.Path(".").glob("crates/*/src/*.rt")):
    for found in FUNCTION.finditer(path.read_text()):
        if len(TOKEN.findall(found[0])) >= 40:
            groups[shape(found[0])].append(f"{path}:{found[2]}")
twins = sorted((g for g in groups.values() if len(g) > 1), key=lambda g: (-len(g), g))
for group in twins:
    print(len(group), *group)
print(len(twins), "groups,", sum(len(g) for g in twins), "functions")
