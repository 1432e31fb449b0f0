#!/usr/bin/env python3
"""Brings the repository's own names in specs/ and proofs/ to snake case: tools/respell.py, at the top, with no arguments.

`majorityOf` becomes `majority_of`, `before-the-third` becomes `before_the_third`. Types, facts and modules keep their capitals. So do, as they are,
names that a file imports from the toolchain, and names that Rattle makes (in a Proof.antt what stands behind `tie.`, `c.` and the like).
The names are turned where they are declared and where they are cited: *.antt, clauses and comments of *.rt, must-fail edits, and in
backticks in the pages. Strings stay. Two names of one file that would become one are printed, as is a name that a parameter would hide;
WORDS says what such a name becomes. Run again it changes nothing. With --look it writes nothing and says how many would turn. It ends with
status 1 where names meet. Behind it: rt fmt in each crate.
"""

import collections
import glob
import os
import re
import sys

# Lemmas that would get the name of what they speak of: CONTRACT_STYLE.md's `_lem`.
LEMMAS = """are-open by-odd closing-length core-after core-by core-next door-top elapsed-told fault-says gear-top handle-word image-left
in-time in-turns is-bit is-taken item-at next-due not-closed off-for opening-length order-items read-from refusal-text row-text same-values
sensor-items sensors-widened session-sheet some-differ table-lines table-number told-by written-of""".split()
# Old name: new name, where the plain turn would meet another name.
WORDS = {name: name.replace("-", "_") + "_lem" for name in LEMMAS} | {
    "getD-within": "get_or_within",
    "inStep": "kept_in_step",  # A field of hydraulics' Law, beside the theorem `in_step`.
}
# Lemmas in snake case already that would meet the definition they speak of, where they stand: they get `_lem` in the run that turns it.
TWINS = {
    "crates/voter/proofs/": {"isOdd": "is_odd", "ofTwo": "of_two", "ofThree": "of_three"},
    "crates/image/proofs/RoundTrips.antt": {"newItems": "new_items"},
    "crates/readback/proofs/": {"firstCode": "first_code"},
}

# Names of variables and fields that are tactics' words today, which the gate refuses in a clause and in specs/.
TACTICS = {"ground": "grounded"}

RESERVED = set("""data record deriving module where use mod pub package open as unfoldable abbrev axiom unfold unfolding ruleset mutual infix
infixl infixr elim let in do Type search grind simp rw omega cc ground assumption hlevel first_of""".split())

WORD = r"[^\s(){}\[\],;.:\"«»λ`]+"
ANTT = re.compile(r'(?P<comment>(?<![^\s(){}\[\],;])--(?![^\s-])[^\n]*)|(?P<string>"(?:\\.|[^"\\])*")|(?P<word>' + WORD + r")|(?P<other>.)", re.S)
RUST = re.compile(r"""(?P<comment>//[^\n]*)|(?P<string>"(?:\\.|[^"\\])*"|b?'(?:\\.|[^'\\])')|(?P<word>""" + WORD + r")|(?P<other>.)", re.S)
PLAIN = re.compile(r"(?P<word>" + WORD + r")|(?P<other>.)", re.S)
CAMEL = re.compile(r"^[a-z].*?(?<=[a-z0-9])[A-Z]")
DASHED = re.compile(r"[\w']-\w")
USE = re.compile(r"^\s*(?:pub\s+|ghost\s+)*use\s+([\w.◌⊎×]+)\.\{([^}]*)\}", re.M)


def snake(name):
    """The name in snake case; a twin's is a lemma's."""
    if name[0] == "-":
        return "_" + snake(name[1:])
    if name in sum((list(twins.values()) for twins in TWINS.values()), []):
        return name + "_lem"
    if name in WORDS:
        return WORDS[name]
    name = re.sub(r"(?<=[\w'])-(?=\w)", "_", name.replace("′", "'"))
    return re.sub(r"(?<=[a-z0-9])([A-Z])|(?<=[A-Z])([A-Z](?=[a-z]))", r"_\g<0>", name).lower()


def turns(name):
    return name[0].islower() and bool(CAMEL.search(name) or DASHED.search(name) or "′" in name)


# The files of a function's proof, which cite names that Rattle makes.
WALKS = ("Proof.antt", "Answers.antt", "Invariants.antt")


def read(path):
    with open(path, encoding="utf-8") as f:
        return f.read()


def files(*patterns):
    return sorted({p for pattern in patterns for p in glob.glob(pattern, recursive=True) if "/out/" not in p})


def is_own(path):
    """Whether a module path is a file of ours, and not the toolchain's or one that Rattle makes."""
    part = path.split(".")
    return part[0] == "Rattle" and len(part) > 3 and any(
        os.path.exists(f"crates/{'/'.join(part[1:n])}.antt") for n in range(4, len(part) + 1))


def imported(text):
    """The names that a file imports: of ours, of others."""
    own, others = set(), set()
    for path, names in USE.findall(re.sub(r"^\s*(--|//).*$", "", text, flags=re.M)):
        for name in re.split(r"[,\s]+", names):
            (own if is_own(path) else others).add(name)
    return own, others - own


def words(pattern, text):
    """Each match with the root of its dotted path: None for a word that stands alone, `=` for a field or an argument that is given by name."""
    root, dotted, last, before = None, False, "", ""
    for m in pattern.finditer(text):
        word = m.group()
        if m.lastgroup == "word":
            named = not dotted and before in ("{", ";") and re.match(r"\s*=(?=\s)", text[m.end():m.end() + 200])
            yield m, root if dotted else "=" if named else None
            root = root if dotted else word
        else:
            yield m, None
        dotted = word == "." and m.lastgroup == "other" and bool(last) and not last.isspace()
        root = root if dotted or m.lastgroup == "word" else ")"
        last = word[-1]
        before = before if word.isspace() or m.lastgroup == "comment" else last


def made(text):
    """The names of a proof of a function that are those of Rattle's goals."""
    return set(re.findall(r"^(?:abbrev )?(?:pub )?(\S+) :\s+(?:tie|goal)\.", text, re.M))


def declared(text):
    """The names that an antt file declares: before a colon, behind let, λ and `as`, and on the left of a clause."""
    text = ANTT.sub(lambda m: m.group() if m.lastgroup in ("word", "other") else " ", text)
    found = set()
    for group in re.findall(r"((?:" + WORD + r"[ \t]+)+):(?=\s)", text) + re.findall(r"λ[ \t]*((?:" + WORD + r"[ \t]*)+)\.", text):
        found.update(group.split())
    found.update(re.findall(r"\b(?:let|as)[ \t]+(" + WORD + ")", text))
    for left in re.findall(r"^[ \t]*(\S.*?) =(?=\s)", text, re.M):
        found.update(re.findall(WORD, left)[1:])
    return found


def antt(path, text, table):
    """The names of an antt file that turn."""
    own, others = imported(text)
    goals = made(text) if path.endswith(WALKS) else set()
    here = (declared(text) | own) - others - goals
    modules = {name for at, name in re.findall(r"^use ([\w.]+) as (\S+)", text, re.M) if is_own(at)}
    twins = {new for at, pairs in TWINS.items() if path.startswith(at) for old, new in pairs.items() if old in table}
    for m, root in words(ANTT, text):
        name = m.group()
        if m.lastgroup == "word" and name in twins and root is None:
            yield m.start(), name
        if m.lastgroup != "word" or not turns(name) or name in others or name in goals:
            continue
        if path.endswith(WALKS) and root not in (None, "=", ")") and root not in modules and DASHED.search(name):
            continue
        if root is None and name not in here:
            if CAMEL.search(name):
                print(f"look: {path}: {name} is neither declared nor imported there")
            continue
        if root is not None and name not in table and not CAMEL.search(name):
            continue
        yield m.start(), name


class Names(dict):
    """Old name: new name. A page may also cite by its old name what has the new one by now."""

    def __init__(self):
        self.now = set()

    def knows(self, name):
        if name[0] == "-":  # `..-but-for-counts`: the end of some names.
            return any(old.endswith(name) for old in self)
        return name in self or turns(name) and snake(name) in self.now


def collect(paths):
    """Every name of ours that turns, from its declarations."""
    table = Names()
    for path in paths:
        text = read(path)
        _, others = imported(text)
        goals = made(text) if path.endswith(WALKS) else set()
        for name in declared(text) - others - goals:
            table.now.add(snake(name) if turns(name) else name)
            if turns(name):
                table[name] = snake(name)
    return table


def put(text, spots):
    """The text with the name at each spot turned."""
    out, at = [], 0
    for start, name in spots:
        out += [text[at:start], snake(name)]
        at = start + len(name)
    return "".join(out + [text[at:]])


def cited(text, start, table, ticks=True):
    """The spots in a comment or page: in backticks; in a comment also bare, but a name of two words with one dash."""
    for m in re.finditer(r"`[^`\n]*`", text):
        for w in PLAIN.finditer(text, m.start() + 1, m.end() - 1):
            if w.lastgroup == "word" and table.knows(w.group()):
                yield start + w.start(), w.group()
    if not ticks:
        plain = re.sub(r"`[^`\n]*`", lambda m: " " * len(m.group()), text)
        for w in PLAIN.finditer(plain):
            name = w.group().rstrip("?!")
            if w.lastgroup == "word" and table.knows(name) and (CAMEL.search(name) or name.count("-") > 1):
                yield start + w.start(), name


def met(path, text, spots):
    """Prints names of a file that would become one."""
    by = collections.defaultdict(set)
    at = dict(spots)
    pattern = ANTT if path.endswith(".antt") else RUST
    for m, root in words(pattern, text):
        if m.lastgroup == "word":
            name = m.group()
            field = root is not None and (root == "Rattle" or not root[0].isupper())
            by[snake(name) if m.start() in at else name].add((name, "field" if field else "name"))
    if path.endswith(".rt"):
        for new in {snake(name) for name in at.values()}:
            if re.search(rf"\bfn [^{{;]*?[(,]\s*(?:mut )?{new}\s*:|\b(?:let|for|const|static) (?:mut )?{new}\b|\|{new}\b", text):
                print(f"hidden: {path}: {new}")
        others = imported(text)[1]
        by = {new: {p for p in olds if p[0] in others or p[0] in at.values()} for new, olds in by.items()}
    n = 0
    for new, olds in sorted(by.items()):
        names = {name for name, kind in olds if kind == "name"}
        if len(names) > 1:
            n += 1
            print(f"met: {path}: {', '.join(sorted(names))} -> {new}")
        if new in RESERVED and names - {new}:
            n += 1
            print(f"reserved: {path}: {', '.join(sorted(names))} -> {new}")
    return n


def no_tactics():
    """Variables and fields with a tactic's name get another, in code alone."""
    for path in files("crates/*/specs/**/*.antt", "crates/*/proofs/**/*.antt", "crates/*/src/**/*.rt", "crates/*/must-fail/*.edit"):
        text = read(path)
        pattern = ANTT if path.endswith(".antt") else RUST

        def word(name):
            return re.sub(r"(?<![\w'])(" + "|".join(TACTICS) + r")(?![\w'-])", lambda m: TACTICS[m.group()], name)

        def named(line):
            return "".join(word(m.group()) if m.lastgroup == "word" else m.group() for m in pattern.finditer(line))

        if path.endswith(".edit"):
            new = "".join(named(line) if line.startswith(("old:", "new:")) else line for line in text.splitlines(True))
        else:
            new = named(text)
        if new != text and "--look" not in sys.argv:
            with open(path, "w", encoding="utf-8") as f:
                f.write(new)


def main():
    paths = files("crates/*/specs/**/*.antt", "crates/*/proofs/**/*.antt")
    table = collect(paths)
    turned, n, changed = set(), 0, {}
    for path in paths:
        text = read(path)
        spots = list(antt(path, text, table))
        n += met(path, text, spots)
        for m in ANTT.finditer(text):
            if m.lastgroup == "comment":
                spots += cited(m.group(), m.start(), table, False)
        changed[path] = text, sorted(spots)
    for path in files("crates/*/src/**/*.rt", "crates/*/must-fail/*.edit"):
        text = read(path)
        others = imported(text)[1]
        knows = table.knows if path.endswith(".edit") else table.__contains__
        spots = [(m.start(), m.group()) for m in RUST.finditer(text)
                 if m.lastgroup == "word" and knows(m.group()) and m.group() not in others]
        if path.endswith(".rt"):
            n += met(path, text, spots)
        for m in RUST.finditer(text):
            if m.lastgroup == "comment":
                spots += cited(m.group(), m.start(), table, False)
        changed[path] = text, sorted(spots)
    # docs/PORT.md tells old names beside new ones.
    for path in sorted(set(files("README.md", "docs/*.md", "peer/README.md", "crates/**/*.md")) - {"docs/PORT.md"}):
        text = read(path)
        changed[path] = text, sorted(cited(text, 0, table))
    for path, (text, spots) in changed.items():
        new = put(text, spots)
        turned.update(name for _, name in spots)
        if new != text and "--look" not in sys.argv:
            with open(path, "w", encoding="utf-8") as f:
                f.write(new)
    no_tactics()
    print(f"respell: {len(turned)} names turned, {n} meet another")
    return 1 if n else 0


sys.exit(main())
