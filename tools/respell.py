#!/usr/bin/env python3
"""Turns the repository's own definitions and lemmas to the spelling of today's Rattle, once, after port.py.

usage: respell.py [--map FILE]    at the top of the repository

Functions, lemmas, fields and constructors go to snake case; types and modules keep upper camel case, and so do the single letters of the
documents (M, H, K). A dash stays where it joins the names of two definitions. A lemma that would get its definition's name ends in _lem, and
the counts M and N, whose laws stand beside those of m and n, become words. It rewrites the .antt and .rt files of crates/ and the must-fail edits, token by token. --map writes each old name with its new one.
"""
import collections
import pathlib
import re
import sys

TOKEN = re.compile(r"[^\s(){}\[\];,.«»⌜⌝`\"]+")
DECLARED = re.compile(r"^( *)((?:pub |abbrev |unfoldable |pattern )*)([^\s:(){}=λ]+(?: [^\s:(){}=λ]+)*) : ", re.M)
TYPE = re.compile(r"^(?:pub |abbrev |unfoldable |pattern )*(?:record|data) ([^\s:(){}]+)", re.M)
WORDS = (
    "length append take drop replicate get_or set map div mod add sub mul le lt pow min max pick eqb leb ltb sum count and or not reverse"
).split()
LETTERS = {"M": "executions", "N": "parties"}
SPECIAL = {"E-within": "opened_within"}


def files(suffixes):
    for path in sorted(pathlib.Path("crates").rglob("*")):
        if path.suffix in suffixes and "out" not in path.parts and path.is_file():
            yield path


def declared():
    """Each name that a file of specs/ or proofs/ declares, but for answers of an old Proof.antt; the types; the names at the top of specs/."""
    names, types, top = set(), set(), set()
    for path in files({".antt"}):
        if path.name == "Proof.antt":
            continue
        text = path.read_text()
        types.update(TYPE.findall(text))
        for indent, _, many in DECLARED.findall(text):
            for name in many.split():
                names.add(name)
                if not indent and "-" not in name:
                    top.add(name)
    return names - types, types, top


def brought(text):
    """The names that a file takes from the kit: they keep their spelling there."""
    own = {path.name for path in pathlib.Path("crates").iterdir()}
    found = set()
    for module, names in re.findall(r"^(?:ghost |pub )*use ([^\s{]+)\.\{([^}]*)\}", text, re.M):
        parts = module.split(".")
        if parts[0] != "Rattle" or parts[1] not in own:
            found.update(re.split(r"[,\s]+", names))
    return found


def snake(word):
    """A camel word in snake case, a capital being a word."""
    out = ""
    for at, ch in enumerate(word):
        if ch.isupper() and ch.isascii():
            if at and out[-1] != "_" :
                out += "_"
            out += ch.lower()
        else:
            out += ch
    return out


def respelled(name, types, top):
    if name in SPECIAL:
        return SPECIAL[name]
    if "-" not in name and not re.search(r"[^_A-Z][A-Z]", name):
        return name
    if "-" not in name and re.match(r"[A-Z][a-z]", name):
        return name
    parts = []
    first, *rest = name.split("-")
    for part in [LETTERS.get(first, first) if rest else first, *rest]:
        if part in types:
            parts.append((part, part in top))
        else:
            parts.append((snake(part), part in top or part in WORDS))
    out = parts[0][0]
    for (_, left), (word, right) in zip(parts, parts[1:]):
        out += ("-" if left and right else "_") + word
    return out


def main():
    names, types, top = declared()
    table = {}
    for name in sorted(names):
        new = respelled(name, types, top)
        if new != name:
            table[name] = new
    for name in list(table):
        if "-" in name and table[name] in {new for old, new in table.items() if "-" not in old}:
            table[name] += "_lem"
    tokens = collections.Counter()
    texts = {}
    for path in files({".antt", ".rt", ".edit"}):
        texts[path] = path.read_text()
        tokens.update(set(TOKEN.findall(texts[path])))
    together = collections.defaultdict(list)
    for old, new in table.items():
        together[new].append(old)
    for new, olds in sorted(together.items()):
        if len(olds) > 1 or new in tokens:
            print(f"look: {', '.join(olds)} -> {new}" + (" (stands already)" if new in tokens else ""))
    for path, text in texts.items():
        kit = brought(text)
        turned = TOKEN.sub(lambda m: m[0] if m[0] in kit else table.get(m[0], m[0]), text)
        if turned != text:
            path.write_text(turned)
    if sys.argv[1:2] == ["--map"]:
        pathlib.Path(sys.argv[2]).write_text("".join(f"{a}\t{b}\n" for a, b in sorted(table.items())))
    print(f"{len(table)} names")


main()
