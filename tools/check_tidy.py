#!/usr/bin/env python3
"""Keeps the crates tidy: says what nothing needs, and what no longer fits.

- Every name that a `use` line takes is used in its file, and every crate that crates.txt puts behind another is named there.
- Every file of proofs, definitions and code starts with a comment that says what it is; of a proof in two files, Invariants.antt.
- Every `old:` line of a must-fail edit stands exactly once in the file that it changes, as the lines above it leave that file."""
import pathlib
import re
import sys

ROOT = pathlib.Path(__file__).resolve().parent.parent
LISTED = re.compile(r"^(?:ghost )?use [^\n{;]*\.\{([^}]*)\};?$", re.M)
SINGLE = re.compile(r"^use [\w:]+::(\w+);$|^use [^\s{]+ as (\S+)$", re.M)
wrong = []


def sources():
    for crate in sorted((ROOT / "crates").iterdir()):
        for folder, ending in (("src", "rt"), ("specs", "antt"), ("proofs", "antt")):
            yield from ((crate.name, f) for f in sorted((crate / folder).rglob("*." + ending)))


def is_used(name, tokens):
    name = name.split(" as ")[-1].strip()
    return name in tokens or ("◌" in name and all(part in tokens for part in name.split("◌") if part))


def check_names(file, text):
    body = re.sub(r"^(?:ghost )?use .*$|^\s*(?:--|//).*$", "", text, flags=re.M)
    tokens = set(re.findall(r"[^\s(){},;.\[\]:&!?<>]+", body)) | set(re.findall(r"[^\s(){},;.]+", body))
    names = [n.strip() for m in LISTED.finditer(text) for n in m.group(1).split(",") if n.strip()]
    names += [m.group(1) or m.group(2) for m in SINGLE.finditer(text)]
    wrong.extend(f"{file} takes {n} and does not use it" for n in names if not is_used(n, tokens))


def check_crates(texts):
    for line in (ROOT / "crates.txt").read_text().splitlines():
        words, _, below = line.split("#")[0].partition(":")
        crate = words.split()[0] if words.strip() else ""
        text = texts.get(crate, "")
        wrong.extend(f"crates.txt puts {b} behind {crate}, which names nothing of it" for b in below.split()
                     if not re.search(rf"Rattle\.{b}\.|\b{b}::", text))


def check_edit(edit):
    """Applies the edit's pairs in turn, as rt does."""
    name, file, old, texts = edit.relative_to(ROOT), None, None, {}
    for line in edit.read_text().splitlines():
        if line.startswith("file: "):
            file = edit.parent.parent / line[6:].strip()
            texts.setdefault(file, file.read_text())
            if not line[6:].startswith(("src/", "specs/")):
                wrong.append(f"{name} edits a proof, and not code or a definition")
        elif line.startswith("old: "):
            old = line[5:]
            if texts[file].count(old) != 1:
                wrong.append(f"{name}: this does not stand once in {file.name}: {old}")
        elif line.startswith("new:") and old:
            texts[file], old = texts[file].replace(old, line[4:].removeprefix(" "), 1), None
    if all(text == file.read_text() for file, text in texts.items()):
        wrong.append(f"{name} changes nothing")


def main():
    texts = {}
    for crate, file in sources():
        text = file.read_text()
        texts[crate] = texts.get(crate, "") + text
        check_names(file.relative_to(ROOT), text)
        is_second = file.name == "Answers.antt" and file.with_name("Invariants.antt").exists()
        if file.name != "Lib.antt" and not is_second and not text.startswith(("-- ", "// ")):
            wrong.append(f"{file.relative_to(ROOT)} does not start with what it is")
    check_crates(texts)
    edits = sorted((ROOT / "crates").glob("*/must-fail/*.edit"))
    for edit in edits:
        check_edit(edit)
    for message in wrong:
        print(message)
    print(f"tidy: {len(texts)} crates and {len(edits)} must-fail edits; {len(wrong)} wrong")
    sys.exit(1 if wrong else 0)


main()
