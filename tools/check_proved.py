#!/usr/bin/env python3
"""Reads what rt ci said: no must-fail edit is bad, and rt proved each function whose contract tools/pinned.txt has.

    check_proved.py LOG     what `rt ci` printed, right after it has run in this folder

A crate that this run proved has a part of its own in the log, where `fn NAME: proved` names each function. Of a crate that rt kept from an
earlier run on the same files the log has one line; its functions are those of the library that rt ci has put into crates/CRATE/out. For a
program and a static library rt keeps none, so those of its functions that are pinned are proved once more, over the libraries that are
there."""
import json
import pathlib
import re
import shutil
import subprocess
import sys

ROOT = pathlib.Path(__file__).resolve().parent.parent
KEPT = "is kept: an earlier run on this machine proved the same files over the same libraries"


def stop(why):
    print(f"the gate stops: {why}")
    sys.exit(1)


def pinned():
    return re.findall(r"^== contract (\S+)$", (ROOT / "tools" / "pinned.txt").read_text(), re.M)


def said(lines):
    """The functions that the log names as proved, and the crates that it says are kept."""
    proved, parts, kept, crate = set(), set(), set(), None
    for line in lines:
        head, whole, name = (re.fullmatch(x, line) for x in (r"== (\w+)", rf"rt: (\w+) {KEPT}", r"fn (\S+): proved"))
        if head or whole:
            told = (head or whole).group(1)
            if told in parts | kept:
                stop(f"rt ci speaks of crate {told} twice")
            (parts if head else kept).add(told)
            crate = told if head else crate
        elif line.startswith("== ") or line == f"rt: {crate} proved":
            crate = None
        elif crate and name and name.group(1).startswith(crate + "::"):
            proved.add(name.group(1))
    return proved, kept


def library(crate):
    """The functions of the library that rt ci left, or of that which a check had built and rt ci put back, if no code is younger than it."""
    folder = ROOT / "crates" / crate
    file = folder / "out" / "rlib" / f"{crate}.rlib" / "toolchain" / "mir.json"
    if not file.exists():
        return None
    put_back = (folder / "out" / "rlib" / "stamp").exists()
    if put_back and any(x.stat().st_mtime > file.stat().st_mtime for x in (folder / "src").rglob("*")):
        return None
    return {x[0] for x in json.loads(file.read_text())}


def listed():
    """The crates of crates.txt: the words of each in front of the colon, and behind it."""
    rows = [x.split("#")[0].partition(":") for x in (ROOT / "crates.txt").read_text().splitlines()]
    return {x.split()[0]: (x.split()[1:], y.split()) for x, _, y in rows if x.strip()}


def once_more(crate, names):
    """Those of the functions that a check of them alone proves."""
    home, crates = pathlib.Path(shutil.which("rt")).resolve().parent.parent, listed()
    below, todo = {}, [crate]
    for one in todo:
        for x in crates[one][1]:
            if x in crates and x not in below:
                todo.append(x)
            below[x] = (ROOT / "crates" / x / "out" / "rlib" if x in crates else home / "rlibs") / f"{x}.rlib"
    folder = ROOT / "crates" / crate
    words = ["--crate-name", crate, "src/main.rt" if (folder / "src/main.rt").exists() else "src/lib.rt", "--links", crate + "="]
    words += ["--crate-type", "staticlib"] if "staticlib" in crates[crate][0] else []
    words += ["--extern", f"std={home}/rlibs/std.rlib", *(y for x in crates[crate][1] for y in ("--extern", f"{x}={below[x]}"))]
    words += ["-L", f"dependency={home}/rlibs", *(y for x in below if x in crates for y in ("-L", f"dependency={below[x].parent}"))]
    words += ["--antt-project", f"{home}/rattle/logic/antt-project.json", "--logic-built", f"{home}/logic_built"]
    words += [y for x in names for y in ("--only", x)]
    run = subprocess.run([f"{home}/bin/rattle", "check", *words], cwd=folder, stdout=subprocess.PIPE, stderr=subprocess.STDOUT, text=True)
    print(f"== {crate}, which was kept: what is pinned of it\n{run.stdout}", end="")
    return set(re.findall(r"^fn (\S+): proved$", run.stdout, re.M)) if run.returncode == 0 else set()


def main():
    lines = pathlib.Path(sys.argv[1]).read_text(errors="replace").splitlines()
    ends = [x for x in lines if x.startswith("rt: ok;")]
    bad = [x for x in ends if re.search(r", [0-9]+ bad\b", x)]
    if not ends or bad:
        stop(f"must-fail edits are bad: {bad[0]}" if bad else "rt ci has no line `rt: ok`")
    proved, kept = said(lines)
    lost = [x for x in pinned() if x not in proved]
    for crate in sorted({x.split("::")[0] for x in lost} & kept):
        names = [x for x in lost if x.startswith(crate + "::")]
        known = library(crate)
        proved |= set(names) & (once_more(crate, names) if known is None else known)
    lost = [x for x in lost if x not in proved]
    if lost:
        stop(f"rt proved no {' '.join(lost)}")
    print(f"proved: {len(pinned())} pinned contracts, {len(kept)} crates kept from an earlier run")


main()
