#!/usr/bin/env python3
"""Puts what a crate is built to, a static library's archive or a program, where make looks for it.

    build.py CRATE OUT

Once `rt ci` has passed in this folder, .ci/run leaves target/proved, as old as the start of that run. Where no file that is proved is
younger, the program is the one that `rt ci` built, and the archive is built over the libraries that it left in the crates' folders. Else
`rt run` and `rt lib` build them, and prove first what is not proved yet."""
import pathlib
import shutil
import subprocess
import sys

ROOT = pathlib.Path(__file__).resolve().parent.parent
HOME = pathlib.Path(shutil.which("rt")).resolve().parent.parent


def listed():
    """The crates of crates.txt: the words between each name and its colon, and the libraries that it uses."""
    rows = [x.split("#")[0].partition(":") for x in (ROOT / "crates.txt").read_text().splitlines()]
    return {x.split()[0]: (x.split()[1:], y.split()) for x, _, y in rows if x.strip()}


def libraries(crate):
    """The repository's libraries below a crate, each with the folder that it is built to."""
    crates, found = listed(), {}
    todo = list(crates[crate][1])
    for one in todo:
        if one in crates and one not in found:
            found[one] = ROOT / "crates" / one / "out" / "rlib" / f"{one}.rlib"
            todo += crates[one][1]
    return found


def run(words, crate):
    done = subprocess.run(words, cwd=ROOT / "crates" / crate, stdin=subprocess.DEVNULL, stdout=subprocess.PIPE, stderr=subprocess.STDOUT, text=True)
    if done.returncode != 0:
        sys.exit(f"{done.stdout}build.py: {words[0]} {words[1]} of {crate} ended with status {done.returncode}")


def archive(crate, toolchain, out):
    """Builds a static library over the libraries that stand in the crates' folders."""
    found = libraries(crate)
    words = ["--crate-name", crate, "src/lib.rt", "--crate-type", "staticlib", "--extern", f"std={HOME}/rlibs/std.rlib"]
    words += [y for x in listed()[crate][1] for y in ("--extern", f"{x}={found[x]}")]
    words += [y for x in [HOME / "rlibs", *(x.parent for x in found.values())] for y in ("-L", f"dependency={x}")]
    words += ["--antt-project", f"{HOME}/rattle/logic/antt-project.json", "--logic-built", f"{HOME}/logic_built"]
    words += ["--toolchain", str(toolchain), "--backend", "llvm", "-o", str(out)]
    run([f"{HOME}/bin/rattle", "build", *words], crate)


def is_fresh(crate, made):
    """Whether these are what `rt ci` made of the files as they stand. A library with a stamp was there before it."""
    passed = ROOT / "target" / "proved"
    folders = [ROOT / "crates" / x / y for x in [crate, *libraries(crate)] for y in ("src", "specs", "proofs")]
    texts = [ROOT / "crates.txt", *(y for x in folders if x.exists() for y in [x, *x.rglob("*")])]
    is_left = all(x.exists() and not (x.parent / "stamp").exists() for x in made)
    return is_left and passed.exists() and all(x.stat().st_mtime < passed.stat().st_mtime for x in texts)


def main(crate, out):
    folder = ROOT / "crates" / crate / "out"
    if "staticlib" in listed()[crate][0]:
        built = folder / f"lib{crate}.a"
        if is_fresh(crate, libraries(crate).values()):
            archive(crate, HOME / "toolchain", built)
        else:
            run(["rt", "lib"], crate)
    else:
        built = folder / crate
        if not is_fresh(crate, [built]):
            run(["rt", "run"], crate)
    pathlib.Path(out).parent.mkdir(parents=True, exist_ok=True)
    shutil.copy(built, out)


if __name__ == "__main__":
    main(*sys.argv[1:])
