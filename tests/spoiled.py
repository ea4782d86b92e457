#!/usr/bin/env python3
"""Spoiled vector files: `reference/vectors.py` and `tools/definitions.py` must fail on each, with a line that says where.

    spoiled.py LIBRARY [vectors.py's options]       LIBRARY: the second implementation as a shared object, for the definitions

Of the smallest vector of each form: each field that is an input or expected is left out, or of another kind; each expected value is
changed. Then lines and files that are none, and a folder without vectors."""
import contextlib
import io
import json
import os
import pathlib
import subprocess
import sys
import tempfile

ROOT = pathlib.Path(__file__).resolve().parent.parent
sys.path.insert(0, str(ROOT / "reference"))
import forms  # noqa: E402
import vectors  # noqa: E402

LIBRARY, OPTIONS = sys.argv[1], sys.argv[2:]


def smallest(kind):
    """One vector of each sort that the form has."""
    sorts = {}
    for line in open(ROOT / "tests" / "vectors" / (kind + ".jsonl")):
        v = json.loads(line)
        sort = str(v.get("what")) + (str(sorted(v["expect"])) if isinstance(v.get("expect"), dict) else "")
        if sort not in sorts or len(line) < len(json.dumps(sorts[sort])):
            sorts[sort] = v
    return list(sorts.values())


def changed(x):
    """Values of the same form that are not x."""
    if type(x) is int:
        return [x + 1]
    if type(x) is str:
        return [("1" if x[:1] == "0" else "0") + x[1:], x[:-2], x + "00"] if x else ["00"]
    if type(x) is list:
        return [x[:-1], x + x[-1:]] + [x[:j] + [y] + x[j + 1:] for j in (0, len(x) - 1) for y in changed(x[j])]
    return [{**x, name: y} for name in x for y in changed(x[name])]


def spoils(kind, v):
    """Vectors that have something wrong, with what it is."""
    inputs, expected = forms.form(kind, v)
    for name in ("id", *(["what"] if kind == "primitives" else []), *inputs, *expected):
        if name not in forms.OPTIONAL.get(kind, []):
            yield "without " + name, {x: v[x] for x in v if x != name}
        for other in (True, 1.5, "zz", "0", [None], {}, -1):
            if name != "id" or other in (True, 1.5, {}, -1):
                yield "%s is %s" % (name, other), {**v, name: other}
    for name in expected:
        for other in changed(v[name]):
            yield "another " + name, {**v, name: other}
        if type(v[name]) is dict:
            for inner in v[name]:
                yield "%s without %s" % (name, inner), {**v, name: {x: v[name][x] for x in v[name] if x != inner}}
            yield "%s with more" % name, {**v, name: {**v[name], "more": 0}}
    if type(v.get("expect")) is int:
        yield "expect by name", {**v, "expect": {"refused": v["expect"]}}


def texts():
    """Files' names and texts, with what is wrong."""
    for kind in forms.KINDS:
        for v in smallest(kind):
            for what, other in spoils(kind, v):
                yield "%s, %s" % (kind, what), kind + ".jsonl", json.dumps(other) + "\n"
    good = json.dumps(smallest("judge")[0])
    for what, text in (("nothing", ""), ("no JSON", "key, run\n"), ("an empty line", good + "\n\n"), ("half a line", good[:-9] + "\n"),
                       ("a line twice", 2 * (good + "\n")), ("a list", "[]\n"), ("a number", "12\n"),
                       ("a name twice", good[:-1] + ', "expect": 0}\n')):
        yield "judge, " + what, "judge.jsonl", text
    for name in ("judges.jsonl", "judge.json", "judge.jsonl.old", "Judge.jsonl", "judge"):
        yield "the name " + name, name, good + "\n"
    yield "no file", None, ""


def fails(folder):
    """Whether vectors.py fails on the folder, and says why before its last line."""
    said = io.StringIO()
    with contextlib.redirect_stdout(said):
        status = vectors.main([*OPTIONS, folder])
    lines = said.getvalue().splitlines()
    return status == 1 and (any(": " in x for x in lines[:-1]) or lines == ["0 vectors, 0 differences"])


def definitions_fail(path):
    command = [sys.executable, str(ROOT / "tools" / "definitions.py"), LIBRARY, "--stop", path]
    done = subprocess.run(command, capture_output=True, text=True)
    return done.returncode == 1 and "Traceback" not in done.stderr and os.path.basename(path) in done.stdout


def main():
    seen, missed = 0, []
    with tempfile.TemporaryDirectory() as folder:
        for kind in forms.KINDS:
            lines = [json.dumps(v) + "\n" for v in smallest(kind)]
            (pathlib.Path(folder) / (kind + ".jsonl")).write_text("".join(lines))
        missed += ["nothing wrong"] if fails(folder) else []
    for what, name, text in texts():
        with tempfile.TemporaryDirectory() as folder:
            if name:
                (pathlib.Path(folder) / name).write_text(text)
            found = fails(folder)
            if what.startswith(("judge, ", "the name")):
                found = found and definitions_fail(os.path.join(folder, name))
        seen += found
        missed += [] if found else [what]
    for what in missed:
        print("not seen:", what)
    print("spoiled: %d seen, %d not seen" % (seen, len(missed)))
    return 1 if missed else 0


if __name__ == "__main__":
    sys.exit(main())
