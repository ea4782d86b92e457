#!/usr/bin/env python3
"""Runs the program `report` in folders with various files, and compares the sheet that it prints.

    report.py PROGRAM SECOND LIBRARY [FOLDERS]      SECOND: the second implementation's program; LIBRARY: the same as a shared object
    report.py PROGRAM SECOND LIBRARY bench          the time of both on 99 copies of the longest transcript, in turn, the least of each

Each case has its numbers stated, and so has each of FOLDERS folders with vectors of the judge at random; the second implementation must
print the same in the same folder. Its output in the folder of the stored example must be the stored one."""
import ctypes
import json
import os
import pathlib
import random
import resource
import shutil
import subprocess
import sys
import tempfile
import time

from transcripts import MOST, filled, largest

PROGRAM, SECOND, LIBRARY = (pathlib.Path(x).resolve() for x in sys.argv[1:4])
ROOT = pathlib.Path(__file__).resolve().parent.parent
VECTORS, STORED = ROOT / "tests" / "vectors", ROOT / "crates" / "report"
STACK = 384 * 1024    # bytes of stack in which each program runs
FOLDER, NOWHERE, SHUT = object(), object(), object()    # in place of a file's bytes: a folder, a link to no file, a file that may not be opened
NOBODY = 65534
os.umask(0o022)


def little_stack():
    resource.setrlimit(resource.RLIMIT_STACK, (STACK, STACK))


def printed(program, folder, user=None):
    done = subprocess.run([program], cwd=folder, capture_output=True, text=True, preexec_fn=little_stack, user=user)
    return done.stdout if done.returncode == 0 and not done.stderr else f"status {done.returncode}: {done.stderr}"


def sheet(numbers):
    """Of the stated numbers, 0 for accepted."""
    lines = [f"run{i // 10}{i % 10} " + (f"refused {n}" if n else "accepted") for i, n in enumerate(numbers, 1)]
    return "\n".join([*lines, f"accepted {numbers.count(0)} refused {len(numbers) - numbers.count(0)} total {len(numbers)}", ""])


def fill(folder, files):
    for name, data in files.items():
        path = pathlib.Path(folder) / name
        if data is FOLDER:
            path.mkdir()
        elif data is NOWHERE:
            path.symlink_to("nowhere")
        elif data is SHUT:
            path.touch(mode=0)
        else:
            path.write_bytes(data)


def runs(*data):
    return {f"run{i:02}": x for i, x in enumerate(data, 1)}


def at_random(rng):
    """A key with some of its runs, a gap in one folder of three, and the numbers of the lines."""
    text, verdicts = rng.choice([x for x in of_key.items() if len(x[1]) > 1])
    numbers = rng.choices(sorted(verdicts), k=rng.choice((rng.randint(0, 12), rng.randint(0, 101))))
    files = {"key": bytes.fromhex(text), **runs(*(verdicts[n] for n in numbers))}
    numbers = numbers[:99]
    if numbers and rng.randrange(3) == 0:
        gap = rng.randrange(len(numbers))
        del files[f"run{gap + 1:02}"]
        numbers = numbers[:gap]
    return files, numbers


def bench():
    key, run = largest(ctypes.CDLL(str(LIBRARY)))
    with tempfile.TemporaryDirectory() as folder:
        fill(folder, {"key": key, **runs(*[run] * 99)})
        least = {PROGRAM: 1e9, SECOND: 1e9}
        for _ in range(5):
            for program in least:
                start = time.perf_counter()
                subprocess.run([program], cwd=folder, stdout=subprocess.DEVNULL, check=True)
                least[program] = min(least[program], time.perf_counter() - start)
    ours, theirs = (1000 * least[x] for x in (PROGRAM, SECOND))
    print(f"report, a key of {len(key)} bytes and 99 runs of {len(run)}, ms: ours {ours:.0f}, C {theirs:.0f}, ratio {ours / theirs:.2f}")


of_key = {}
for line in open(VECTORS / "judge.jsonl"):
    v = json.loads(line)
    of_key.setdefault(v["key"], {}).setdefault(v["expect"], bytes.fromhex(v["run"]))
if sys.argv[4:] == ["bench"]:
    sys.exit(bench())
# The key with the most different verdicts, one of them accepted.
text, verdicts = max((x for x in of_key.items() if 0 in x[1]), key=lambda x: len(x[1]))
key, good = bytes.fromhex(text), verdicts[0]
large, large_run = largest(ctypes.CDLL(str(LIBRARY)))
mixed = sorted(verdicts)
many = [mixed[i * i % len(mixed)] for i in range(99)]

# What it shows; the files, `key` among them unless it is missing; the numbers of the sheet's lines.
cases = [
    ("U1's example", {"key": key, "run01": b""}, [12]),
    ("no run01", {"key": key}, []),
    ("nothing at all", {}, []),
    ("an empty key and no run01", {"key": b""}, []),
    ("run02 alone", {"key": key, "run02": good}, []),
    ("a gap: run01 and run03", {"key": key, "run01": good, "run03": good}, [0]),
    ("an empty run first", {"key": key, **runs(b"", good)}, [12, 0]),
    ("an empty run between", {"key": key, **runs(good, b"", good)}, [0, 12, 0]),
    ("an empty run last", {"key": key, **runs(good, b"")}, [0, 12]),
    ("an empty key", {"key": b"", **runs(good, b"", good)}, [1, 1, 1]),
    ("a missing key", runs(good, b"", good), [1, 1, 1]),
    ("a key that is a folder", {"key": FOLDER, **runs(good)}, [1]),
    ("a key cut by a byte", {"key": key[:-1], **runs(good, b"")}, [4, 4]),
    ("a byte behind the key", {"key": key + b"\0", **runs(good)}, [4]),
    ("one accepted", {"key": key, **runs(good)}, [0]),
    ("the largest key and its longest run", {"key": large, **runs(large_run, large_run[:-1], large_run)}, [0, 12, 0]),
    ("every verdict of one key", {"key": key, **runs(*(verdicts[n] for n in mixed))}, mixed),
    ("9 runs", {"key": key, **runs(*[good] * 9)}, [0] * 9),
    ("10 runs", {"key": key, **runs(*[good] * 9, b"")}, [0] * 9 + [12]),
    ("11 runs, 10 of them accepted", {"key": key, **runs(*[good] * 10, b"")}, [0] * 10 + [12]),
    ("11 runs, 10 of them refused", {"key": key, **runs(*[b""] * 10, good)}, [12] * 10 + [0]),
    ("98 runs", {"key": key, **runs(*[good] * 98)}, [0] * 98),
    ("99 runs, accepted", {"key": key, **runs(*[good] * 99)}, [0] * 99),
    ("99 runs, refused", {"key": key, **runs(*[b""] * 99)}, [12] * 99),
    ("99 runs, mixed", {"key": key, **runs(*(verdicts[n] for n in many))}, many),
    ("run100 is not read", {"key": key, **runs(*(verdicts[n] for n in many), good)}, many),
    ("names that are not read", {"key": key, "run00": good, "run": good, "run1": good, "run001": good, "RUN01": good, "run01 ": good}, []),
    # A run leaves nothing to the next.
    ("a shorter run after a longer one", {"key": key, **runs(good, good[:-1], good)}, [0, 12, 0]),
    ("a cut run after one past 65536 bytes", {"key": key, **runs(good + bytes(MOST), good, good[:-1])}, [12, 0, 12]),
    # A file's first 65536 bytes are judged as if they were the file.
    ("a good transcript at the front of 65537 bytes", {"key": key, **runs(good + bytes(MOST + 1 - len(good)), good)}, [12, 0]),
    ("a run of 65536 bytes, by its head", {"key": key, **runs(filled(good, MOST))}, [13]),
    ("the same with a byte past its end", {"key": key, **runs(filled(good, MOST) + b"\0")}, [13]),
    ("a run of 65537 bytes, by its head", {"key": key, **runs(filled(good, MOST + 1))}, [12]),
    ("a key past 65536 bytes", {"key": key + bytes(MOST), **runs(good)}, [4]),
    # What can be opened and not read is a run of no bytes; what cannot be opened is missing.
    ("run01 is a folder", {"key": key, **runs(FOLDER, good)}, [12, 0]),
    ("run02 is a folder, after a longer run", {"key": key, **runs(good, FOLDER, good)}, [0, 12, 0]),
    ("run01 is a link to no file", {"key": key, **runs(NOWHERE, good)}, []),
    ("run02 is a link to no file", {"key": key, **runs(good, NOWHERE, good)}, [0]),
    ("run02 may not be opened", {"key": key, **runs(good, SHUT, good)}, [0]),
    ("a key that may not be opened", {"key": SHUT, **runs(good)}, [1]),
]
rng = random.Random(2)
cases += [(f"folder {i} at random", *at_random(rng)) for i in range(int(sys.argv[4]) if sys.argv[4:] else 30)]
wrong = [] if len(mixed) >= 10 else [f"the key has only the verdicts {mixed}"]
for name, files, numbers in cases:
    with tempfile.TemporaryDirectory() as folder:
        fill(folder, files)
        user = NOBODY if SHUT in files.values() and os.geteuid() == 0 else None
        for program in (PROGRAM, SECOND):
            if user:    # root may open all
                os.chmod(folder, 0o755)
                program = shutil.copy(program, folder)
            said = printed(program, folder, user)
            if said != sheet(numbers):
                wrong.append(f"{name}: {pathlib.Path(program).name} prints {said!r}, not {sheet(numbers)!r}")
if sheet([12]) != "run01 refused 12\naccepted 0 refused 1 total 1\n":
    wrong.append("a sheet is not of the form that document 02 shows")
if printed(SECOND, STORED / "data") != (STORED / "stdout").read_text():
    wrong.append("the stored example is not what the second implementation prints")
for what in wrong:
    print("different:", what)
print(f"report: {len(cases)} cases, {len(wrong)} different")
sys.exit(1 if wrong else 0)
