#!/usr/bin/env python3
"""Runs the program `verdict` in folders with various files `key` and `run`, and compares the line that it prints.

    program.py PROGRAM LIBRARY      LIBRARY: the second implementation as a shared object

Each case has its number stated; the second implementation must say the same of the first 65536 bytes of both files. No key tells a
program that reads more of it: a key of over 16536 bytes is refused by its first 24 bytes or with 4, however long it is."""
import ctypes
import json
import pathlib
import subprocess
import sys
import tempfile

from transcripts import MOST, filled, largest, lists

PROGRAM = pathlib.Path(sys.argv[1]).resolve()
LIBRARY = ctypes.CDLL(str(pathlib.Path(sys.argv[2]).resolve()))
VECTORS = pathlib.Path(__file__).parent / "vectors"


def line(key, run):
    """What the program prints; None is a missing file."""
    with tempfile.TemporaryDirectory() as folder:
        for name, data in (("key", key), ("run", run)):
            if data is not None:
                (pathlib.Path(folder) / name).write_bytes(data)
        done = subprocess.run([PROGRAM], cwd=folder, capture_output=True, text=True)
        return done.stdout if done.returncode == 0 else f"status {done.returncode}"


def said(number):
    return "accepted\n" if number == 0 else f"refused {number}\n"


def verdict(key, run):
    """The second implementation's, on the first 65536 bytes of both."""
    return LIBRARY.ref_judge(*lists((key or b"")[:MOST], (run or b"")[:MOST]))


honest = [json.loads(x) for x in open(VECTORS / "prover.jsonl")]
key, run = (bytes.fromhex(honest[0][x]) for x in ("key", "run"))
large_key, large_run = largest(LIBRARY)
cases = [
    ("no files", None, None, 1),
    ("no key", None, run, 1),
    ("no run", key, None, 12),
    ("two empty files", b"", b"", 1),
    ("an empty key", b"", run, 1),
    ("an empty key and no run", b"", None, 1),
    ("an empty run", key, b"", 12),
    ("an honest run", key, run, 0),
    ("a byte more", key, run + b"\0", 12),
    ("a byte less", key, run[:-1], 12),
    ("another hash", key, run[:56] + bytes([run[56] ^ 1]) + run[57:], 17),
    ("the run past 65536 bytes", key, run + bytes(MOST), 12),
    ("the key past 65536 bytes", key + bytes(MOST), run, 4),
    ("the largest key and its longest run", large_key, large_run, 0),
    ("the last number of the longest run changed", large_key, large_run[:-4] + bytes([large_run[-4] ^ 1]) + large_run[-3:], 16),
    ("a byte more than the longest run", large_key, large_run + b"\0", 12),
    ("a byte more than the largest key", large_key + b"\0", large_run, 4),
    ("the last entry of the largest key is q", large_key[:-4] + large_key[:4], large_run, 5),
    # Part 7 is too long, and the head says so: 13 if all that it counts is read, and no more.
    ("a run of 65535 bytes", key, filled(run, MOST - 1), 13),
    ("a run of 65536 bytes", key, filled(run, MOST), 13),
    ("a run of 65537 bytes, the last past its end", key, filled(run, MOST) + b"\0", 13),
    ("a run of 131072 bytes, half of them past its end", key, filled(run, MOST) + bytes(MOST), 13),
    ("a run of 65537 bytes with a right end", key, filled(run, MOST + 1), 12),
    ("the longest run filled to 65537 bytes, the last past its end", large_key, filled(large_run, MOST) + b"\0", 13),
    ("a key of 65536 bytes", large_key + bytes(MOST - len(large_key)), large_run, 4),
    ("a key of 65537 bytes", large_key + bytes(MOST + 1 - len(large_key)), large_run, 4),
]
seen = set()
for x in open(VECTORS / "judge.jsonl"):
    v = json.loads(x)
    if v["expect"] not in seen:
        seen.add(v["expect"])
        cases.append((v["id"], bytes.fromhex(v["key"]), bytes.fromhex(v["run"]), v["expect"]))
wrong = []
for name, k, r, number in cases:
    if verdict(k, r) != number:
        wrong.append(f"{name}: the second implementation says {verdict(k, r)}, not {number}")
    if line(k, r) != said(number):
        wrong.append(f"{name}: {line(k, r)!r}, not {said(number)!r}")
for what in wrong:
    print("different:", what)
print(f"program: {len(cases)} cases, {len(wrong)} different")
sys.exit(1 if wrong else 0)
