"""Compares vector files with the second implementation.

    vectors.py [--build DIRECTORY] [--calls] FILE_OR_DIRECTORY ..

`forms.py` has the forms of the files. Prints one line for each file and each difference, and fails if there is any, or a file that is
not as it should be, or no vector at all. With --calls, DIRECTORY has the command program built with the library's calls, and the
program `report` in place of `report_files`; of primitives and traces, what the calls do not show is counted, and compared with the
second implementation.
"""
import hashlib
import os
import struct
import subprocess
import sys
import tempfile

import forms
from forms import INPUTS, LENT
from refcli import BUILD, Refcli, numbers, pair_answer


def require(holds, otherwise):
    if not holds:
        raise ValueError(otherwise)


def chunks(hexes, size):
    return [hexes[j:j + 2 * size] for j in range(0, len(hexes), 2 * size)]


def primitive(cli, v):
    what = v["what"]
    if what == "inverse":
        return {"value": int(cli("inverse", v["N"], v["q"])[0])}
    if what == "tree":
        N = v["N"]
        leaves = chunks(cli("leaves", N, v["master"])[0], 16)
        opened = [chunks(cli("open", N, i, v["master"])[0], 16) for i in range(1, N + 1)]
        for i in range(N):  # and back from the opening
            again = chunks(cli("reopen", N, i + 1, "".join(opened[i]))[0], 16)
            require(again == leaves[:i] + ["00" * 16] + leaves[i + 1:], "an opening gives other leaves")
        return {"leaves": leaves, "opened": opened}
    if what == "stream":
        return {"numbers": numbers(cli("numbers", v["seed"], v["first"], v["q"], len(v["numbers"]))[0])}
    if what == "shares":
        r, g, b, d, s = cli("shares", v["key"], v["leaf"])
        return {"r": r, "g_N": g, "b": numbers(b), "d": numbers(d), "s": numbers(s)}
    if what == "h":
        return {"h": cli("h", v["key"], v["master"])[0]}
    if what == "coefficients":
        beta, gamma = cli("coefficients", v["key"], v["L"], v["e"])
        return {"beta": numbers(beta), "gamma": numbers(gamma)}
    if what == "output":
        d, s, o, omega, pi, psi = cli("output", v["key"], v["master"], v["secret"], v["K"], v["L"], v["e"])
        return {"d_N": numbers(d), "s_N": numbers(s), "o": numbers(o), "Omega": omega, "Pi": pi, "Psi": psi}
    raise ValueError("no such primitive: " + what)


def message(cli, v, number, out_len=None, place=0, work_len=None, at_len=None):
    words = cli("message", number, *[v[x] for x in INPUTS], out_len, place, work_len, at_len)
    return {words[0]: int(words[1]) if words[0] == "refused" else words[1]}


def transcript(parts):
    """The file of seven parts, in hex."""
    offset, head = 56, b""
    for part in parts:
        head += struct.pack("<II", offset, len(part) // 2)
        offset += len(part) // 2
    return head.hex() + "".join(parts)


def written(cli, v, number):
    """The message, in hex, of a call that is not refused."""
    answer = message(cli, v, number)
    require("message" in answer, "message %d: %s" % (number, answer))
    return answer["message"]


def prover(cli, v):
    m = {j: written(cli, v, j) for j in (1, 3, 5, 7)}
    run = transcript([m[1], v["E"], m[3], v["L"], m[5], v["hidden"], m[7]])
    require(cli("judge", v["key"], run) == ["0"], "the judge refuses the run")
    return {"m1": m[1], "m3": m[3], "m5": m[5], "m7": m[7], "run": run}


def lent(cli, v):
    return {"expect": message(cli, v, v["call"], v["out_len"], v["place"], v["work_len"], v["at_len"])}


def judge(cli, v):
    return {"expect": int(cli("judge", v["key"], v["run"])[0])}


def judge_lent(cli, v):
    return {"expect": int(cli("judge", v["key"], v["run"], v["work_len"], v["at_len"])[0])}


def pair(cli, v):
    lens = v.get("lens") or {}
    lengths = [lens.get(x) for x in LENT + ["answer_len"]]
    return {"expect": pair_answer(cli("pair", v["key"], v["run1"], v["run2"], *lengths))}


def trace(cli, v):
    words = cli("trace", v["key"], v["run1"], v["run2"])
    require(words[0] != "refused", " ".join(words))
    inputs = []
    for word in words[1:]:
        kind, i, length, one, two = word.split(":")
        inputs.append([int(kind), int(i), int(length), one, two])
    return {"e": int(words[0]), "inputs": inputs}


def report(cli, v):
    """What the program prints in a folder with these files."""
    with tempfile.TemporaryDirectory() as folder:
        for name, data in [("key", v["key"]), *(("run%02d" % i, run) for i, run in enumerate(v["runs"], 1))]:
            with open(os.path.join(folder, name), "wb") as file:
                file.write(bytes.fromhex(data))
        done = subprocess.run([os.path.join(cli.build, "report_files")], cwd=folder, capture_output=True)
    require(done.returncode == 0 and not done.stderr, "the program ends with status %d" % done.returncode)
    return {"text": done.stdout.decode()}


def shown(cli, number, **inputs):
    """The message, in bytes, of inputs in hex."""
    return bytes.fromhex(written(cli, {**dict.fromkeys(INPUTS, ""), **inputs}, number))


def number_list(data):
    return list(struct.unpack("<%dI" % (len(data) // 4), data))


def if_hashed(value, digest):
    """The value in hex, if that is its hash."""
    return value if hashlib.sha256(bytes.fromhex(value)).digest() == digest else "not the one hashed"


def tree_shown(cli, v):
    """Openings by message 7 of a key with A and t all zero; a leaf by the opening that hides its sibling."""
    N, key = v["N"], struct.pack("<9I", 257, 1, 2, v["N"], 2, 1, 0, 0, 0).hex()
    opened = []
    for i in range(1, N + 1):
        part = shown(cli, 7, key=key, masters=2 * v["master"], secret="0000", E="01", K="00" * 16, L="00" * 16,
                     hidden="%02x" % i)
        opened.append(chunks(part[16:16 * N.bit_length()].hex(), 16))
    return {"opened": opened, "leaves": [x if x in opened[i ^ 1] else "not opened" for i, x in enumerate(v["leaves"])]}


def h_shown(cli, v):
    """H(h .. h) by message 1, all master seeds being the same."""
    M = struct.unpack_from("<I", bytes.fromhex(v["key"]), 16)[0]
    digest = shown(cli, 1, key=v["key"], masters=M * v["master"])
    return {"h": if_hashed(M * v["h"], digest)[:64]}


def output_shown(cli, v):
    """One execution by messages 3, 5 and 7 of the same key with tau = M - 1."""
    key = bytearray.fromhex(v["key"])
    _, _, m, N, M, _ = struct.unpack_from("<6I", key)
    struct.pack_into("<I", key, 20, M - 1)
    E = bytes(e for e in range(1, M + 1) if e != v["e"])
    given = dict(key=key.hex(), masters=M * v["master"], secret=v["secret"], E=E.hex(), K=v["K"])
    third = shown(cli, 3, **given)[16 * (M - 1):]
    fifth = shown(cli, 5, **given, L=v["L"])
    o = []
    for i in range(N, 0, -1):
        numbers_of_i = shown(cli, 7, **given, L=v["L"], hidden="%02x" % i)[16 * N.bit_length() + 32:]
        o.insert(0, number_list(numbers_of_i)[m])
    last = number_list(numbers_of_i)[m + 1:]
    return {"Omega": third[:32].hex(), "Pi": if_hashed(v["Pi"], third[32:]), "Psi": if_hashed(v["Psi"], fifth), "o": o,
            "d_N": last[:m], "s_N": last[m:]}


def stream_shown(cli, v):
    """The library's call refuses blocks from 2^62 on."""
    if v["first"] >= 2 ** 62:
        return {}
    return {"numbers": numbers(cli("drawn", v["seed"], v["first"], v["q"], len(v["numbers"]))[0])}


def primitive_shown(cli, v):
    shown_by = {"stream": stream_shown, "tree": tree_shown, "h": h_shown, "output": output_shown}
    return shown_by.get(v["what"], lambda *_: {})(cli, v)


def trace_shown(cli, v):
    """No collision where all inputs are equal, and e where the finding has one."""
    got = pair_answer(cli("pair", v["key"], v["run1"], v["run2"]))
    collides = any(one != two for _, _, _, one, two in v["inputs"])
    require((got.get("finding") == 1) == collides, "the finding is %s" % got)
    return {"e": got["e"]} if "e" in got else {}


COMPUTED = {"primitives": primitive, "prover": prover, "lent": lent, "judge": judge, "judge_lent": judge_lent, "pair": pair,
            "trace": trace, "weak_pair": pair, "report": report}
# What the calls show of the layers; all else is theirs anyhow.
SHOWN = {"primitives": primitive_shown, "trace": trace_shown}


class Runner:
    def __init__(self, build):
        self.build = build
        self.programs = {}

    def cli(self, modulus):
        if modulus not in self.programs:
            self.programs[modulus] = Refcli(modulus, self.build)
        return self.programs[modulus]

    def compute(self, kind, v, by=COMPUTED):
        """The values of the vector that the implementation gives."""
        try:
            return by[kind](self.cli(v.get("modulus")), v)
        except Exception:  # the program may have stopped: the next vector gets another
            if v.get("modulus") in self.programs:
                self.programs.pop(v.get("modulus")).stop()
            raise

    def compare(self, path, calls):
        silent = 0

        def compute(kind, v):
            """By the calls; of a layer, by the second implementation, and by the calls what they show."""
            nonlocal silent
            got = self.compute(kind, v)
            if not calls or kind not in SHOWN:
                return got
            by_calls = self.compute(kind, v, SHOWN)
            silent += len(set(got) - set(by_calls))
            return {x: by_calls.get(x, got[x]) if got[x] == v[x] else got[x] for x in got}
        count, differ = forms.compare(path, compute)
        print("%s: %d vectors, %d differences%s" % (path, count, differ,
              ", %d values not shown by the calls, taken from the second implementation" % silent if silent else ""))
        return count, differ

    def close(self):
        """How many programs end with an error."""
        return sum(program.close() != 0 for program in self.programs.values())


def main(arguments):
    build, calls = BUILD, False
    if arguments[:1] == ["--build"]:
        build, arguments = arguments[1], arguments[2:]
    if arguments[:1] == ["--calls"]:
        calls, arguments = True, arguments[1:]
    runner = Runner(build)
    results = [runner.compare(path, calls) for path in forms.files(arguments)]
    failed = runner.close()
    count, differ = sum(r[0] for r in results), sum(r[1] for r in results)
    print("%d vectors, %d differences%s" % (count, differ, ", and the program ended with an error" if failed else ""))
    return 0 if count > 0 and differ == 0 and not failed else 1


if __name__ == "__main__":
    sys.exit(main(sys.argv[1:]))
