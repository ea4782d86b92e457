#!/usr/bin/env python3
"""Runs the definitions of specs/, as they stand there, on the repository's vectors.

    definitions.py LIBRARY [--stop] [FILE..]    LIBRARY: the second implementation as a shared object; FILE: vector files, default all

`reference/forms.py` has the forms of the files; what is not as it should be counts as different. With --stop it ends at the first
vector that differs, and leaves the standards out. First SHA-256 and AES-128 by their definitions, on published examples and beside
Python's hashlib and the second implementation. Then the vectors: those of keys up to WHOLE with SHA-256 and AES-128 by their
definitions, the larger ones with both from the second implementation, for time. What stays outside the definitions is Python's: of
std's Prelude length, get_or, take, drop, replicate and their like, comparisons of numbers, bit_and, bit_or, bit_xor, and pos and neg_ℤ
of the answers for C; of a sheet, which files there are and their first 65536 bytes. Where q is 0 or another number of the key is past
all limits, only the key's own tests are run, since a list of tests is built whole."""
import ctypes
import functools
import hashlib
import importlib.util
import pathlib
import struct
import sys

ROOT = pathlib.Path(__file__).resolve().parent.parent
sys.path.insert(0, str(ROOT / "reference"))
import forms  # noqa: E402
from refcli import pair_answer  # noqa: E402
LIBRARY = ctypes.CDLL(sys.argv[1])
ENOUGH = 10 ** 9
FILL = 0xa5     # what outputs hold before a call
WHOLE = 48      # M * N * m of the largest keys whose vectors take nothing from the second implementation
modulus = None
whole = False   # whether this vector takes nothing from the second implementation


def definitions(*files):
    """The definitions of the files, in a space of names of their own; a file with names gives only those, one of code its enum."""
    spec = importlib.util.spec_from_file_location("antt_run", ROOT / "tools" / "antt_run.py")
    space = importlib.util.module_from_spec(spec)
    spec.loader.exec_module(space)
    for name, bits in (("bit_and", int.__and__), ("bit_or", int.__or__), ("bit_xor", int.__xor__)):
        space.builtin(name, 2, bits)
    space.builtin("replicate", 2, lambda n, x: (x,) * n)
    space.builtin("sha256", 1, digest)
    space.builtin("block", 2, block)
    space.builtin("pos", 1, lambda n: n)
    space.builtin("neg_ℤ", 1, lambda n: -n)
    for path, *names in files:
        if path.endswith(".rt"):
            space.enum(str(ROOT / "crates" / path), *names)
        else:
            space.load(str(ROOT / "crates" / (path + ".antt")), None, names)
    return space


# By their definitions both are kept from one vector to the next, since vectors of one key share most of them.

@functools.lru_cache(None)
def defined_digest(x):
    return sha.call("sha256", x)


@functools.lru_cache(None)
def defined_block(seed, j):
    return aes.call("block", seed, j)


def digest(x):
    if whole:
        out = defined_digest(x)
    else:
        out = ctypes.create_string_buffer(32)
        LIBRARY.sha256(bytes(x), ctypes.c_size_t(len(x)), out)
        out = tuple(out.raw)
    return out if modulus is None else (out[0] % modulus,) + (0,) * 31


@functools.lru_cache(None)
def library_block(seed, j):
    key, out = ctypes.create_string_buffer(512), ctypes.create_string_buffer(16)
    LIBRARY.aes128_expand(key, bytes(seed))
    LIBRARY.aes128_encrypt(key, j.to_bytes(16, "big"), out)
    return tuple(out.raw)


def block(seed, j):
    if whole:
        return defined_block(seed, j)
    return library_block(seed, j) if len(seed) == 16 else (0,) * 16


sha = definitions(("sha_core/specs/Fips180",))
aes = definitions(("lists/specs/Tab", "tab"), ("gf/specs/Field",), ("sbox/specs/Sbox",), ("aes/specs/Fips197",),
                  ("aes_wide/specs/Wide", "counter"), ("streams/specs/Streams", "block"))
a = definitions(
    ("lists/specs/Tab", "tab"), ("lists/specs/Index",), ("lists/specs/Bytes",), ("lists/specs/Check",), ("numbers/specs/Mod", "sub"),
    ("numbers/specs/Sum", "sum"), ("numbers/specs/Inverse", "qs", "Ns", "inverse_of"), ("numbers/specs/Output", "out", "u_of", "v_of"),
    ("streams/specs/Streams", "word64", "number", "draw"), ("tree/specs/Tree",), ("protocol/specs/Key",), ("protocol/specs/Shares",),
    ("protocol/specs/Prover",), ("protocol/specs/Transcript",), ("protocol/specs/Judge",), ("protocol/specs/Pair",),
    ("refusals/specs/Number", "number_of"), ("pair/specs/Lent",), ("badge/specs/PairCall",),
    ("reading/specs/Answers", "over", "hash1_of", "hash2_of", "bits_of", "errors_of"), ("answer/specs/Codes", "finding_code"),
    ("answer/specs/Rows", "row", "row_after"))
sheets = definitions(("lists/specs/Index",), ("line/specs/Line",), ("sheet/specs/Sheet",),
                     ("sheet/specs/Counted", "longer", "lines_of", "how_many", "says_accepted", "says_refused", "value_of", "is_digit", "are_digits",
                      "is_count"))
answers = definitions(("lists/specs/Check",), ("prover/specs/Answers", "answer_of"), ("answer/specs/Codes", "code_of"))


def hexes(text):
    return tuple(bytes.fromhex(text))


def keyed(key, then):
    own = a.call("first", a.call("key_checks", a.call("key_of", key), key))
    q, *others = struct.unpack("<6I", bytes(key[:24]).ljust(24, b"\0"))
    return own if own.n == "refused" and (q == 0 or max(others) > 128) else then()


def number(verdict):
    return a.call("number_of", verdict)


def record(**fields):
    return a.Rec(**{a.py(k): v for k, v in fields.items()})


def inputs(v):
    return [hexes(v[x]) for x in ("masters", "secret", "E", "K", "L", "hidden")]


def judge(v):
    key = hexes(v["key"])
    return {"expect": number(keyed(key, lambda: a.call("judge", key, hexes(v["run"]))))}


def judge_lent(v):
    key, lengths = hexes(v["key"]), [ENOUGH if v[x] is None else v[x] for x in ("work_len", "at_len")]
    return {"expect": number(keyed(key, lambda: a.call("judge_lent", key, *lengths, hexes(v["run"]))))}


def counted(text):
    """Whether the text is as the theorem says, by the words of which the theorem is made."""
    *above, last = sheets.call("lines_of", tuple(text))
    numbers = [tuple(x) for x in bytes(last).split(b" ")[1::2]]
    counts = [sheets.call("how_many", sheets.G[x], tuple(above)) for x in ("says_accepted", "says_refused")] + [len(above)]
    return len(numbers) == 3 and last == sheets.call("totals", *numbers) and all(
        sheets.call("is_count", x) and sheets.call("value_of", 0, x) == n for x, n in zip(numbers, counts)) and all(
        bytes(x[:3]) == b"run" and sheets.call("are_digits", 2, x[3:5]) and sheets.call("value_of", 0, x[3:5]) == i
        and sheets.call("says_refused", x) != sheets.call("says_accepted", x) for i, x in enumerate(above, 1))


def report(v):
    """The sheet of the judge's numbers."""
    key, runs = hexes(v["key"])[:65536], [hexes(x)[:65536] for x in v["runs"][:99]]
    text = sheets.call("sheet_of", tuple(number(keyed(key, lambda: a.call("judge", key, x))) for x in runs))
    if not counted(v["text"].encode()):
        raise ValueError("the last line does not count those above it")
    return {"text": bytes(text).decode()}


def prover(v):
    K = a.call("key_of", hexes(v["key"]))
    seeds, secret, E, k, L, hidden = inputs(v)
    m1, m3 = a.call("message1", K, seeds), a.call("message3", K, seeds, secret, E, k)
    m5, m7 = a.call("message5", K, seeds, secret, E, k, L), a.call("message7", K, seeds, secret, E, k, L, hidden)
    run = a.call("transcript", record(p1=m1, p2=E, p3=m3, p4=L, p5=m5, p6=hidden, p7=m7))
    return {name: bytes(x).hex() for name, x in (("m1", m1), ("m3", m3), ("m5", m5), ("m7", m7), ("run", run))}


def lent(v):
    key, call = hexes(v["key"]), v["call"]
    seeds, secret, E, k, L, hidden = inputs(v)
    given = {1: (seeds,), 3: (seeds, secret, E, k), 5: (seeds, secret, E, k, L), 7: (seeds, secret, E, k, L, hidden)}[call]
    lengths = [ENOUGH if v[x] is None else v[x] for x in ("out_len", "place", "work_len", "at_len")]
    verdict = keyed(key, lambda: a.call(f"verdict{call}", key, *given, *lengths))
    message = a.call(f"message{call}", a.call("key_of", key), *given) if verdict.n == "accepted" else ()
    code = answers.call("code_of", answers.call("answer_of", verdict, message))
    place, before = v["place"], (FILL,) * (v["place"] + len(message) + 9 if v["out_len"] is None else v["out_len"])
    after = a.call("output", verdict, message, place, before)
    written = after[place:place + max(code, 0)]
    stays(before, after, place, written)
    return {"expect": {"refused": -code} if code < 0 else {"message": bytes(written).hex()}}


def stays(before, after, place, written):
    """All that is not written is as it was."""
    if after != before[:place] + written + before[place + len(written):]:
        raise ValueError("an output holds something else outside of what was written")


def left(name, reading, before, length):
    """The first numbers of an output after the call, which are all that is written."""
    after = a.call(name, reading, before)
    stays(before, after, 0, after[:length])
    return after[:length]


def pair(v):
    """Through the C call's answer: its number, the eight numbers and the lent outputs after the call."""
    key, K, asked = hexes(v["key"]), a.call("key_of", hexes(v["key"])), v.get("lens") or {}
    length = {x: ENOUGH if asked.get(x) is None else asked[x] for x in forms.LENGTHS}
    lent_lists = a.call("lengths", *[length[x] for x in ("buffer1_len", "buffer2_len", "secret_len", "uv_len", "at_len", "work_len")])
    r = keyed(key, lambda: a.call("pair_call", length["answer_len"], key, lent_lists, hexes(v["run1"]), hexes(v["run2"])))
    if r.n == "refused":
        return {"expect": {"refused": number(r)}}
    before = {x: (FILL,) * min(length[x], 16400) for x in length}
    answer = a.call("says", r)
    code, row = a.call("finding_code", answer), a.call("row_after", answer, before["answer_len"])
    size = row[3] if code == 1 else 0
    one, two = (bytes(left(f, r, before[x], size)).hex() for f, x in (("hash1_of", "buffer1_len"), ("hash2_of", "buffer2_len")))
    bits = bytes(left("bits_of", r, before["secret_len"], field(K, "m") if code == 2 else 0)).hex()
    uv = list(left("errors_of", r, before["uv_len"], field(K, "n") + field(K, "m") if code == 4 else 0))
    if code < 0:
        stays(before["answer_len"], row, 0, ())
        return {"expect": {"refused": -code}}
    stays(before["answer_len"], row, 0, row[:8])
    texts = {1: [one, two], 2: [bits], 3: [], 4: [",".join(map(str, uv))]}[code]
    return {"expect": pair_answer(["finding", str(code), ",".join(map(str, row[:8]))] + texts)}


def field(r, name):
    return getattr(r, a.py(name))


def trace(v):
    sides = a.call("key_of", hexes(v["key"])), a.call("parts_of", hexes(v["run1"])), a.call("parts_of", hexes(v["run2"]))
    e = a.call("execution", *sides)
    inputs = [[field(c, "kind"), field(c, "party"), len(field(c, "one"))] + [bytes(digest(field(c, x))).hex() for x in ("one", "two")]
              for c in a.call("comparisons", *sides, e)]
    return {"e": e + 1, "inputs": inputs}


def leaf_shares(K, v):
    """A leaf's values as party 1 draws them, and g(N)."""
    leaf, m = hexes(v["leaf"]), field(K, "m")
    drawn = [a.call("share", K, leaf, 0, j) for j in range(3 * m)]
    r, g = (bytes(a.call("block", leaf, j)).hex() for j in (0, 1))
    return {"r": r, "g_N": g, "b": drawn[:m], "d": drawn[m:2 * m], "s": drawn[2 * m:]}


def execution(K, v):
    """An honest execution by its master seed, secret, K and L."""
    secret, k, L, e = hexes(v["secret"]), hexes(v["K"]), hexes(v["L"]), v["e"] - 1
    view = a.call("dealt", K, e, hexes(v["master"]), a.Fn(1, lambda j: secret[j]))
    hashes = {name: bytes(digest(x)).hex() for name, x in (("Omega", a.call("Ωin", K, view)), ("Pi", a.call("Πin", K, view, k)),
                                                          ("Psi", a.call("Ψin", K, view, k, L)))}
    d, s = ([a.ap(field(view, x), j) for j in range(field(K, "m"))] for x in ("d_n", "s_n"))
    return {"d_N": d, "s_N": s, "o": [a.call("o", K, view, L, i) for i in range(field(K, "N"))], **hashes}


def primitives(v):
    what = v["what"]
    if what == "inverse":
        return {"value": a.call("inverse_of", v["q"], v["N"])}
    if what == "stream":
        count = len(v["numbers"])
        return {"numbers": [a.call("draw", v["q"], hexes(v["seed"]), v["first"], count, j) for j in range(count)]}
    if what == "tree":
        master, depth, leaves = hexes(v["master"]), v["N"].bit_length() - 1, range(v["N"])
        opened = [bytes(a.call("opening", depth, master, h)) for h in leaves]
        return {"leaves": [bytes(a.call("leaf", depth, master, i)).hex() for i in leaves],
                "opened": [[x[j:j + 16].hex() for j in range(0, len(x), 16)] for x in opened]}
    K = a.call("key_of", hexes(v["key"]))
    if what == "shares":
        return leaf_shares(K, v)
    if what == "h":
        view = a.call("dealt", K, 0, hexes(v["master"]), a.Fn(1, lambda j: 0))
        return {"h": bytes(digest(a.call("hin", K, view))).hex()}
    if what == "coefficients":
        drawn = [a.call("coefficient", K, hexes(v["L"]), v["e"] - 1, j) for j in range(field(K, "n") + field(K, "m"))]
        return {"beta": drawn[:field(K, "n")], "gamma": drawn[field(K, "n"):]}
    return execution(K, v)


KINDS = {"primitives": primitives, "judge": judge, "judge_lent": judge_lent, "prover": prover, "lent": lent, "pair": pair,
         "trace": trace, "weak_pair": pair, "report": report}


def standards():
    """The differences between the definitions of SHA-256 and AES-128 and NIST's examples, hashlib and the second implementation."""
    letters = "abcdefghijklmnopqrstu"
    messages = [b"abc", "".join(letters[i:i + 4] for i in range(14)).encode(), "".join(letters[i:i + 8] for i in range(14)).encode()]
    published = ["ba7816bf8f01cfea414140de5dae2223b00361a396177a9cb410ff61f20015ad",
                 "248d6a61d20638b8e5c026930c3e6039a33ce45964ff2167f6ecedd419db06c1",
                 "cf5b16a778af8380036ce59e7b0492370b249b11e8f07a51afac45037afee9d1"]
    digests = [(x, bytes.fromhex(d)) for x, d in zip(messages, published)]
    digests += [(x, hashlib.sha256(x).digest()) for x in (bytes(range(256))[:n] for n in range(0, 256, 5))]
    ciphers = [("2b7e151628aed2a6abf7158809cf4f3c", "3243f6a8885a308d313198a2e0370734", "3925841d02dc09fbdc118597196a0b32"),
               ("000102030405060708090a0b0c0d0e0f", "00112233445566778899aabbccddeeff", "69c4e0d86a7b0430d8cdb78070b4c55a")]
    seeds = [(hashlib.sha256(bytes([j])).digest()[:16], j << j) for j in range(64)]
    wrong = sum(bytes(sha.call("sha256", tuple(x))) != d for x, d in digests)
    wrong += sum(aes.call("aes128", hexes(key), hexes(plain)) != hexes(cipher) for key, plain, cipher in ciphers)
    wrong += aes.call("key_expansion", hexes(ciphers[0][0]))[-16:] != hexes("d014f9a8c9ee2589e13f0cc8b6630ca6")
    wrong += sum(aes.call("block", tuple(seed), j) != block(tuple(seed), j) for seed, j in seeds)
    print(f"definitions: {len(digests)} digests, {len(ciphers) + 1} examples of FIPS 197 and {len(seeds)} blocks run")
    return wrong


def is_small(v):
    """The vector's key, if it has one, is small, or is refused before anything is hashed."""
    key = bytes.fromhex(v.get("key", ""))
    if len(key) < 24:
        return True
    m, N, M = struct.unpack_from("<3I", key, 8)
    return M * N * m <= WHOLE or max(m, N, M) > 128


def compute(kind, v):
    global modulus, whole, alone
    modulus, whole = v.get("modulus"), is_small(v)
    a.clear(), sheets.clear(), sha.clear(), library_block.cache_clear()
    alone += whole
    return KINDS[kind](v)


def main():
    global alone
    stop = sys.argv[2:3] == ["--stop"]
    wrong = 0 if stop else standards()
    for path in sys.argv[2 + stop:] or [str(ROOT / "tests" / "vectors" / (kind + ".jsonl")) for kind in forms.KINDS]:
        alone = 0
        run, differ = forms.compare(path, compute, stop)
        wrong += differ
        print(f"definitions: {pathlib.Path(path).stem}: {run} vectors run, {alone} with nothing from the second implementation")
        if stop and wrong:
            break
    print(f"definitions: {wrong} different")
    failed.append(wrong)


failed, alone = [], 0
a.run(main)
sys.exit(0 if failed == [0] else 1)
