"""The forms of vector files: what each line has, and the reading of files and folders.

A file is JSON lines, and its name says what it holds. Whatever is not as it should be is told in words, so that a spoiled file is
reported and never passed over."""
import json
import os
import re

HEX = re.compile("([0-9a-f]{2})*")
LENT = ["buffer1_len", "buffer2_len", "secret_len", "uv_len", "work_len", "at_len"]
INPUTS = ["key", "masters", "secret", "E", "K", "L", "hidden"]


class Wrong(Exception):
    """What is wrong with a file or a line of it, in words."""


# Values: each test says whether a value is of its form. True is no number here, though it is one in Python.

def is_number(x):
    return type(x) is int and 0 <= x < 2 ** 64


def is_length(x):
    return x is None or is_number(x)


def is_hex(x):
    return type(x) is str and HEX.fullmatch(x) is not None


def is_text(x):
    return type(x) is str and x != ""


def is_list(test):
    return lambda x: type(x) is list and all(test(y) for y in x)


def is_one_of(*values):
    return lambda x: is_number(x) and x in values


def is_record(fields, optional=()):
    """A record of these fields, each of its form; the optional ones may be missing."""
    return lambda x: type(x) is dict and set(x) <= set(fields) and all(
        fields[f](x[f]) if f in x else f in optional for f in fields)


def either(*tests):
    return lambda x: any(test(x) for test in tests)


def is_input(x):
    """Kind, i, length and the SHA-256 values of two hash inputs."""
    return type(x) is list and len(x) == 5 and all(map(is_number, x[:3])) and all(map(is_hex, x[3:]))


def hexes(*names):
    return dict.fromkeys(names, is_hex)


def lists(*names):
    return dict.fromkeys(names, is_list(is_number))


REFUSED = is_record({"refused": is_number})
LENGTHS = {**dict.fromkeys(LENT, is_length), "answer_len": is_length}
FINDING = either(
    REFUSED,
    is_record({"finding": is_one_of(1), **dict.fromkeys(["kind", "e", "i", "length"], is_number), **hexes("input1", "input2")}),
    is_record({"finding": is_one_of(2), "secret": is_hex}),
    is_record({"finding": is_one_of(3), **dict.fromkeys("ekbd", is_number)}),
    is_record({"finding": is_one_of(4), "e": is_number, "uv": is_list(is_number)}))
PAIR = {**hexes("key", "run1", "run2"), "lens": either(lambda x: x is None, is_record(LENGTHS, ["answer_len"]))}
JUDGE = hexes("key", "run")

# Of each form: the inputs, and what is expected.
FORMS = {
    "prover": (hexes(*INPUTS), hexes("m1", "m3", "m5", "m7", "run")),
    "lent": ({"call": is_one_of(1, 3, 5, 7), **hexes(*INPUTS), "place": is_number,
              **dict.fromkeys(["out_len", "work_len", "at_len"], is_length)},
             {"expect": either(REFUSED, is_record({"message": is_hex}))}),
    "judge": (JUDGE, {"expect": is_number}),
    "judge_lent": ({**JUDGE, "work_len": is_length, "at_len": is_length}, {"expect": is_number}),
    "pair": (PAIR, {"expect": FINDING}),
    "weak_pair": ({**PAIR, "modulus": is_one_of(2, 16)}, {"expect": FINDING}),
    "trace": (hexes("key", "run1", "run2"), {"e": is_number, "inputs": is_list(is_input)}),
    "report": ({"key": is_hex, "runs": is_list(is_hex)}, {"text": is_text}),
}
PRIMITIVES = {
    "inverse": ({"N": is_number, "q": is_number}, {"value": is_number}),
    "tree": ({"N": is_one_of(2, 4, 8, 16, 32), "master": is_hex},
             {"leaves": is_list(is_hex), "opened": is_list(is_list(is_hex))}),
    "stream": ({"seed": is_hex, "first": is_number, "q": is_number}, lists("numbers")),
    "shares": (hexes("key", "leaf"), {**hexes("r", "g_N"), **lists("b", "d", "s")}),
    "h": (hexes("key", "master"), hexes("h")),
    "coefficients": ({**hexes("key", "L"), "e": is_number}, lists("beta", "gamma")),
    "output": ({**hexes("key", "master", "secret", "K", "L"), "e": is_number},
               {**lists("d_N", "s_N", "o"), **hexes("Omega", "Pi", "Psi")}),
}
KINDS = ["primitives", *FORMS]
OPTIONAL = {"weak_pair": ["lens"]}


def form(kind, v):
    """The inputs and the expected fields of a vector, each with its test."""
    if kind != "primitives":
        return FORMS[kind]
    if not is_text(v.get("what")) or v["what"] not in PRIMITIVES:
        raise Wrong("there is no primitive %.40r" % (v.get("what"),))
    return PRIMITIVES[v["what"]]


def expected(kind, v):
    """The names of the fields that are compared."""
    return list(form(kind, v)[1])


def check(kind, v):
    if type(v) is not dict:
        raise Wrong("the line is no record")
    if not is_text(v.get("id")):
        raise Wrong("no id")
    for fields in form(kind, v):
        for name, test in fields.items():
            if name not in v and name not in OPTIONAL.get(kind, []):
                raise Wrong("%s is missing" % name)
            if name in v and not test(v[name]):
                raise Wrong("%s is not of its form: %.80r" % (name, v[name]))


def once(pairs):
    """A record whose names are told apart."""
    names = [name for name, _ in pairs]
    if len(set(names)) < len(names):
        raise Wrong("a name stands twice")
    return dict(pairs)


def kind_of(path):
    kind, ending = os.path.splitext(os.path.basename(path))
    if ending != ".jsonl" or kind not in KINDS:
        raise Wrong("no file of vectors has this name")
    return kind


def lines(path, seen):
    """Each line's vector, or what is wrong with it; `seen` gets the ids."""
    kind = kind_of(path)
    with open(path, "rb") as file:
        for number, line in enumerate(file, 1):
            try:
                v = json.loads(line.decode(), object_pairs_hook=once)
                check(kind, v)
                if v["id"] in seen:
                    raise Wrong("the id %.80s stands twice" % v["id"])
                seen.add(v["id"])
            except (ValueError, RecursionError):
                v = Wrong("line %d: not JSON" % number)
            except Wrong as wrong:
                v = Wrong("line %d: %s" % (number, wrong))
            yield v


def files(arguments):
    """The files named, and those of folders; in a folder, README.md and further folders hold no vectors, and all else must."""
    for a in arguments:
        if not os.path.isdir(a):
            yield a
            continue
        for path in (os.path.join(a, x) for x in sorted(os.listdir(a)) if x != "README.md"):
            if os.path.isdir(path) and not path.endswith(".jsonl"):
                print("%s: a folder, not read" % path)
            else:
                yield path


def compare(path, compute, stop=False):
    """Prints what is wrong with the vectors of a file, whose values `compute` gives by name; all, or up to the first that differs. How
    many vectors, and how many differences."""
    seen, count, differ = set(), 0, 0

    def tell(what, name=""):
        print("%s: %s" % ((path + " " + name).strip(), what))
        return 1
    try:
        kind = kind_of(path)
        for v in lines(path, seen):
            if isinstance(v, Wrong):
                differ += tell(v)
                continue
            count += 1
            try:
                got = compute(kind, v)
                for name in expected(kind, v):
                    if got[name] != v[name]:
                        differ += tell("%s is %.200r, not %.200r" % (name, got[name], v[name]), v["id"])
            except Exception as problem:
                differ += tell("not computed: %s: %.200s" % (type(problem).__name__, problem), v["id"])
            if stop and differ:
                break
        if not count and not differ:
            raise Wrong("no vectors")
    except (Wrong, OSError) as wrong:
        differ += tell(wrong)
    return count, differ
