"""Makes vectors with the second implementation, which gives every expected value.

    make_vectors.py --out DIRECTORY [--seed NUMBER] [--rounds NUMBER]
    make_vectors.py --out DIRECTORY --orders [--check]

The second form makes the vectors of `orders.py` anew: they stand at the end of each file of DIRECTORY, and all others stay. With
--check nothing is written, and it fails if others stand there. In the first, the same seed gives the same vectors. A round makes, for every q and every N, an honest run, calls
of the prover with damaged inputs, damaged and forged transcripts for the judge, and honest,
cheating and forged pairs; a weak hash shows collisions. Before the rounds come the limits of keys
and transcripts, each from both sides.
"""
import argparse
import json
import os
import random
import struct
import sys

sys.path.insert(0, os.path.join(os.path.dirname(os.path.abspath(__file__)), "..", "reference"))
from refcli import BUILD, numbers  # noqa: E402
from vectors import Runner, chunks, transcript  # noqa: E402

MODULI = [257, 65537, 2147483647]
PARTIES = [2, 4, 8, 16, 32]


def packed(values):
    return struct.pack("<%dI" % len(values), *values)


class Key:
    def __init__(self, q, n, m, N, M, tau, A, t):
        self.q, self.n, self.m, self.N, self.M, self.tau, self.A, self.t = q, n, m, N, M, tau, A, t

    def bytes(self):
        flat = [x for row in self.A for x in row]
        return packed([self.q, self.n, self.m, self.N, self.M, self.tau] + flat + self.t)

    def image(self, s):
        """A s"""
        return [sum(a * x for a, x in zip(row, s)) % self.q for row in self.A]


def random_key(rng, q, n, m, N, M, tau):
    """A key and its secret."""
    A = [[rng.randrange(q) for _ in range(m)] for _ in range(n)]
    secret = [rng.randrange(2) for _ in range(m)]
    key = Key(q, n, m, N, M, tau, A, [0] * n)
    key.t = key.image(secret)
    return key, secret


def small_key(rng, q, N):
    m = rng.randint(2, 7)
    n = rng.randint(1, min(3, m - 1))
    M = rng.randint(2, 5)
    return random_key(rng, q, n, m, N, M, rng.randint(1, M - 1))


def square_root(x, q):
    """A root of x modulo q, or None."""
    if q % 4 == 3:
        root = pow(x, (q + 1) // 4, q)
        return root if root * root % q == x else None
    return next((r for r in range(q) if r * r % q == x), None)


class Badge:
    """A prover that may use any secret and any d of party N, and its transcripts."""

    def __init__(self, cli, rng, key, secret):
        self.cli, self.rng, self.key = cli, rng, key
        self.masters = [rng.randbytes(16) for _ in range(key.M)]
        self.E = sorted(rng.sample(range(1, key.M + 1), key.tau))
        self.kept = [e for e in range(1, key.M + 1) if e not in self.E]
        self.K, self.L = rng.randbytes(16), rng.randbytes(16)
        self.secret = {e: list(secret) for e in self.kept}
        self.d_error = {e: [0] * key.m for e in self.kept}
        self.patched = {}  # execution -> the party whose o makes the sum 0

    def hash(self, data):
        return bytes.fromhex(self.cli("hash", data)[0])

    def block(self, seed, j):
        return bytes.fromhex(self.cli("block", seed, j)[0])

    def numbers(self, seed, first, count):
        return numbers(self.cli("numbers", seed, first, self.key.q, count)[0])

    def coefficients(self, e):
        n, m = self.key.n, self.key.m
        drawn = self.numbers(self.L, (e - 1) * ((n + m + 1) // 2), n + m)
        return drawn[:n], drawn[n:]

    def error(self, e):
        """The sum of all o of execution e."""
        q, s = self.key.q, self.secret[e]
        beta, gamma = self.coefficients(e)
        u = [(t - x) % q for t, x in zip(self.key.t, self.key.image(s))]
        v = [x * x - x for x in s]
        terms = list(zip(beta, u)) + list(zip(gamma, v)) + list(zip(gamma, self.d_error[e]))
        return sum(a * b for a, b in terms) % q

    def leaves(self, e):
        return [bytes.fromhex(x) for x in chunks(self.cli("leaves", self.key.N, self.masters[e - 1])[0], 16)]

    def shares(self, e):
        """b, d, s of all parties, by party."""
        q, m, N = self.key.q, self.key.m, self.key.N
        b, d, s = [], [], []
        for leaf in self.leaves(e)[:-1]:
            drawn = self.numbers(leaf, 2, 3 * m)
            b.append(drawn[:m]), d.append(drawn[m:2 * m]), s.append(drawn[2 * m:])
        b.append(self.numbers(self.leaves(e)[-1], 2, m))
        total = [sum(b[i][k] for i in range(N)) for k in range(m)]
        wrong = self.d_error.get(e, [0] * m)
        d.append([(total[k] ** 2 + wrong[k] - sum(x[k] for x in d)) % q for k in range(m)])
        secret = self.secret.get(e, [0] * m)
        s.append([(secret[k] - sum(x[k] for x in s)) % q for k in range(m)])
        return b, d, s

    def gammas(self, e, d):
        """The commitments to the parties' seeds."""
        states = self.leaves(e)
        r = [self.block(leaf, 0) for leaf in states]
        states[-1] += packed(d[-1])
        return [self.hash(x + y) for x, y in zip(states, r)]

    def outputs(self, e, b, d, s):
        q, n, m, N = self.key.q, self.key.n, self.key.m, self.key.N
        beta, gamma = self.coefficients(e)
        alpha = [sum(s[i][k] - b[i][k] for i in range(N)) % q for k in range(m)]
        share = pow(N, -1, q)
        o = []
        for i in range(N):
            rows = sum(beta[j] * (self.key.t[j] * share - x) for j, x in enumerate(self.key.image(s[i])))
            squares = sum(gamma[k] * (alpha[k] * (s[i][k] + b[i][k]) + d[i][k] - s[i][k]) for k in range(m))
            o.append((rows + squares) % q)
        if e in self.patched:
            i = self.patched[e] - 1
            o[i] = (o[i] - sum(o)) % q
        return o

    def parts(self, hidden):
        """The seven parts, each in bytes."""
        q, m, N = self.key.q, self.key.m, self.key.N
        h, omega, pi, psi, openings = [], [], [], [], []
        for e in range(1, self.key.M + 1):
            b, d, s = self.shares(e)
            gamma = self.gammas(e, d)
            h.append(self.hash(b"".join(gamma)))
            if e in self.E:
                continue
            alpha = [[(s[i][k] - b[i][k]) % q for i in range(N)] for k in range(m)]
            o = self.outputs(e, b, d, s)
            omega.append(self.hash(packed(s[-1]) + self.block(self.leaves(e)[-1], 1)))
            pi.append(self.hash(packed([x for row in alpha for x in row]) + self.block(self.K, 2 * e - 2)))
            psi.append(self.hash(packed(o) + self.block(self.K, 2 * e - 1)))
            i = hidden[len(openings)]
            seeds = bytes.fromhex(self.cli("open", N, i, self.masters[e - 1])[0])
            last = [] if i == N else d[-1] + s[-1]
            openings.append(seeds + gamma[i - 1] + packed([row[i - 1] for row in alpha] + [o[i - 1]] + last))
        masters = b"".join(self.masters[e - 1] for e in self.E)
        return [self.hash(b"".join(h)), bytes(self.E), masters + b"".join(omega) + self.hash(b"".join(pi)),
                self.L, self.hash(b"".join(psi)), bytes(hidden), self.K + b"".join(openings)]

    def run(self, hidden):
        return file_of(self.parts(hidden))

    def patch(self, but=()):
        """Hides a wrong sum behind the party that will be hidden, in all kept executions but some."""
        for e in self.kept:
            if e not in but and self.error(e) != 0:
                self.patched[e] = self.rng.randint(1, self.key.N)

    def hidden(self):
        return [self.patched.get(e, self.rng.randint(1, self.key.N)) for e in self.kept]

    def hidden_pair(self, e):
        """Two hidden lists that part first at e, and after it only where nothing is patched."""
        one = self.hidden()
        two = list(one)
        for j, kept in enumerate(self.kept):
            if kept == e or (kept > e and kept not in self.patched and self.rng.random() < 0.3):
                others = [i for i in range(1, self.key.N + 1) if i != one[j]]
                two[j] = self.rng.choice(others)
        return one, two


def file_of(parts):
    return bytes.fromhex(transcript([p.hex() for p in parts]))


# Cheating badges. Each knows L beforehand, and gives an execution whose errors cancel.

def wrong_secret(badge, e):
    key, rng = badge.key, badge.rng
    badge.secret[e] = [rng.randrange(key.q) for _ in range(key.m)]


def flipped_secret(badge, e):
    k = badge.rng.randrange(badge.key.m)
    badge.secret[e][k] ^= 1


def fix_by_square(badge, e):
    """A wrong d that makes the sum 0."""
    q = badge.key.q
    gamma = badge.coefficients(e)[1]
    k = badge.rng.choice([k for k in range(badge.key.m) if gamma[k]])
    badge.d_error[e][k] = (badge.d_error[e][k] - badge.error(e) * pow(gamma[k], -1, q)) % q


def cheat_three(badge, e):
    wrong_secret(badge, e)
    fix_by_square(badge, e)


def cheat_flipped(badge, e):
    flipped_secret(badge, e)
    fix_by_square(badge, e)


def cheat_lucky(badge, e):
    """Wrong squares with the right secret."""
    badge.d_error[e][badge.rng.randrange(badge.key.m)] = badge.rng.randrange(1, badge.key.q)
    fix_by_square(badge, e)


def cheat_four(badge, e):
    """A wrong secret whose errors cancel: its first entry solves a quadratic equation."""
    q, rng = badge.key.q, badge.rng
    gamma = badge.coefficients(e)[1]
    if gamma[0] == 0:
        return False
    for _ in range(200):
        wrong_secret(badge, e)
        at = []
        for x in (0, 1, q - 1):
            badge.secret[e][0] = x
            at.append(badge.error(e))
        c, half = at[0], pow(2, -1, q)
        a, b = ((at[1] + at[2]) * half - c) % q, (at[1] - at[2]) * half % q
        root = square_root((b * b - 4 * a * c) % q, q)
        if root is None:
            continue
        badge.secret[e][0] = (rng.choice([root, -root]) - b) * pow(2 * a, -1, q) % q
        return badge.error(e) == 0
    return False


def cheat_rows(badge, e):
    """A binary secret and a target that it misses; the errors of the rows cancel."""
    key, q, rng = badge.key, badge.key.q, badge.rng
    beta = badge.coefficients(e)[0]
    if key.n < 2 or beta[-1] == 0:
        return False
    u = [rng.randrange(q) for _ in range(key.n - 1)]
    u.append(-sum(x * y for x, y in zip(beta, u)) * pow(beta[-1], -1, q) % q)
    key.t = [(x + y) % q for x, y in zip(key.image(badge.secret[e]), u)]
    return any(u)


def cheat_entries(badge, e):
    """A right but not binary secret; the errors of the entries cancel."""
    key, t = badge.key, badge.key.t
    key.t = [0] * key.n
    A, key.A = key.A, [[0] * key.m for _ in range(key.n)]
    made = cheat_four(badge, e)
    key.A = A
    key.t = key.image(badge.secret[e]) if made else t
    return made and any(x > 1 for x in badge.secret[e])


CHEATS = {"three": (cheat_three, 3), "flipped": (cheat_flipped, 3), "lucky": (cheat_lucky, 2),
          "four": (cheat_four, 4), "rows": (cheat_rows, 4), "entries": (cheat_entries, 4)}


def altered(data, place, value):
    return data[:place] + value + data[place + len(value):]


def bit_flipped(rng, data):
    place = rng.randrange(len(data))
    return altered(data, place, bytes([data[place] ^ 1 << rng.randrange(8)]))


def alpha_places(key, hidden):
    """Where the alpha of each opening stand in part 7; o follows them."""
    depth, start, places = key.N.bit_length() - 1, 16, []
    for i in hidden:
        places.append(start + 16 * depth + 32)
        start += 16 * depth + 36 + 4 * key.m + (0 if i == key.N else 8 * key.m)
    return places


class Maker:
    def __init__(self, out, seed, build):
        self.rng = random.Random(seed)
        self.runner = Runner(build)
        self.cli = self.runner.cli(None)
        self.out = out
        self.lines = {}
        self.counts = {}

    def write(self, kind, v, **expected):
        """Completes the vector by the implementation's values; expected ones must agree."""
        number = self.counts[kind] = self.counts.get(kind, 0) + 1
        v = {name: x.hex() if isinstance(x, bytes) else x for name, x in v.items()}
        if "name" in v:
            v["id"] = "made-%d-%s" % (number, v.pop("name"))
        v.update(self.runner.compute(kind, v))
        for name, x in expected.items():
            got = v["expect"] if isinstance(v["expect"], int) else v["expect"].get(name)
            assert got == x, (v["id"], v["expect"], x)
        self.lines.setdefault(kind, []).append(json.dumps(v) + "\n")
        return v

    def close(self, kept=None, check=False):
        """Writes the files, after the lines of theirs that are kept; or only compares them. How many differ."""
        differ = 0
        for kind, made in self.lines.items():
            path = os.path.join(self.out, kind + ".jsonl")
            before = open(path).readlines() if kept and os.path.exists(path) else []
            after = [x for x in before if kept(x)] + made
            differ += before != after
            if check and before != after:
                print("%s: not the vectors that are made anew" % path)
            elif not check:
                with open(path, "w") as f:
                    f.writelines(after)
        self.runner.close()
        return differ

    # The prover.

    def inputs(self, key, secret):
        rng = self.rng
        E = bytes(sorted(rng.sample(range(1, key.M + 1), key.tau)))
        hidden = bytes(rng.randint(1, key.N) for _ in range(key.M - key.tau))
        return {"key": key.bytes(), "masters": rng.randbytes(16 * key.M), "secret": bytes(secret),
                "E": E, "K": rng.randbytes(16), "L": rng.randbytes(16), "hidden": hidden}

    def honest(self, name, key, secret):
        return self.write("prover", {"name": name, **self.inputs(key, secret)})

    def lent(self, key, secret):
        rng = self.rng
        good = self.inputs(key, secret)
        for call in (1, 3, 5, 7):
            lengths = {"out_len": None, "place": 0, "work_len": None, "at_len": None}
            message = self.runner.compute("lent", {**good, **lengths, "call": call})["expect"]["message"]
            size, work, at = len(message) // 2, 4 * key.m * key.N, key.n * (key.m + 1)
            cases = [("fits", {"out_len": size + 9, "place": rng.randrange(10)}),
                     ("exact", {"out_len": size, "work_len": work, "at_len": at}),
                     ("short", {"out_len": size - 1}),
                     ("late", {"out_len": size + 5, "place": 6}),
                     ("past", {"out_len": size, "place": size + 1}),
                     ("far", {"out_len": size, "place": 2 ** 64 - rng.randint(1, size)}),
                     ("work", {"work_len": work - 1, "at_len": at}),
                     ("at", {"work_len": work, "at_len": at - 1})]
            cases += [("damaged", self.damaged_inputs(good, key)) for _ in range(4)]
            for name, change in cases:
                self.write("lent", {"name": "%s-%d" % (name, call), "call": call, **good, **lengths, **change})

    def damaged_inputs(self, good, key):
        """One or two inputs wrong, and sometimes a short list."""
        rng, bad = self.rng, {}
        for name in rng.sample(["key", "masters", "secret", "E", "K", "L", "hidden"], rng.randint(1, 2)):
            data = good[name]
            bad[name] = rng.choice([data[:-1], data + b"\1", data[1:], bit_flipped(rng, data),
                                    altered(data, len(data) - 1, bytes([rng.choice([0, 1, 2, 255])]))])
        if rng.random() < 0.3:
            bad.update({"out_len": 0} if rng.random() < 0.5 else {"work_len": 0, "at_len": 0})
        return bad

    # The judge.

    def judge(self, name, key, run, expect=None):
        wanted = {} if expect is None else {"expect": expect}
        return self.write("judge", {"name": name, "key": key, "run": run}, **wanted)

    def judged(self, key, secret):
        rng = self.rng
        badge = Badge(self.cli, rng, key, secret)
        hidden = badge.hidden()
        parts, data = badge.parts(hidden), key.bytes()
        run = file_of(parts)
        self.judge("honest", data, run, 0)
        self.damaged_key(key, run)
        self.damaged_layout(data, run)
        self.damaged_lists(data, key, parts)
        self.damaged_opening(data, key, parts, hidden)
        for name, place, number in (("gamma", 0, 17), ("pi", 2, 18), ("psi", 4, 19)):
            changed = altered(parts[place], len(parts[place]) - 1, bytes([parts[place][-1] ^ 1]))
            self.judge(name, data, file_of(parts[:place] + [changed] + parts[place + 1:]), number)
        for _ in range(6):
            self.judge("flipped-bit", data, bit_flipped(rng, run))
        self.judge("flipped-key-bit", bit_flipped(rng, data), run)
        self.forged(data, key)

    def edges(self):
        """Every limit of the key from both sides, and every word of small transcripts."""
        self.key_edges()
        key, secret = random_key(self.rng, 257, 1, 2, 4, 3, 1)
        badge = Badge(self.cli, self.rng, key, secret)
        hidden = [4, 2]
        self.layout_edges(key.bytes(), badge.run(hidden))
        self.opening_edges(key, badge.parts(hidden), hidden)

    def key_edges(self):
        def judge(expect, q=257, n=1, m=2, N=2, M=2, tau=1, entries=b""):
            self.judge("edge-key", packed([q, n, m, N, M, tau]) + entries, b"", expect)
        for q in (0, 1, 256, 258, 65536, 65538, 2147483646, 2147483648, 2 ** 32 - 1):
            judge(2, q=q)
        for n, m in ((0, 2), (2, 2), (33, 128), (1, 1), (1, 129), (2 ** 31, 2), (2 ** 32 - 1, 2), (1, 2 ** 32 - 1)):
            judge(3, n=n, m=m)
        for n, m in ((1, 2), (31, 32), (32, 33), (32, 128), (1, 128)):
            judge(4, n=n, m=m)
        for N in (0, 1, 3, 6, 31, 33, 64, 2 ** 31, 2 ** 32 - 1):
            judge(3, N=N)
        for N in PARTIES:
            judge(4, N=N)
        for M, tau in ((0, 0), (1, 1), (2, 0), (2, 2), (33, 1), (32, 32), (0, 2 ** 32 - 1), (2 ** 32 - 1, 1)):
            judge(3, M=M, tau=tau)
        for M, tau in ((2, 1), (32, 1), (32, 31)):
            judge(4, M=M, tau=tau)
        self.judge("edge-key", packed([257, 1, 2, 2, 2, 1])[:23], b"", 1)
        for q in MODULI:
            judge(4, q=q, entries=packed([0, 0, 0])[:11])
            judge(4, q=q, entries=packed([0, 0, 0]) + b"\0")
            judge(12, q=q, entries=packed([q - 1] * 3))
            for place in range(3):
                judge(5, q=q, entries=altered(packed([0, 0, 0]), 4 * place, packed([q])))

    def layout_edges(self, data, run):
        words = struct.unpack_from("<14I", run)
        for place, value in enumerate(words):
            changed = value + self.rng.choice([-1, 1])
            self.judge("edge-word", data, altered(run, 4 * place, packed([changed])), 12)
        length = words[13]
        self.judge("edge-end", data, run + b"\0", 12)
        self.judge("edge-end", data, run[:-1], 12)
        self.judge("edge-end", data, altered(run, 52, packed([length + 1])) + b"\0", 13)
        self.judge("edge-end", data, altered(run, 52, packed([length - 1]))[:-1], 13)
        for size in (56, words[12] - 1):  # the sum is right modulo 2^32
            self.judge("edge-end", data, altered(run, 52, packed([2 ** 32 + size - words[12]]))[:size], 12)

    def opening_edges(self, key, parts, hidden):
        """The first and the last number of each list, of each opening."""
        for alpha, i in zip(alpha_places(key, hidden), hidden):
            count = key.m + 1 if i == key.N else 3 * key.m + 1
            for k in sorted({0, key.m - 1, key.m, key.m + 1, 2 * key.m, count - 1}):
                if k < count:
                    changed = altered(parts[6], alpha + 4 * k, packed([key.q]))
                    self.judge("edge-number", key.bytes(), file_of(parts[:6] + [changed]), 14)

    def damaged_key(self, key, run):
        rng, data = self.rng, key.bytes()
        self.judge("key-short", data[:rng.randrange(24)], run, 1)
        self.judge("key-modulus", altered(data, 0, packed([rng.choice([0, 2, 256, 2 ** 31, key.q + 2])])), run, 2)
        limits = [(4, [0, key.m, 33]), (8, [0, 1, 129]), (12, [0, 1, 3, 64]), (16, [0, 1, 33]), (20, [0, key.M, 33])]
        place, values = rng.choice(limits)
        self.judge("key-limits", altered(data, place, packed([rng.choice(values)])), run, 3)
        self.judge("key-length", rng.choice([data[:-1], data + b"\0", data[:-4], data[:24]]), run, 4)
        place = 24 + 4 * rng.randrange(key.n * (key.m + 1))
        self.judge("key-entry", altered(data, place, packed([rng.choice([key.q, 2 ** 32 - 1])])), run, 5)

    def damaged_layout(self, data, run):
        rng = self.rng
        self.judge("head-short", data, run[:rng.randrange(56)], 12)
        self.judge("cut", data, run[:rng.randrange(56, len(run))], 12)
        self.judge("longer", data, run + rng.randbytes(rng.randint(1, 9)), 12)
        place = 4 * rng.randrange(13)
        value = struct.unpack_from("<I", run, place)[0]
        changed = rng.choice([value + 1, value - 1, 0, 2 ** 32 - 1, value + 2 ** 31])
        if changed != value:
            self.judge("pair", data, altered(run, place, packed([changed])), 12)
        length = struct.unpack_from("<I", run, 52)[0]
        extra = rng.randint(1, 40)
        self.judge("opening-longer", data, altered(run, 52, packed([length + extra])) + bytes(extra), 13)
        self.judge("opening-shorter", data, altered(run, 52, packed([length - 1]))[:-1], 13)

    def damaged_lists(self, data, key, parts):
        rng = self.rng
        place = rng.randrange(key.tau)
        for value in (0, key.M + 1, 255):
            changed = altered(parts[1], place, bytes([value]))
            self.judge("opened-%d" % value, data, file_of([parts[0], changed] + parts[2:]), 7)
        if key.tau > 1:
            changed = bytes(reversed(parts[1]))
            self.judge("opened-falling", data, file_of([parts[0], changed] + parts[2:]), 7)
        for value in (0, key.N + 1, 255):
            changed = altered(parts[5], rng.randrange(len(parts[5])), bytes([value]))
            self.judge("hidden-%d" % value, data, file_of(parts[:5] + [changed, parts[6]]), 10)

    def damaged_opening(self, data, key, parts, hidden):
        """Numbers of q or more, wrong sums and wrong shares in one opening of part 7."""
        rng, places = self.rng, alpha_places(key, hidden)
        j = rng.randrange(len(hidden))
        alpha = places[j]
        o, d, s = alpha + 4 * key.m, alpha + 4 * key.m + 4, alpha + 8 * key.m + 4
        number = struct.unpack_from("<I", parts[6], o)[0]

        def judge(name, place, value, expect):
            changed = altered(parts[6], place, packed([value]))
            self.judge(name, data, file_of(parts[:6] + [changed]), expect)
        judge("number-alpha", alpha + 4 * rng.randrange(key.m), rng.choice([key.q, 2 ** 32 - 1]), 14)
        judge("number-o", o, number + key.q, 14)
        judge("sum", o, (number + 1) % key.q, 15)
        if hidden[j] != key.N:
            k = 4 * rng.randrange(key.m)
            judge("number-last", rng.choice([d, s]) + k, key.q, 14)
            share = struct.unpack_from("<I", parts[6], s + k)[0]
            judge("omega", s + k, (share + 1) % key.q, 16)
        Gamma = altered(parts[6], alpha - 32, bytes([parts[6][alpha - 32] ^ 128]))
        self.judge("hidden-gamma", data, file_of(parts[:6] + [Gamma]), 17)

    def forged(self, data, key):
        """Accepted without a secret: every wrong sum stands behind the hidden party."""
        badge = Badge(self.cli, self.rng, key, [0] * key.m)
        for e in badge.kept:
            wrong_secret(badge, e)
        badge.patch()
        hidden = badge.hidden()
        parts = badge.parts(hidden)
        self.judge("forged", data, file_of(parts), 0)
        if key.N in hidden:  # nobody reads Omega where N is hidden
            place = 16 * key.tau + 32 * hidden.index(key.N)
            changed = altered(parts[2], place, self.rng.randbytes(32))
            self.judge("forged-omega", data, file_of(parts[:2] + [changed] + parts[3:]), 0)

    # Pairs.

    def pair(self, name, key, run1, run2, lens=None, **expected):
        return self.write("pair", {"name": name, "key": key, "run1": run1, "run2": run2, "lens": lens}, **expected)

    def pairs(self, q, N):
        rng = self.rng
        key, secret = small_key(rng, q, N)
        badge = Badge(self.cli, rng, key, secret)
        one, two = [badge.run(x) for x in badge.hidden_pair(rng.choice(badge.kept))]
        data = key.bytes()
        self.pair("honest", data, one, two, finding=2, secret=bytes(secret).hex())
        self.write("trace", {"name": "honest", "key": data, "run1": one, "run2": two})
        self.refused_pairs(key, badge, one, two)
        for name, (cheat, finding) in CHEATS.items():
            self.cheating_pair(name, cheat, finding, q, N)

    def cheating_pair(self, name, cheat, finding, q, N):
        rng = self.rng
        while True:
            key, secret = small_key(rng, q, N)
            badge = Badge(self.cli, rng, key, secret)
            e = rng.choice(badge.kept)
            if cheat(badge, e) is False:
                continue
            assert badge.error(e) == 0
            badge.patch(but=[e])
            one, two = [badge.run(x) for x in badge.hidden_pair(e)]
            v = self.pair(name, key.bytes(), one, two)
            if v["expect"]["finding"] == finding:
                break
            assert q == 257, v  # a random secret or square may be right by chance
        if rng.random() < 0.3:
            self.write("trace", {"name": name, "key": key.bytes(), "run1": one, "run2": two})

    def refused_pairs(self, key, badge, one, two):
        rng, data = self.rng, key.bytes()
        enough = {"buffer1_len": 16400, "buffer2_len": 16400, "secret_len": key.m, "uv_len": key.n + key.m,
                  "work_len": 4 * key.m * key.N, "at_len": key.n * (key.m + 1)}
        self.pair("enough", data, one, two, enough, finding=2)
        name = rng.choice(list(enough))
        short = {**enough, name: enough[name] - 1}
        self.pair("short-" + name, data, one, two, short, refused=11)
        self.pair("short-" + name, data, b"", b"", short, refused=11)
        self.pair("short-" + name, data[:-1], one, two, short, refused=4)
        bad = [data[:23], altered(data, 0, packed([3])), altered(data, 12, packed([5])), data + b"\0",
               altered(data, 24, packed([key.q]))]
        for number, damaged in enumerate(bad, 1):
            self.pair("key", damaged, one, two, short, refused=number)
        self.pair("same", data, one, one, refused=23)
        self.pair("first-cut", data, one[:-1], two, refused=20)
        self.pair("second-cut", data, one, two[:-1], refused=21)
        self.pair("both-cut", data, one[:-1], two[:-1], refused=20)
        other = Badge(self.cli, rng, key, badge.secret[badge.kept[0]])
        self.pair("other-badge", data, one, other.run(other.hidden()), refused=22)
        other.masters, other.E, other.kept, other.K = badge.masters, badge.E, badge.kept, badge.K
        other.secret, other.d_error = badge.secret, badge.d_error
        self.pair("other-coefficients", data, one, other.run(other.hidden()), refused=22)

    # Collisions, with a hash of few values.

    def weak(self, q, N, modulus, tries):
        """Pairs of transcripts whose openings were altered at random and are accepted all the same."""
        rng, cli = self.rng, self.runner.cli(modulus)
        key, secret = small_key(rng, q, N)
        badge = Badge(cli, rng, key, secret)
        data = key.bytes()
        lists = badge.hidden_pair(rng.choice(badge.kept))
        parts = [badge.parts(hidden) for hidden in lists]
        for _ in range(tries):
            second = self.refitted(cli, key, parts[1], lists[1])
            runs = [file_of(parts[0]), file_of(second)]
            if rng.random() < 0.5:
                runs.reverse()
            if all(cli("judge", data, run) == ["0"] for run in runs):
                self.write("weak_pair", {"name": "weak", "modulus": modulus, "key": data,
                                         "run1": runs[0], "run2": runs[1], "lens": None})

    def weak_outputs(self, q, N, tries):
        """A wrong sum hidden behind the one party in one transcript and behind the other in the second."""
        rng, cli = self.rng, self.runner.cli(2)
        for _ in range(tries):
            key, secret = small_key(rng, q, N)
            badge = Badge(cli, rng, key, secret)
            e = rng.choice(badge.kept)
            wrong_secret(badge, e)
            badge.patch()
            runs = []
            for hidden in badge.hidden_pair(e):
                badge.patched[e] = hidden[badge.kept.index(e)]
                runs.append(badge.run(hidden))
            if cli("pair", key.bytes(), *runs)[0] == "finding":
                self.write("weak_pair", {"name": "outputs", "modulus": 2, "key": key.bytes(),
                                         "run1": runs[0], "run2": runs[1], "lens": None})

    def refitted(self, cli, key, parts, hidden):
        """Part 7 with one or two words changed and every o fitted to the sum 0."""
        rng, part, places = self.rng, parts[6], alpha_places(key, hidden)
        for _ in range(rng.randint(1, 2)):
            place = 4 * rng.randrange(len(part) // 4)
            part = altered(part, place, packed([rng.randrange(key.q)]))
        if rng.random() < 0.8:
            outputs = [numbers(x) for x in cli("outputs", key.bytes(), file_of(parts[:6] + [part]))]
            for place, i, o in zip(places, hidden, outputs):
                fitted = (o[i - 1] - sum(o)) % key.q
                part = altered(part, place + 4 * key.m, packed([fitted]))
        return parts[:6] + [part]

    # Primitives.

    def primitives(self, key, secret):
        rng, data = self.rng, key.bytes()
        seed, leaf = rng.randbytes(16), rng.randbytes(16)
        K, L, e = rng.randbytes(16), rng.randbytes(16), rng.randint(1, key.M)
        first, count = rng.choice([0, 2, 255, rng.randrange(2 ** 32)]), rng.randint(1, 9)
        self.write("primitives", {"name": "inverse", "what": "inverse", "N": key.N, "q": key.q})
        self.write("primitives", {"name": "tree", "what": "tree", "N": key.N, "master": seed})
        self.write("primitives", {"name": "stream", "what": "stream", "seed": seed, "first": first, "q": key.q,
                                  "numbers": [0] * count})
        self.write("primitives", {"name": "shares", "what": "shares", "key": data, "leaf": leaf})
        self.write("primitives", {"name": "h", "what": "h", "key": data, "master": seed})
        self.write("primitives", {"name": "coefficients", "what": "coefficients", "key": data, "L": L, "e": e})
        self.write("primitives", {"name": "output", "what": "output", "key": data, "master": seed,
                                  "secret": bytes(secret), "K": K, "L": L, "e": e})

    def round(self):
        rng = self.rng
        for q in MODULI:
            for N in PARTIES:
                key, secret = small_key(rng, q, N)
                self.primitives(key, secret)
                self.lent(key, secret)
                self.judged(key, secret)
                self.pairs(q, N)
                self.weak(q, N, rng.choice([2, 16]), 40)
                self.weak_outputs(q, N, 4)
                self.honest("small", key, secret)
                m = rng.randint(2, 24)
                M = rng.randint(2, 32)
                key, secret = random_key(rng, q, rng.randint(1, m - 1), m, N, M, rng.randint(1, M - 1))
                self.honest("middle", key, secret)
        self.honest("largest", *random_key(rng, 2147483647, 32, 128, 32, 32, rng.choice([1, 16, 31])))


def main():
    options = argparse.ArgumentParser(description=__doc__.split("\n")[0])
    options.add_argument("--out", required=True)
    options.add_argument("--seed", type=int, default=1)
    options.add_argument("--rounds", type=int, default=1)
    options.add_argument("--build", default=BUILD)
    options.add_argument("--orders", action="store_true")
    options.add_argument("--check", action="store_true")
    chosen = options.parse_args()
    os.makedirs(chosen.out, exist_ok=True)
    maker = Maker(chosen.out, chosen.seed, chosen.build)
    if chosen.orders:
        from orders import Orders
        Orders(maker).all()
        differ = maker.close(lambda line: not json.loads(line)["id"].startswith("order-"), chosen.check)
    else:
        maker.edges()
        for _ in range(chosen.rounds):
            maker.round()
        maker.close()
    print(", ".join("%s %d" % x for x in sorted(maker.counts.items())))
    sys.exit(1 if chosen.check and differ else 0)


if __name__ == "__main__":
    main()
