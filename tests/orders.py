"""Vectors for the order of the refusals, for tests that stand alone and for sheets: `make_vectors.py --orders` writes them.

In document 01's table the first number that applies is given. For each two neighbours of an order there is a vector to which both
apply (for the key's own numbers in the files of judge and pair reader): whoever tests in another order turns two neighbours round, and
gives the second number there. For each part that a test compares there is a vector that differs in this part alone. Sheets have 0, 1, 9
to 11, 99 and more runs, all accepted, all refused and mixed."""
import random

from make_vectors import Badge, altered, alpha_places, file_of, packed, random_key, wrong_secret

LENGTHS = ["buffer1_len", "buffer2_len", "secret_len", "uv_len", "work_len", "at_len"]


def flipped(data, place):
    return altered(data, place, bytes([data[place] ^ 1]))


def neighbours(chain):
    return list(zip(chain, chain[1:]))


class Altered(Badge):
    """A badge that gives another commitment for one party of one execution."""
    other = None

    def gammas(self, e, d):
        made = super().gammas(e, d)
        if self.other and self.other[0] == e:
            made[self.other[1] - 1] = self.other[2]
        return made


class Orders:
    def __init__(self, maker):
        self.maker, self.rng = maker, random.Random("orders")
        self.key, self.secret = random_key(self.rng, 257, 1, 2, 2, 3, 1)
        self.data = self.key.bytes()
        self.work, self.at = 4 * self.key.m * self.key.N, self.key.n * (self.key.m + 1)

    def write(self, kind, name, v, **expected):
        v = {x: y.hex() if isinstance(y, bytes) else y for x, y in v.items()}
        self.maker.write(kind, {"id": "order-" + name, **v}, **expected)

    def badge(self, key=None, kind=Badge):
        """With execution 2 opened, where there are three."""
        badge = kind(self.maker.cli, self.rng, key or self.key, self.secret)
        badge.E = [2]
        badge.kept = [e for e in range(1, badge.key.M + 1) if e != 2]
        badge.secret = {e: list(self.secret) for e in badge.kept}
        badge.d_error = {e: [0] * badge.key.m for e in badge.kept}
        return badge

    def bad_keys(self):
        """A key for each of 1 to 5, to which all later ones apply that can."""
        entry = packed([257])
        return {1: altered(self.data, 0, packed([256, 0]))[:23], 2: altered(self.data, 0, packed([256, 0])) + entry, 3: altered(self.data, 4, packed([0])) + entry,
                4: altered(self.data, 24, entry) + entry, 5: altered(self.data, 24, entry)}

    # The judge.

    def flaws(self):
        """What makes each number apply to a transcript with two kept executions, in the judge's order."""
        omega, o = 16 * self.key.tau, [x + 4 * self.key.m for x in alpha_places(self.key, [1, 1])]

        def at(part, change):
            return lambda parts: parts[:part] + [change(parts[part])] + parts[part + 1:]

        def plus_one(place):
            return lambda p: altered(p, place, packed([(int.from_bytes(p[place:place + 4], "little") + 1) % self.key.q]))
        return {"7": at(1, lambda p: b"\0"), "10": at(5, lambda p: p[:-1] + b"\0"), "13": at(6, lambda p: p + b"\0"),
                "14": at(6, lambda p: altered(p, o[1] - 4, packed([self.key.q]))),
                "16-first": at(2, lambda p: flipped(p, omega)), "15-first": at(6, plus_one(o[0])),
                "16-last": at(2, lambda p: flipped(p, omega + 32)), "15-last": at(6, plus_one(o[1])),
                "17": at(0, lambda p: flipped(p, 31)), "18": at(2, lambda p: flipped(p, len(p) - 1)),
                "19": at(4, lambda p: flipped(p, 31))}

    def spoiled(self, *names):
        """A transcript with these flaws; 12 is a byte past the end."""
        parts = self.honest
        for name in names:
            parts = self.flaws()[name](parts) if name != "12" else parts
        return file_of(parts) + (b"\0" if "12" in names else b"")

    def judge(self):
        self.honest = self.badge().parts([1, 1])
        chain = ["12", *self.flaws()]
        for one, two in neighbours(chain):
            self.write("judge", "%s-before-%s" % (one, two), {"key": self.data, "run": self.spoiled(one, two)},
                       expect=int(one.split("-")[0]))
        self.write("judge", "all", {"key": self.data, "run": self.spoiled(*chain)}, expect=12)
        for number, key in self.bad_keys().items():
            self.write("judge", "%d-before-all" % number, {"key": key, "run": self.spoiled(*chain)}, expect=number)
        for part in range(7):
            self.write("judge", "gap-before-part-%d" % (part + 1), {"key": self.data, "run": self.with_gap(part)}, expect=12)
        for part in range(6):
            longer = self.honest[:part] + [self.honest[part] + b"\0"] + self.honest[part + 1:]
            self.write("judge", "longer-part-%d" % (part + 1), {"key": self.data, "run": file_of(longer)}, expect=12)

    def with_gap(self, part):
        """A byte that belongs to no part stands before this one."""
        run, start = file_of(self.honest), 56 + sum(map(len, self.honest[:part]))
        for p in range(part, 7):
            offset = int.from_bytes(run[8 * p:8 * p + 4], "little")
            run = altered(run, 8 * p, packed([offset + 1]))
        return run[:start] + b"\0" + run[start:]

    def judge_lent(self):
        """11 right after the key, before anything of the transcript."""
        def write(name, expect, work, at, *flaws, key=self.data):
            self.write("judge_lent", name, {"key": key, "run": self.spoiled(*flaws), "work_len": work, "at_len": at}, expect=expect)
        write("enough", 0, None, None)
        write("exact", 0, self.work, self.at)
        write("work-short", 11, self.work - 1, self.at)
        write("at-short", 11, self.work, self.at - 1)
        write("none", 11, 0, 0)
        for number, key in self.bad_keys().items():
            write("%d-before-11" % number, number, 0, 0, "12", key=key)
        for flaw in ("12", *self.flaws()):
            write("11-before-%s" % flaw, 11, self.work - 1, self.at, flaw)
            write("exact-%s" % flaw, int(flaw.split("-")[0]), self.work, self.at, flaw)
        write("11-of-at-before-12", 11, self.work, self.at - 1, "12")

    # The prover.

    def prover(self):
        key = self.key
        good = {"key": self.data, "masters": self.rng.randbytes(16 * key.M), "secret": bytes(self.secret), "E": b"\2",
                "K": self.rng.randbytes(16), "L": self.rng.randbytes(16), "hidden": b"\1\2",
                "out_len": None, "place": 0, "work_len": None, "at_len": None}
        wrong = {"5": {"key": self.bad_keys()[5]}, "6-masters": {"masters": good["masters"][:-1]}, "6-secret": {"secret": bytes(key.m + 1)},
                 "6-K": {"K": good["K"][1:]}, "6-L": {"L": good["L"] + b"\0"}, "7": {"E": b"\0"},
                 "8": {"secret": b"\2" + bytes(key.m - 1)}, "9": {"secret": bytes(1 - x for x in self.secret)}, "10": {"hidden": b"\1\3"},
                 "11-out": {"out_len": 0}, "11-place": {"place": 2 ** 64 - 1, "out_len": 9}, "11-work": {"work_len": self.work - 1},
                 "11-at": {"at_len": self.at - 1}}
        six = {1: ["6-masters"], 3: ["6-masters", "6-secret", "6-K"], 5: ["6-masters", "6-secret", "6-K", "6-L"]}
        six[7] = six[5]
        assert key.image(wrong["8"]["secret"]) != key.t  # 9 applies as well
        for call in (1, 3, 5, 7):
            pairs = [("5", x) for x in six[call]]
            if call > 1:
                pairs += [(x, "7") for x in six[call]] + [("6-K", "8"), ("7", "8"), ("7", "9"), ("8", "9")]
            if call == 7:
                pairs += [(x, "10") for x in ("6-L", "7", "8", "9")]
            last = {1: "6-masters", 3: "9", 5: "9", 7: "10"}[call]
            pairs += [(last, x) for x in ("11-out", "11-place", "11-work", "11-at")]
            for one, two in pairs:
                v = {"call": call, **good, **wrong[two], **wrong[one]}
                self.write("lent", "%d-%s-before-%s" % (call, one, two), v, refused=int(one.split("-")[0]))

    # Pairs.

    def pair(self, name, run1, run2, lens=None, key=None, kind="pair", more=(), **expected):
        v = {"key": key or self.data, "run1": run1, "run2": run2, "lens": lens, **dict(more)}
        self.write(kind, name, v, **expected)

    def pairs(self):
        badge = self.badge()
        one, two = badge.run([1, 2]), badge.run([2, 2])
        front, end = 56 + len(badge.parts([1, 2])[0]), len(two)
        psi = end - len(badge.parts([2, 2])[6]) - 2 - 1  # the last byte of part 5
        self.answers(one, two)
        short = dict.fromkeys(LENGTHS)
        for name in LENGTHS:
            self.pair("11-of-%s-before-20" % name, b"", b"", {**short, name: 0}, refused=11)
        bad_one, bad_two = flipped(one, len(one) - 1), flipped(two, psi)
        self.pair("20-before-21", bad_one, bad_two, refused=20)
        self.pair("20-before-22", flipped(one, front - 1), two, refused=20)
        self.pair("21-before-22", one, bad_two, refused=21)
        self.pair("21-before-22-of-part-1", one, flipped(two, front - 1), refused=21)
        self.pair("21-before-23", one, bad_one, refused=21)
        self.pair("22-before-23", one, self.badge().run([1, 2]), refused=22)
        self.pair("23-alone", one, one, refused=23)
        self.single_parts()

    def answers(self, one, two):
        """The list for the answer has eight numbers or more, and is asked for right after the key."""
        def lens(count):
            return {**dict.fromkeys(LENGTHS), "answer_len": count}
        for count, expected in ((0, {"refused": 11}), (7, {"refused": 11}), (8, {"finding": 2}), (9, {"finding": 2})):
            self.pair("answer-%d" % count, one, two, lens(count), **expected)
        exact = dict(zip(LENGTHS, [16400, 16400, self.key.m, self.key.n + self.key.m, self.work, self.at]))
        self.pair("answer-7-exact", one, two, {**exact, "answer_len": 7}, refused=11)
        self.pair("answer-8-exact", one, two, {**exact, "answer_len": 8}, finding=2)
        self.pair("11-of-answer-before-20", b"", b"", lens(7), refused=11)
        self.pair("11-of-answer-before-23", one, one, lens(7), refused=11)
        for number, key in self.bad_keys().items():
            self.pair("%d-before-11-of-answer" % number, one, two, lens(7), key, refused=number)

    def single_parts(self):
        """Accepted transcripts that differ in one of parts 1 to 5 alone; in part 2 alone by a weak hash."""
        badge = self.badge(kind=Altered)
        one = badge.run([1, 2])
        badge.other = (1, 2, self.rng.randbytes(32))
        self.pair("part-1-alone", one, badge.run([2, 2]), refused=22)
        badge = self.badge()
        parts = badge.parts([2, 2])
        parts[2] = flipped(parts[2], 16 + 32)  # Omega of the last, where N is hidden in both
        self.pair("part-3-alone", badge.run([1, 2]), file_of(parts), refused=22)
        self.part_4_alone()
        badge = self.badge()
        wrong_secret(badge, 1)
        badge.patched[1] = 1
        one = badge.run([1, 2])
        badge.patched[1] = 2
        self.pair("part-5-alone", one, badge.run([2, 2]), refused=22)
        self.part_2_alone()

    def part_4_alone(self):
        """Two L with the same coefficients in the one kept execution."""
        key, _ = random_key(self.rng, 257, 1, 2, 2, 2, 1)
        key.t = key.image(self.secret)
        badge, seen = self.badge(key), {}
        while True:
            found = str(badge.coefficients(1))
            if found in seen:
                break
            seen[found] = badge.L
            badge.L = self.rng.randbytes(16)
        one = badge.run([1])
        badge.L = seen[found]
        self.pair("part-4-alone", one, badge.run([2]), key=key.bytes(), refused=22)

    def part_2_alone(self):
        """Both executions have one master seed, and the hash has two values."""
        cli = self.maker.runner.cli(2)
        key, _ = random_key(self.rng, 257, 1, 2, 2, 2, 1)
        key.t = key.image(self.secret)
        while True:
            runs = []
            master, L = self.rng.randbytes(16), self.rng.randbytes(16)
            for E, hidden in ((1, 1), (2, 2)):
                badge = Badge(cli, self.rng, key, self.secret)
                badge.masters, badge.E, badge.kept, badge.L = [master] * 2, [E], [3 - E], L
                badge.secret, badge.d_error = {3 - E: list(self.secret)}, {3 - E: [0] * key.m}
                runs.append(badge.parts([hidden]))
            if all(x == y for x, y in zip(runs[0][:5], runs[1][:5]) if x != runs[0][1]):
                break
        self.pair("part-2-alone", file_of(runs[0]), file_of(runs[1]), key=key.bytes(), kind="weak_pair", more={"modulus": 2}.items(),
                  refused=22)

    # Sheets.

    def report(self, name, runs, accepted, refused, key=None):
        v = self.maker.write("report", {"id": "order-" + name, "key": self.data if key is None else key, "runs": [x.hex() for x in runs]})
        last = "accepted %d refused %d total %d\n" % (accepted, refused, accepted + refused)
        assert v["text"].splitlines(True)[-1] == last, (name, v["text"])

    def reports(self):
        good, flaws = self.spoiled(), ["12", *self.flaws()]
        self.report("no-run", [], 0, 0)
        self.report("no-run-and-no-key", [], 0, 0, b"")
        self.report("one-empty-run", [b""], 0, 1)
        self.report("one-accepted", [good], 1, 0)
        self.report("empty-between", [good, b"", good], 2, 1)
        for number, key in {0: b"", **self.bad_keys()}.items():
            self.report("key-%d" % number, [good, b""], 0, 2, key)
        self.report("every-number", [self.spoiled(x) for x in flaws], 0, len(flaws))
        for count in (9, 10, 11):
            self.report("%d-runs" % count, [good] + [b""] * (count - 1), 1, count - 1)
        self.report("10-accepted", [good] * 10 + [b""], 10, 1)
        self.report("99-runs", [good if i % 9 == 4 else b"" for i in range(99)], 11, 88)
        self.report("101-runs", [b""] * 98 + [good] * 3, 1, 98)

    def all(self):
        self.judge()
        self.judge_lent()
        self.prover()
        self.pairs()
        self.reports()
